//! Sheets on which settling takes many phases and rounds, and how its cost is counted.

use crate::independent::{keeps, level, permitted};
use crate::rules::RuleSet;
use crate::sheet::{Bound, FAR_MARK, MAX_BOUNDS, MAX_TERMS, REACH, Sheet, Term};

/// What a settling takes.
#[derive(Clone, Copy, Debug, Default, PartialEq, Eq)]
pub struct Cost {
    /// Phases until one lifts nothing.
    pub phases: usize,
    /// Bounds looked at, in all phases.
    pub looks: usize,
    /// Events lowered, in all phases.
    pub lowerings: usize,
    /// Whether the bounds are contradictory.
    pub contradictory: bool,
}

/// Counts what settling the bounds takes; gives up after so many looks.
pub fn cost<R: RuleSet>(rules: &R, sheet: &Sheet, source: usize, patience: usize) -> Cost {
    let mut cost = Cost::default();
    let mut x = level(sheet.events(), source, -REACH);
    while cost.looks < patience {
        let mut y = level(sheet.events(), source, FAR_MARK);
        let mut quiet = 0;
        for bound in sheet.bounds.iter().cycle() {
            cost.looks += 1;
            quiet += 1;
            if let Some(time) = permitted(rules, bound, &x, &y) {
                cost.lowerings += 1;
                y[bound.to] = time;
                quiet = 0;
            }
            if quiet == sheet.bounds.len() {
                break;
            }
        }
        cost.phases += 1;
        if y == x {
            break;
        }
        x = y;
    }
    cost.contradictory = !sheet.bounds.iter().all(|bound| keeps(rules, bound, &x));
    cost
}

/// So many waves that run down a chain of events, one event in each phase; with as many bounds as a sheet takes.
///
/// In wave w an event may stand where the waves before left it, or w ticks before its neighbour once that has risen. The
/// last event, when it rises, lets the first rise again, and the next wave starts. The bounds run through the chain
/// backwards, so that a phase takes a round for each event that has risen.
pub fn waves(events: usize, waves: usize, rule: WaveRule) -> Sheet {
    let crest = Crest {
        last: events as i64 - 1,
        waves: waves as i64,
    };
    let numbers: Vec<i64> = (1..=crest.waves).collect();
    let mut bounds = Vec::new();
    for waves in numbers.chunks(rule.waves_in_a_bound()) {
        for i in (1..=crest.last).rev() {
            bounds.push(rule.bound(i as usize, waves.iter().map(|&w| crest.step(w, i))));
        }
    }
    bounds.resize(MAX_BOUNDS, idle(0));
    Sheet::numbered(events, bounds)
}

/// The same waves, but the first event is not to rise above the last wave, and the last event is to stand a tick later
/// than it then can: a contradiction that shows only at the end.
pub fn tied_waves(events: usize, count: usize, rule: WaveRule) -> Sheet {
    let mut sheet = waves(events, count, rule);
    let crest = Crest {
        last: events as i64 - 1,
        waves: count as i64,
    };
    let top = crest.top(crest.waves);
    let late = crest.stand(crest.waves, crest.last) + 1;
    let single = |to, from, delay| Bound::latest(to, &[Term { from, delay }]);
    sheet.bounds.truncate(MAX_BOUNDS - 2);
    sheet.bounds.push(single(1, 0, top));
    sheet.bounds.push(single(0, events - 1, -late));
    sheet
}

/// Which bounds make the waves.
#[derive(Clone, Copy, Debug)]
pub enum WaveRule {
    /// One wave in each bound, of kind "latest".
    Latest,
    /// Four waves in each bound, of kind "count".
    Count,
}

impl WaveRule {
    fn waves_in_a_bound(self) -> usize {
        match self {
            WaveRule::Latest => 1,
            WaveRule::Count => MAX_TERMS / 2,
        }
    }

    /// A bound on an event that asks for every one of some steps.
    ///
    /// The floors of later waves are higher and their other sums lower, so that of w steps' terms w allow exactly when one
    /// of each step does.
    fn bound(self, to: usize, steps: impl Iterator<Item = Step>) -> Bound {
        let mut terms: Vec<Term> = steps.flat_map(|step| [step.floor, step.risen]).collect();
        match self {
            WaveRule::Latest => {
                terms.splice(0..0, [terms[0]; MAX_TERMS - 2]);
                Bound::latest(to, &terms)
            }
            WaveRule::Count => Bound::new(to, 2, (terms.len() / 2) as u8, &terms),
        }
    }
}

/// What a wave asks of an event: to stand at its floor, or not after another event plus a delay.
struct Step {
    floor: Term,
    risen: Term,
}

/// The heights of so many waves along the events 1 to `last`; event 0 is the source.
struct Crest {
    last: i64,
    waves: i64,
}

impl Crest {
    /// Where the first event stands in a wave.
    fn top(&self, wave: i64) -> i64 {
        wave * 3 * self.waves * (self.last + 1)
    }

    /// Where an event stands after a wave.
    fn stand(&self, wave: i64, event: i64) -> i64 {
        self.top(wave) - wave * (event - 1)
    }

    fn step(&self, wave: i64, event: i64) -> Step {
        let (floor, from, delay) = if event == 1 {
            let back = self.waves * (self.last - 1) + self.last + 1;
            (self.top(wave), self.last, back)
        } else {
            let floor = self.stand(wave - 1, event) + i64::from(wave > 1);
            (floor, event - 1, -wave)
        };
        Step {
            floor: Term {
                from: 0,
                delay: floor,
            },
            risen: Term {
                from: from as usize,
                delay,
            },
        }
    }
}

/// A bound of kind "every" that every timetable keeps.
fn idle(event: usize) -> Bound {
    let term = Term {
        from: event,
        delay: 0,
    };
    Bound::new(event, 1, 0, &[term; MAX_TERMS])
}
