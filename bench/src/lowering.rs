//! Two ways of settling from above, to compare with: lowering one bound after another from the far mark, and the same
//! with leaps along loops.
//!
//! Both give up after so many looks at a bound, since there are small sheets on which they do not end in any sensible
//! time.

use crate::independent::latest;
use crate::rules::RuleSet;
use crate::sheet::{Bound, FAR_MARK, MAX_EVENTS, MAX_TERMS, REACH, Timetable};

/// How a lowering ended.
#[derive(Clone, Debug, PartialEq, Eq)]
pub enum Lowered {
    Places(Timetable),
    Contradictory,
    GaveUp,
}

/// The sum of a term that never allows.
const NEVER: i64 = i64::MIN / 4;

/// Lowers from the far mark, one bound after another, until no bound asks for less.
pub fn plain<R: RuleSet>(
    rules: &R,
    events: usize,
    bounds: &[Bound],
    source: usize,
    patience: usize,
) -> Lowered {
    let mut lowering = Lowering::new(rules, events, bounds, source, patience);
    lowering.run(|_| None)
}

/// The same, but when the terms that hold some events down form a loop, goes at once to where another term holds it.
pub fn leaping<R: RuleSet>(
    rules: &R,
    events: usize,
    bounds: &[Bound],
    source: usize,
    patience: usize,
) -> Lowered {
    let mut lowering = Lowering::new(rules, events, bounds, source, patience);
    lowering.run(Lowering::leap)
}

/// The bound that lowered an event last, and the term whose sum it then took.
#[derive(Clone, Copy)]
struct Holder {
    bound: usize,
    term: usize,
}

struct Lowering<'a, R> {
    rules: &'a R,
    events: usize,
    bounds: &'a [Bound],
    source: usize,
    patience: usize,
    times: Timetable,
    holders: [Option<Holder>; MAX_EVENTS],
}

impl<'a, R: RuleSet> Lowering<'a, R> {
    fn new(
        rules: &'a R,
        events: usize,
        bounds: &'a [Bound],
        source: usize,
        patience: usize,
    ) -> Self {
        let mut times = [0; _];
        times[..events].fill(FAR_MARK);
        times[source] = 0;
        Lowering {
            rules,
            events,
            bounds,
            source,
            patience,
            times,
            holders: [None; _],
        }
    }

    /// Goes round the bounds until a round is quiet, and leaps after each round that was not.
    fn run(&mut self, leap: impl Fn(&mut Self) -> Option<Lowered>) -> Lowered {
        loop {
            match self.round() {
                Ok(true) => {}
                Ok(false) => return Lowered::Places(self.times),
                Err(end) => return end,
            }
            if let Some(end) = leap(self) {
                return end;
            }
        }
    }

    /// Looks at each bound once; tells whether one asked for less.
    fn round(&mut self) -> Result<bool, Lowered> {
        let mut lowered = false;
        for bound in 0..self.bounds.len() {
            self.patience = self.patience.checked_sub(1).ok_or(Lowered::GaveUp)?;
            lowered |= self.lower_by(bound)?;
        }
        Ok(lowered)
    }

    /// Lowers the late event of a bound to what it permits.
    fn lower_by(&mut self, number: usize) -> Result<bool, Lowered> {
        let bound = &self.bounds[number];
        let mut sums = [0; MAX_TERMS];
        let sums = self.sums_of(bound, &mut sums);
        let time = latest(self.rules, bound, sums);
        if time >= self.times[bound.to] {
            return Ok(false);
        }
        let term = sums
            .iter()
            .position(|&sum| sum == time)
            .expect("it is a sum");
        self.put(
            bound.to,
            time,
            Holder {
                bound: number,
                term,
            },
        )?;
        Ok(true)
    }

    fn sums_of<'s>(&self, bound: &Bound, sums: &'s mut [i64; MAX_TERMS]) -> &'s mut [i64] {
        let sums = &mut sums[..bound.terms().len()];
        for (sum, term) in sums.iter_mut().zip(bound.terms()) {
            *sum = self.times[term.from] + term.delay;
        }
        sums
    }

    /// Lowers an event. No timetable keeps the bounds once the source must be before 0, or an event before the reach.
    fn put(&mut self, event: usize, time: i64, holder: Holder) -> Result<(), Lowered> {
        if event == self.source || time < -REACH {
            return Err(Lowered::Contradictory);
        }
        self.times[event] = time;
        self.holders[event] = Some(holder);
        Ok(())
    }

    /// Leaps along every loop of holders.
    fn leap(&mut self) -> Option<Lowered> {
        let mut seen = [usize::MAX; MAX_EVENTS];
        for start in 0..self.events {
            let mut event = start;
            while seen[event] == usize::MAX {
                seen[event] = start;
                match self.held_by(event) {
                    Some(from) => event = from,
                    None => break,
                }
            }
            let is_loop = seen[event] == start && self.held_by(event).is_some();
            if is_loop && let Err(end) = self.leap_along(event) {
                return Some(end);
            }
        }
        None
    }

    /// The event that holds another one down.
    fn held_by(&self, event: usize) -> Option<usize> {
        let holder = self.holders[event]?;
        Some(self.bounds[holder.bound].terms()[holder.term].from)
    }

    /// Lowers an event on a loop to the latest time that the loop permits once it runs freely.
    ///
    /// A bound of the loop permits its event the time that comes along the loop, but not less than the time it permits
    /// when that term never allows. So an event of a loop with a negative sum is not later than the latest of these
    /// times, each carried on along the loop to the event.
    fn leap_along(&mut self, event: usize) -> Result<(), Lowered> {
        let holder = self.holders[event].expect("it is on a loop");
        let mut carried = 0;
        let mut best = NEVER;
        let mut at = event;
        loop {
            let holder = self.holders[at].expect("it is on a loop");
            best = best.max(self.time_without(holder) + carried);
            let term = self.bounds[holder.bound].terms()[holder.term];
            carried += term.delay;
            at = term.from;
            if at == event {
                break;
            }
        }
        if carried >= 0 || best >= self.times[event] {
            return Ok(());
        }
        self.put(event, best.max(-REACH - 1), holder)
    }

    /// The time that a holder's bound permits when the holder's term does not allow.
    fn time_without(&self, holder: Holder) -> i64 {
        let bound = &self.bounds[holder.bound];
        let mut sums = [0; MAX_TERMS];
        let sums = self.sums_of(bound, &mut sums);
        sums[holder.term] = NEVER;
        latest(self.rules, bound, sums)
    }
}
