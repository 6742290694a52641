//! Settling by rising from below, knots by deletion, and the verdict on a need.

use crate::rules::RuleSet;
use crate::sheet::{Bound, FAR_MARK, MAX_TERMS, REACH, Timetable};

/// What settling a sheet gives.
#[derive(Clone, Debug, PartialEq, Eq)]
pub enum Settled {
    /// The places of the events.
    Places(Timetable),
    /// The numbers of the bounds in the knot.
    Knot(Vec<usize>),
}

/// Settles the bounds between so many events from a source, which is one of them.
pub fn settle<R: RuleSet>(rules: &R, events: usize, bounds: &[Bound], source: usize) -> Settled {
    match places(rules, events, bounds, source) {
        Some(places) => Settled::Places(places),
        None => Settled::Knot(knot(rules, events, bounds)),
    }
}

/// The latest timetable that keeps the bounds with the source at 0 and no event after the far mark; None where the
/// bounds are contradictory.
pub fn places<R: RuleSet>(
    rules: &R,
    events: usize,
    bounds: &[Bound],
    source: usize,
) -> Option<Timetable> {
    let mut x = level(events, source, -REACH);
    loop {
        let y = phase(rules, events, bounds, source, &x);
        if y == x {
            break;
        }
        x = y;
    }
    bounds
        .iter()
        .all(|bound| keeps(rules, bound, &x))
        .then_some(x)
}

/// All events at one time, but the source at 0.
pub(crate) fn level(events: usize, source: usize, time: i64) -> Timetable {
    let mut timetable = [0; _];
    timetable[..events].fill(time);
    timetable[source] = 0;
    timetable
}

/// One phase from x: all events at the far mark, then lowered until every bound is content.
fn phase<R: RuleSet>(
    rules: &R,
    events: usize,
    bounds: &[Bound],
    source: usize,
    x: &Timetable,
) -> Timetable {
    let mut y = level(events, source, FAR_MARK);
    let mut quiet = 0;
    for bound in bounds.iter().cycle() {
        match permitted(rules, bound, x, &y) {
            Some(time) => {
                y[bound.to] = time;
                quiet = 0;
            }
            None => quiet += 1,
        }
        if quiet == bounds.len() {
            break;
        }
    }
    y
}

/// The latest time that a bound permits in the phase from x, where that is before its time in y.
#[inline(always)]
pub(crate) fn permitted<R: RuleSet>(
    rules: &R,
    bound: &Bound,
    x: &Timetable,
    y: &Timetable,
) -> Option<i64> {
    let stay = x[bound.to];
    let mut sums = [0; MAX_TERMS];
    let mut allowing = 0;
    for (i, (term, sum)) in bound.terms().iter().zip(&mut sums).enumerate() {
        *sum = if x[term.from] + term.delay >= stay {
            y[term.from] + term.delay
        } else {
            stay
        };
        if *sum >= y[bound.to] {
            allowing |= 1 << i;
            if rules.enough(bound.kind, bound.k, bound.count(), allowing) {
                return None;
            }
        }
    }
    Some(latest(rules, bound, &sums[..bound.terms().len()]))
}

/// The greatest of the sums for which the terms whose sums are not before it are enough.
pub fn latest<R: RuleSet>(rules: &R, bound: &Bound, sums: &[i64]) -> i64 {
    let reaching = |time: i64| {
        sums.iter()
            .enumerate()
            .fold(0, |set, (i, &sum)| set | u8::from(sum >= time) << i)
    };
    let mut best = sums.iter().copied().min().expect("a bound has a term");
    for &sum in sums {
        if sum > best && rules.enough(bound.kind, bound.k, bound.count(), reaching(sum)) {
            best = sum;
        }
    }
    best
}

/// Does the timetable keep the bound?
pub fn keeps<R: RuleSet>(rules: &R, bound: &Bound, times: &Timetable) -> bool {
    let allowing = bound.terms().iter().enumerate().fold(0, |set, (i, term)| {
        set | u8::from(times[bound.to] <= times[term.from] + term.delay) << i
    });
    rules.enough(bound.kind, bound.k, bound.count(), allowing)
}

/// The knot of contradictory bounds: all are tried in order, and one is left out when those remaining without it are
/// still contradictory.
pub fn knot<R: RuleSet>(rules: &R, events: usize, bounds: &[Bound]) -> Vec<usize> {
    let mut numbers: Vec<usize> = (0..bounds.len()).collect();
    let mut standing = bounds.to_vec();
    let mut next = 0;
    while next < standing.len() {
        let tried = standing.remove(next);
        if places(rules, events, &standing, 0).is_some() {
            standing.insert(next, tried);
            next += 1;
        } else {
            numbers.remove(next);
        }
    }
    numbers
}

/// Is an event at this place open?
pub fn is_open(place: i64) -> bool {
    place > REACH
}

/// Is a need met whose TO has this place from its FROM?
pub fn is_met(place: i64, most: i64) -> bool {
    !is_open(place) && place <= most
}
