//! Events, bounds and the figures of a sheet.

use std::fmt::Write;

pub const MAX_EVENTS: usize = 64;
pub const MAX_BOUNDS: usize = 256;
pub const MAX_TERMS: usize = 8;
pub const MAX_NEEDS: usize = 64;
pub const MAX_DELAY: i64 = 1_000_000;
pub const FAR_MARK: i64 = 1000 * MAX_DELAY;

/// No place is after this unless the event is open, and none is before its negative.
pub const REACH: i64 = 63 * MAX_DELAY;

/// A time for each event; those past the last event are not looked at.
pub type Timetable = [i64; MAX_EVENTS];

/// A term of a bound: TO is not later than `from` plus `delay`.
#[derive(Clone, Copy, Debug, Default, PartialEq, Eq)]
pub struct Term {
    pub from: usize,
    pub delay: i64,
}

/// A bound on the event `to`, with one to eight terms.
#[derive(Clone, Copy, Debug, PartialEq, Eq)]
pub struct Bound {
    pub to: usize,
    pub kind: u8,
    pub k: u8,
    count: u8,
    terms: [Term; MAX_TERMS],
}

impl Bound {
    /// A bound with these terms, of which there are at most eight.
    pub fn new(to: usize, kind: u8, k: u8, terms: &[Term]) -> Bound {
        let mut own = [Term::default(); MAX_TERMS];
        own[..terms.len()].copy_from_slice(terms);
        Bound {
            to,
            kind,
            k,
            count: terms.len() as u8,
            terms: own,
        }
    }

    /// A bound of kind 0, "latest".
    pub fn latest(to: usize, terms: &[Term]) -> Bound {
        Bound::new(to, 0, 0, terms)
    }

    pub fn count(&self) -> u8 {
        self.count
    }

    pub fn terms(&self) -> &[Term] {
        &self.terms[..usize::from(self.count)]
    }

    pub fn terms_mut(&mut self) -> &mut [Term] {
        &mut self.terms[..usize::from(self.count)]
    }
}

/// The names of the events and the bounds between them.
#[derive(Clone, Debug, Default, PartialEq, Eq)]
pub struct Sheet {
    pub names: Vec<Vec<u8>>,
    pub bounds: Vec<Bound>,
}

impl Sheet {
    /// A sheet whose events are named E0, E1 and so on.
    pub fn numbered(events: usize, bounds: Vec<Bound>) -> Sheet {
        let names = (0..events).map(|e| format!("E{e}").into_bytes()).collect();
        Sheet { names, bounds }
    }

    pub fn events(&self) -> usize {
        self.names.len()
    }

    /// The sheet as text: its events, then a `limit` line for each bound.
    pub fn to_text(&self) -> Vec<u8> {
        let mut out = String::new();
        for e in 0..self.events() {
            let _ = writeln!(out, "event\t{}", self.name(e));
        }
        for bound in &self.bounds {
            let _ = write!(
                out,
                "limit\t{}\t{}\t{}",
                bound.kind,
                bound.k,
                self.name(bound.to)
            );
            for term in bound.terms() {
                let _ = write!(out, "\t{}\t{}", self.name(term.from), term.delay);
            }
            out.push('\n');
        }
        out.into_bytes()
    }

    /// The name of an event.
    pub fn name(&self, event: usize) -> &str {
        str::from_utf8(&self.names[event]).expect("names are ASCII")
    }
}

/// A need: TO is to come not later than FROM plus MOST.
#[derive(Clone, Copy, Debug, PartialEq, Eq)]
pub struct Need {
    pub from: usize,
    pub to: usize,
    pub most: i64,
}
