//! Everything here for a rule set that is chosen by name, compiled for each of the three.

use crate::hard::{self, Cost};
use crate::independent::{self, Settled};
use crate::lowering::{self, Lowered};
use crate::rules::{Group, Plain, Vote};
use crate::sheet::{MAX_NEEDS, Sheet};
use crate::text::{self, Fault, Loaded};

/// The rule sets that ship.
#[derive(Clone, Copy, Debug, PartialEq, Eq)]
pub enum Shipped {
    Plain,
    Vote,
    Group,
}

/// Calls `$body` with `$rules` bound to the rule set that `$shipped` names.
macro_rules! with_rules {
    ($shipped:expr, $rules:ident => $body:expr) => {
        match $shipped {
            Shipped::Plain => {
                let $rules = &Plain;
                $body
            }
            Shipped::Vote => {
                let $rules = &Vote;
                $body
            }
            Shipped::Group => {
                let $rules = &Group;
                $body
            }
        }
    };
}

impl Shipped {
    pub const ALL: [Shipped; 3] = [Shipped::Plain, Shipped::Vote, Shipped::Group];

    /// The number by which the library's exports know this set.
    pub fn number(self) -> u8 {
        match self {
            Shipped::Plain => 0,
            Shipped::Vote => 1,
            Shipped::Group => 2,
        }
    }

    /// Loads a text, with room for as many needs as `check` has.
    pub fn load(self, text: &[u8]) -> Result<Loaded, Fault> {
        with_rules!(self, rules => text::load(rules, text, MAX_NEEDS))
    }

    /// Settles a sheet by rising from below.
    pub fn settle(self, sheet: &Sheet, source: usize) -> Settled {
        with_rules!(self, rules => {
            independent::settle(rules, sheet.events(), &sheet.bounds, source)
        })
    }

    /// Settles a sheet by plain lowering.
    pub fn lower(self, sheet: &Sheet, source: usize, patience: usize) -> Lowered {
        with_rules!(self, rules => {
            lowering::plain(rules, sheet.events(), &sheet.bounds, source, patience)
        })
    }

    /// Settles a sheet by lowering with leaps.
    pub fn leap(self, sheet: &Sheet, source: usize, patience: usize) -> Lowered {
        with_rules!(self, rules => {
            lowering::leaping(rules, sheet.events(), &sheet.bounds, source, patience)
        })
    }

    /// Counts what settling a sheet takes.
    pub fn cost(self, sheet: &Sheet, source: usize, patience: usize) -> Cost {
        with_rules!(self, rules => hard::cost(rules, sheet, source, patience))
    }
}
