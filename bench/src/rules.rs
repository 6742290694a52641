//! The rule sets that ship. A set of terms is a mask, bit i for term i.

/// Anything that answers the two questions about a bound of a kind, a K and so many terms.
pub trait RuleSet {
    /// May a bound have this kind and K with so many terms?
    fn admits(&self, kind: u8, k: u8, count: u8) -> bool;

    /// Is this set of its terms enough for such a bound?
    fn enough(&self, kind: u8, k: u8, count: u8, set: u8) -> bool;
}

/// "Latest" alone.
pub struct Plain;

/// "Latest", "every" and "count".
pub struct Vote;

/// "Latest" and "one of the first K and one of the others".
pub struct Group;

fn some_terms(count: u8) -> bool {
    (1..=8).contains(&count)
}

/// No bit of the mask stands at or past the count.
fn is_set_of(count: u8, set: u8) -> bool {
    u16::from(set) >> count == 0
}

impl RuleSet for Plain {
    fn admits(&self, kind: u8, k: u8, count: u8) -> bool {
        some_terms(count) && (kind, k) == (0, 0)
    }

    fn enough(&self, kind: u8, k: u8, count: u8, set: u8) -> bool {
        self.admits(kind, k, count) && is_set_of(count, set) && set != 0
    }
}

impl RuleSet for Vote {
    fn admits(&self, kind: u8, k: u8, count: u8) -> bool {
        some_terms(count)
            && match kind {
                0 | 1 => k == 0,
                2 => (1..=count).contains(&k),
                _ => false,
            }
    }

    fn enough(&self, kind: u8, k: u8, count: u8, set: u8) -> bool {
        let wanted = match kind {
            0 => 1,
            1 => count,
            _ => k,
        };
        self.admits(kind, k, count)
            && is_set_of(count, set)
            && set.count_ones() >= u32::from(wanted)
    }
}

impl RuleSet for Group {
    fn admits(&self, kind: u8, k: u8, count: u8) -> bool {
        some_terms(count)
            && match kind {
                0 => k == 0,
                1 => (1..count).contains(&k),
                _ => false,
            }
    }

    fn enough(&self, kind: u8, k: u8, count: u8, set: u8) -> bool {
        if !self.admits(kind, k, count) || !is_set_of(count, set) {
            return false;
        }
        match kind {
            0 => set != 0,
            _ => set & ((1 << k) - 1) != 0 && set >> k != 0,
        }
    }
}
