//! Loading a sheet from text, with every fault in the order of the checks.

use crate::rules::RuleSet;
use crate::sheet::{Bound, MAX_BOUNDS, MAX_DELAY, MAX_EVENTS, MAX_TERMS, Need, REACH, Sheet, Term};

const MAX_BYTES: usize = 65_536;
const MAX_NAME: usize = 12;

/// What is wrong with a text, and where.
#[derive(Clone, Copy, Debug, PartialEq, Eq)]
pub struct Fault {
    pub number: u8,
    pub line: usize,
    pub field: usize,
}

/// A loaded text.
pub struct Loaded {
    pub sheet: Sheet,
    pub needs: Vec<Need>,
}

/// Loads a text under some rules, with room for so many needs.
pub fn load<R: RuleSet>(rules: &R, text: &[u8], slots: usize) -> Result<Loaded, Fault> {
    check_whole(text)?;
    let mut loaded = Loaded {
        sheet: Sheet::default(),
        needs: Vec::new(),
    };
    for (i, bytes) in text.split_inclusive(|&b| b == b'\n').enumerate() {
        let line = Line::new(i + 1, &bytes[..bytes.len() - 1])?;
        let record = line.record(&loaded.sheet)?;
        record
            .apply(rules, slots, &mut loaded)
            .map_err(|number| line.fault(number))?;
    }
    Ok(loaded)
}

fn check_whole(text: &[u8]) -> Result<(), Fault> {
    if text.len() > MAX_BYTES {
        return Err(Fault {
            number: 1,
            line: 0,
            field: 0,
        });
    }
    match text.last() {
        Some(&last) if last != b'\n' => Err(Fault {
            number: 2,
            line: 1 + text.iter().filter(|&&b| b == b'\n').count(),
            field: 0,
        }),
        _ => Ok(()),
    }
}

/// A line, cut into its fields.
struct Line<'a> {
    number: usize,
    fields: Vec<&'a [u8]>,
}

/// What a line says.
enum Record<'a> {
    Event {
        name: &'a [u8],
    },
    Linear {
        from: usize,
        to: usize,
        low: Option<i64>,
        high: Option<i64>,
    },
    Delay {
        to: usize,
        inputs: Vec<Input>,
    },
    Limit {
        to: usize,
        kind: u8,
        k: u8,
        terms: Vec<Term>,
    },
    Need(Need),
}

/// An input of a `delay` line.
struct Input {
    from: usize,
    low: Option<i64>,
    high: i64,
}

impl<'a> Line<'a> {
    fn new(number: usize, bytes: &'a [u8]) -> Result<Line<'a>, Fault> {
        let line = Line {
            number,
            fields: bytes.split(|&b| b == b'\t').collect(),
        };
        if bytes.iter().all(|&b| b == b'\t' || (32..=126).contains(&b)) {
            Ok(line)
        } else {
            Err(line.fault(3))
        }
    }

    fn fault(&self, number: u8) -> Fault {
        Fault {
            number,
            line: self.number,
            field: 0,
        }
    }

    /// A fault of the field `i`, counted from 0.
    fn fault_at(&self, number: u8, i: usize) -> Fault {
        Fault {
            number,
            line: self.number,
            field: i + 1,
        }
    }

    fn record(&self, sheet: &Sheet) -> Result<Record<'a>, Fault> {
        match self.fields[0] {
            b"event" => self.event(sheet),
            b"linear" => self.linear(sheet),
            b"delay" => self.delay(sheet),
            b"limit" => self.limit(sheet),
            b"need" => self.need(sheet),
            _ => Err(self.fault(4)),
        }
    }

    fn expect_fields(&self, count: usize) -> Result<(), Fault> {
        if self.fields.len() == count {
            Ok(())
        } else {
            Err(self.fault(5))
        }
    }

    /// The number of groups of `each` fields after the first `head`, which is one to eight.
    fn groups(&self, head: usize, each: usize) -> Result<usize, Fault> {
        let rest = self.fields.len().saturating_sub(head);
        let groups = rest / each;
        if rest % each == 0 && (1..=MAX_TERMS).contains(&groups) {
            Ok(groups)
        } else {
            Err(self.fault(5))
        }
    }

    fn name(&self, i: usize) -> Result<&'a [u8], Fault> {
        let name = self.fields[i];
        let well_formed = (1..=MAX_NAME).contains(&name.len())
            && name.iter().all(|&b| b.is_ascii_alphanumeric() || b == b'_');
        if well_formed {
            Ok(name)
        } else {
            Err(self.fault_at(6, i))
        }
    }

    /// The number of the event named in the field `i`.
    fn event_in(&self, i: usize, sheet: &Sheet) -> Result<usize, Fault> {
        let name = self.name(i)?;
        sheet
            .names
            .iter()
            .position(|known| known == name)
            .ok_or_else(|| self.fault_at(10, i))
    }

    fn number_in(&self, i: usize, least: i64, most: i64) -> Result<i64, Fault> {
        numeral(self.fields[i])
            .filter(|v| (least..=most).contains(v))
            .ok_or_else(|| self.fault_at(7, i))
    }

    fn delay_in(&self, i: usize) -> Result<i64, Fault> {
        self.number_in(i, -MAX_DELAY, MAX_DELAY)
    }

    /// A delay that may be absent.
    fn maybe_delay_in(&self, i: usize) -> Result<Option<i64>, Fault> {
        if self.fields[i] == b"-" {
            Ok(None)
        } else {
            self.delay_in(i).map(Some)
        }
    }

    fn byte_in(&self, i: usize) -> Result<u8, Fault> {
        self.number_in(i, 0, 255).map(|v| v as u8)
    }

    fn event(&self, sheet: &Sheet) -> Result<Record<'a>, Fault> {
        self.expect_fields(2)?;
        let name = self.name(1)?;
        if sheet.names.iter().any(|known| known == name) {
            return Err(self.fault_at(9, 1));
        }
        Ok(Record::Event { name })
    }

    fn linear(&self, sheet: &Sheet) -> Result<Record<'a>, Fault> {
        self.expect_fields(5)?;
        Ok(Record::Linear {
            from: self.event_in(1, sheet)?,
            to: self.event_in(2, sheet)?,
            low: self.maybe_delay_in(3)?,
            high: self.maybe_delay_in(4)?,
        })
    }

    fn delay(&self, sheet: &Sheet) -> Result<Record<'a>, Fault> {
        let groups = self.groups(2, 3)?;
        let to = self.event_in(1, sheet)?;
        let mut inputs = Vec::with_capacity(groups);
        for first in (2..).step_by(3).take(groups) {
            inputs.push(Input {
                from: self.event_in(first, sheet)?,
                low: self.maybe_delay_in(first + 1)?,
                high: self.delay_in(first + 2)?,
            });
        }
        Ok(Record::Delay { to, inputs })
    }

    fn limit(&self, sheet: &Sheet) -> Result<Record<'a>, Fault> {
        let groups = self.groups(4, 2)?;
        let kind = self.byte_in(1)?;
        let k = self.byte_in(2)?;
        let to = self.event_in(3, sheet)?;
        let mut terms = Vec::with_capacity(groups);
        for first in (4..).step_by(2).take(groups) {
            terms.push(Term {
                from: self.event_in(first, sheet)?,
                delay: self.delay_in(first + 1)?,
            });
        }
        Ok(Record::Limit { to, kind, k, terms })
    }

    fn need(&self, sheet: &Sheet) -> Result<Record<'a>, Fault> {
        self.expect_fields(4)?;
        Ok(Record::Need(Need {
            from: self.event_in(1, sheet)?,
            to: self.event_in(2, sheet)?,
            most: self.number_in(3, -REACH, REACH)?,
        }))
    }
}

/// The number that a numeral writes; None where it is malformed or has more digits than any range.
fn numeral(bytes: &[u8]) -> Option<i64> {
    let (sign, digits) = match bytes {
        b"0" => return Some(0),
        [b'-', digits @ ..] => (-1, digits),
        digits => (1, digits),
    };
    let well_formed =
        digits.iter().all(u8::is_ascii_digit) && digits.first().is_some_and(|&first| first != b'0');
    if !well_formed || digits.len() > MAX_NAME {
        return None;
    }
    let value = digits
        .iter()
        .fold(0, |value, digit| 10 * value + i64::from(digit - b'0'));
    Some(sign * value)
}

impl Record<'_> {
    /// Adds the record to what was loaded, or tells the number of the fault of the record as a whole.
    fn apply<R: RuleSet>(self, rules: &R, slots: usize, loaded: &mut Loaded) -> Result<(), u8> {
        match self {
            Record::Event { name } => add_event(&mut loaded.sheet, name),
            Record::Linear {
                from,
                to,
                low,
                high,
            } => add_linear(&mut loaded.sheet, from, to, low, high),
            Record::Delay { to, inputs } => add_delay(&mut loaded.sheet, to, &inputs),
            Record::Limit { to, kind, k, terms } => {
                if !rules.admits(kind, k, terms.len() as u8) {
                    return Err(13);
                }
                add_bounds(&mut loaded.sheet, &[Bound::new(to, kind, k, &terms)])
            }
            Record::Need(need) => {
                if loaded.needs.len() >= slots {
                    return Err(16);
                }
                loaded.needs.push(need);
                Ok(())
            }
        }
    }
}

fn add_event(sheet: &mut Sheet, name: &[u8]) -> Result<(), u8> {
    if sheet.events() >= MAX_EVENTS {
        return Err(11);
    }
    sheet.names.push(name.to_vec());
    Ok(())
}

fn add_linear(
    sheet: &mut Sheet,
    from: usize,
    to: usize,
    low: Option<i64>,
    high: Option<i64>,
) -> Result<(), u8> {
    match (low, high) {
        (None, None) => return Err(8),
        (Some(low), Some(high)) if low > high => return Err(8),
        _ => {}
    }
    let not_before = low.map(|low| lower_side(from, to, low));
    let not_after = high.map(|delay| Bound::latest(to, &[Term { from, delay }]));
    let bounds: Vec<Bound> = not_before.into_iter().chain(not_after).collect();
    add_bounds(sheet, &bounds)
}

fn add_delay(sheet: &mut Sheet, to: usize, inputs: &[Input]) -> Result<(), u8> {
    let crossed = |input: &Input| input.low.is_some_and(|low| low > input.high);
    if inputs.iter().any(crossed) {
        return Err(8);
    }
    let terms: Vec<Term> = inputs
        .iter()
        .map(|input| Term {
            from: input.from,
            delay: input.high,
        })
        .collect();
    let mut bounds = vec![Bound::latest(to, &terms)];
    for input in inputs {
        bounds.extend(input.low.map(|low| lower_side(input.from, to, low)));
    }
    add_bounds(sheet, &bounds)
}

/// FROM ≤ TO - LOW.
fn lower_side(from: usize, to: usize, low: i64) -> Bound {
    Bound::latest(
        from,
        &[Term {
            from: to,
            delay: -low,
        }],
    )
}

fn add_bounds(sheet: &mut Sheet, bounds: &[Bound]) -> Result<(), u8> {
    if sheet.bounds.len() + bounds.len() > MAX_BOUNDS {
        return Err(12);
    }
    sheet.bounds.extend_from_slice(bounds);
    Ok(())
}
