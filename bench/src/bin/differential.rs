//! Holds the library against the independent implementation on random sheets and on random and damaged texts.
//!
//! `differential [SEED [COUNT]]`; the last line is `N passed, M failed`.

#[allow(dead_code)]
#[path = "../library.rs"]
mod library;

use library::{EventReading, FaultPlace, Slots};
use std::env;
use std::fmt::Debug;
use std::process::ExitCode;
use vaultginger_bench::generate::{self, Shape};
use vaultginger_bench::hard::{WaveRule, waves};
use vaultginger_bench::independent::{Settled, is_met, is_open};
use vaultginger_bench::lowering::Lowered;
use vaultginger_bench::random::Random;
use vaultginger_bench::report::report;
use vaultginger_bench::sheet::{Bound, MAX_DELAY, MAX_EVENTS, MAX_TERMS, REACH, Sheet, Term};
use vaultginger_bench::shipped::Shipped;
use vaultginger_bench::text::Fault;

const DEFAULT_SEED: u64 = 1;
const DEFAULT_COUNT: usize = 10_000;

/// More bytes than any report has.
const REPORT_BYTES: usize = 1 << 18;

/// How many slots are handed in: more than any sheet fills, so that it shows when too many are touched.
const SLOTS: usize = 300;

/// How long a lowering from above is waited for, in looks at a bound.
const PATIENCE: usize = 20_000;

/// What stands in slots and bytes before a call.
const UNTOUCHED: u8 = 0xa5;
const UNTOUCHED_READING: EventReading = EventReading {
    place: 7,
    separation: 7,
    open: 7,
};
const UNTOUCHED_FAULT: FaultPlace = FaultPlace {
    number: 7,
    line: 7,
    field: 7,
};

/// How many comparisons agreed, and how many did not.
#[derive(Default)]
struct Tally {
    passed: usize,
    failed: usize,
}

impl Tally {
    fn compare<T: PartialEq + Debug>(
        &mut self,
        what: &str,
        text: &[u8],
        library: T,
        independent: T,
    ) {
        if library == independent {
            self.passed += 1;
            return;
        }
        self.failed += 1;
        if self.failed <= 5 {
            println!("{what} differs\n  library     {library:?}\n  independent {independent:?}");
            println!("  text {:?}", String::from_utf8_lossy(text));
        }
    }
}

fn main() -> ExitCode {
    let mut arguments = env::args().skip(1);
    let mut number = || arguments.next().map(|a| a.parse().expect("a number"));
    let seed = number().unwrap_or(DEFAULT_SEED);
    let count = number().map_or(DEFAULT_COUNT, |count| count as usize);
    let mut tally = Tally::default();
    for i in 0..count {
        let mut random = Random::new(seed.wrapping_mul(1_000_003).wrapping_add(i as u64));
        compare_text(&mut tally, &mut random);
        compare_sheet(&mut tally, &mut random);
    }
    compare_chains(&mut tally);
    compare_hard_sheets(&mut tally);
    println!("{} passed, {} failed", tally.passed, tally.failed);
    if tally.failed == 0 {
        ExitCode::SUCCESS
    } else {
        ExitCode::FAILURE
    }
}

/// A random text, often damaged: its report, and all else under one of the rule sets.
fn compare_text(tally: &mut Tally, random: &mut Random) {
    let text = generate::text(random);
    compare_report(tally, random, &text);
    let rules = random.pick(&Shipped::ALL);
    compare_settling(tally, random, rules, &text);
    compare_need(tally, random, rules, &text);
}

/// A random sheet of one of the rule sets.
fn compare_sheet(tally: &mut Tally, random: &mut Random) {
    let shape = Shape {
        rules: random.pick(&Shipped::ALL),
        events: random.pick(&[1, 2, 3, 4, 5, 6, 8, 12, 20, MAX_EVENTS]),
        bounds: random.below(48),
        terms: (1, random.pick(&[1, 2, 4, MAX_TERMS])),
        delay: random.pick(&[1, 5, 30, 1000, MAX_DELAY]),
        spoiled: random.pick(&[0, 0, 10, 50]),
    };
    let sheet = generate::sheet(random, &shape);
    let text = sheet.to_text();
    compare_settling(tally, random, shape.rules, &text);
    compare_need(tally, random, shape.rules, &text);
    compare_lowerings(tally, shape.rules, &sheet, &text);
}

/// Chains of the largest delays through all events, open and closed, from both ends: the ends of the range of places.
fn compare_chains(tally: &mut Tally) {
    let last = MAX_EVENTS - 1;
    for delay in [MAX_DELAY, -MAX_DELAY, MAX_DELAY - 1] {
        for back in [None, Some(-MAX_DELAY), Some(MAX_DELAY)] {
            let mut bounds: Vec<Bound> = (0..last).map(|e| single(e + 1, e, delay)).collect();
            bounds.extend(back.map(|back| single(0, last, back)));
            let text = Sheet::numbered(MAX_EVENTS, bounds).to_text();
            for source in [0, last] {
                compare_settling_from(tally, Shipped::Plain, &text, source);
            }
            for most in [REACH - 1, REACH, REACH + 1, -REACH - 1, -REACH, 1 - REACH] {
                compare_verdict(tally, Shipped::Plain, &text, (0, last, most));
                compare_verdict(tally, Shipped::Plain, &text, (last, 0, most));
            }
        }
    }
}

fn single(to: usize, from: usize, delay: i64) -> Bound {
    Bound::latest(to, &[Term { from, delay }])
}

fn compare_hard_sheets(tally: &mut Tally) {
    let mut random = Random::new(0);
    for (events, count, rule) in [
        (16, 4, WaveRule::Latest),
        (MAX_EVENTS, 4, WaveRule::Latest),
        (MAX_EVENTS, 16, WaveRule::Count),
    ] {
        let text = waves(events, count, rule).to_text();
        compare_settling(tally, &mut random, Shipped::Vote, &text);
    }
}

fn compare_report(tally: &mut Tally, random: &mut Random, text: &[u8]) {
    let wanted = report(text);
    let room = if random.percent(5) {
        random.below(wanted.len() + 1)
    } else {
        REPORT_BYTES
    };
    let mut out = vec![UNTOUCHED; room];
    let answer = library::report(text, &mut out);
    let mut bytes = vec![UNTOUCHED; room];
    let number = if room < wanted.len() {
        -19
    } else {
        bytes[..wanted.len()].copy_from_slice(&wanted);
        wanted.len() as i64
    };
    tally.compare("report", text, answer, number);
    tally.compare("report's bytes", text, out == bytes, true);
}

/// The answer and the slots of a settling.
type Settling = (i64, Slots);

fn compare_settling(tally: &mut Tally, random: &mut Random, rules: Shipped, text: &[u8]) {
    let source = random.pick(&[0, 0, random.clone().below(MAX_EVENTS), usize::MAX]);
    compare_settling_from(tally, rules, text, source);
}

fn compare_settling_from(tally: &mut Tally, rules: Shipped, text: &[u8], source: usize) {
    let mut slots = untouched();
    let answer = library::settle(rules, text, source, &mut slots);
    let wanted = expected_settling(rules, text, source);
    tally.compare("settling", text, (answer, slots), wanted);
}

fn untouched() -> Slots {
    Slots {
        events: vec![UNTOUCHED_READING; SLOTS],
        knot: vec![UNTOUCHED; SLOTS],
        fault: vec![UNTOUCHED_FAULT; 2],
    }
}

fn expected_settling(rules: Shipped, text: &[u8], source: usize) -> Settling {
    let mut slots = untouched();
    let sheet = match rules.load(text) {
        Ok(loaded) => loaded.sheet,
        Err(fault) => {
            slots.fault[0] = fault_place(fault);
            return (-i64::from(fault.number), slots);
        }
    };
    if source >= sheet.events() {
        return (-10, slots);
    }
    match rules.settle(&sheet, source) {
        Settled::Places(places) => {
            for (slot, &place) in slots.events.iter_mut().zip(&places[..sheet.events()]) {
                *slot = reading(place);
            }
            (sheet.events() as i64, slots)
        }
        Settled::Knot(knot) => {
            slots.knot[..sheet.bounds.len()].fill(0);
            for number in knot {
                slots.knot[number] = 1;
            }
            (-17, slots)
        }
    }
}

fn fault_place(fault: Fault) -> FaultPlace {
    FaultPlace {
        number: usize::from(fault.number),
        line: fault.line,
        field: fault.field,
    }
}

fn reading(place: i64) -> EventReading {
    let open = is_open(place);
    EventReading {
        place,
        separation: if open { 0 } else { place },
        open: u8::from(open),
    }
}

fn compare_need(tally: &mut Tally, random: &mut Random, rules: Shipped, text: &[u8]) {
    let from = random.pick(&[0, 0, 1, random.clone().below(MAX_EVENTS)]);
    let to = random.pick(&[0, 1, 2, random.clone().below(MAX_EVENTS)]);
    let near = random.between(-40, 40);
    let most = random.pick(&[
        near,
        near,
        0,
        1000,
        MAX_DELAY,
        REACH,
        -REACH,
        i64::MAX,
        i64::MIN,
    ]);
    compare_verdict(tally, rules, text, (from, to, most));
}

fn compare_verdict(
    tally: &mut Tally,
    rules: Shipped,
    text: &[u8],
    (from, to, most): (usize, usize, i64),
) {
    let answer = library::need(rules, text, from, to, most);
    let wanted = expected_verdict(rules, text, from, to, most);
    tally.compare("need", text, answer, wanted);
}

fn expected_verdict(rules: Shipped, text: &[u8], from: usize, to: usize, most: i64) -> i64 {
    let sheet = match rules.load(text) {
        Ok(loaded) => loaded.sheet,
        Err(fault) => return -i64::from(fault.number),
    };
    if from >= sheet.events() || to >= sheet.events() {
        return -10;
    }
    match rules.settle(&sheet, from) {
        Settled::Places(places) => i64::from(is_met(places[to], most)),
        Settled::Knot(_) => -17,
    }
}

/// The two lowerings from above against the independent settling, where they do not give up.
fn compare_lowerings(tally: &mut Tally, rules: Shipped, sheet: &Sheet, text: &[u8]) {
    let wanted = match rules.settle(sheet, 0) {
        Settled::Places(places) => Lowered::Places(places),
        Settled::Knot(_) => Lowered::Contradictory,
    };
    let plain = rules.lower(sheet, 0, PATIENCE);
    let leaping = rules.leap(sheet, 0, PATIENCE);
    for (what, lowered) in [("plain lowering", plain), ("leaping", leaping)] {
        if lowered != Lowered::GaveUp {
            tally.compare(what, text, lowered, wanted.clone());
        }
    }
}
