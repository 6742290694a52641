//! Searches for sheets that are hard to settle, by small changes to a random one; each that costs no less is kept.
//!
//! `search SEED SECONDS EVENTS DELAY FILE` writes the hardest sheet found.

use std::env;
use std::fs;
use std::io;
use std::time::{Duration, Instant};
use vaultginger_bench::generate::{self, Shape, rule};
use vaultginger_bench::random::Random;
use vaultginger_bench::sheet::{Bound, MAX_TERMS, Sheet};
use vaultginger_bench::shipped::Shipped;

/// A sheet that takes more looks than this is hard enough.
const PATIENCE: usize = 20_000_000;

fn main() -> io::Result<()> {
    let arguments: Vec<String> = env::args().skip(1).collect();
    let [seed, seconds, events, delay, file] = arguments.as_slice() else {
        eprintln!("search SEED SECONDS EVENTS DELAY FILE");
        std::process::exit(2);
    };
    let number = |argument: &str| argument.parse::<u64>().expect("a number");
    let events = number(events) as usize;
    let shape = Shape {
        rules: Shipped::Vote,
        events,
        bounds: 4 * events,
        terms: (1, MAX_TERMS),
        delay: number(delay) as i64,
        spoiled: 0,
    };
    let end = Instant::now() + Duration::from_secs(number(seconds));
    let sheet = climb(&mut Random::new(number(seed)), &shape, end);
    println!("{:?}", Shipped::Vote.cost(&sheet, 0, PATIENCE));
    fs::write(file, sheet.to_text())
}

/// Changes a random sheet for as long as there is time.
fn climb(random: &mut Random, shape: &Shape, end: Instant) -> Sheet {
    let mut best = generate::sheet(random, shape);
    let mut height = looks(&best);
    while Instant::now() < end {
        let mut next = best.clone();
        for _ in 0..random.pick(&[1, 1, 2, 4]) {
            change(random, shape, &mut next);
        }
        let reached = looks(&next);
        if reached >= height {
            (best, height) = (next, reached);
        }
    }
    best
}

/// The looks that settling takes; none for a contradictory sheet.
fn looks(sheet: &Sheet) -> usize {
    let cost = Shipped::Vote.cost(sheet, 0, PATIENCE);
    if cost.contradictory { 0 } else { cost.looks }
}

/// Changes one thing in a sheet.
fn change(random: &mut Random, shape: &Shape, sheet: &mut Sheet) {
    let i = random.below(sheet.bounds.len());
    let j = random.below(sheet.bounds.len());
    let bound = &mut sheet.bounds[i];
    let term = random.below(bound.terms().len());
    match random.below(7) {
        0 => bound.terms_mut()[term].delay = random.between(-shape.delay, shape.delay),
        1 => {
            let delay = &mut bound.terms_mut()[term].delay;
            *delay = (*delay + random.between(-2, 2)).clamp(-shape.delay, shape.delay);
        }
        2 => bound.terms_mut()[term].from = random.below(shape.events),
        3 => bound.to = random.below(shape.events),
        4 => {
            let (kind, k) = rule(random, shape.rules, bound.terms().len());
            *bound = Bound::new(bound.to, kind, k, bound.terms());
        }
        5 => sheet.bounds.swap(i, j),
        _ => sheet.bounds[i] = sheet.bounds[j],
    }
}
