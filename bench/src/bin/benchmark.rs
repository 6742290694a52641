//! Times settling, knots and reports: the proved library, the independent implementation and two lowerings from above,
//! on the same sheets.
//!
//! `benchmark EXAMPLES SHEETS [REPETITIONS]`, two folders of texts. Times are processor times. Every pair is timed in
//! turns, so that what else runs on the machine slows both alike; a ratio is the median of the ratios of the turns.

#[allow(dead_code)]
#[path = "../library.rs"]
mod library;

use std::env;
use std::fs;
use std::hint::black_box;
use std::io;
use std::path::{Path, PathBuf};
use vaultginger_bench::clock::seconds;
use vaultginger_bench::generate::{self, Shape, scaled};
use vaultginger_bench::hard::{WaveRule, tied_waves, waves};
use vaultginger_bench::independent::Settled;
use vaultginger_bench::lowering::Lowered;
use vaultginger_bench::random::Random;
use vaultginger_bench::report::report;
use vaultginger_bench::sheet::{MAX_BOUNDS, MAX_DELAY, MAX_EVENTS, MAX_TERMS, Sheet};
use vaultginger_bench::shipped::Shipped;

const REPETITIONS: usize = 9;

/// The seconds that one turn on a sheet should at least take, and the most settlings in it.
const TURN: f64 = 2e-3;
const MOST_IN_A_TURN: u32 = 10_000;

/// A lowering from above gives up after so many looks at a bound.
const PATIENCE: usize = 1_000_000;

/// How many random sheets of one shape are timed together.
const SHEETS_OF_A_SHAPE: usize = 6;

/// More bytes than any report has.
const REPORT_BYTES: usize = 1 << 18;

/// A sheet and a source to settle it from.
struct Task {
    rules: Shipped,
    sheet: Sheet,
    text: Vec<u8>,
    source: usize,
}

/// Tasks whose times are added up, and the name of the row that tells them.
struct Case {
    name: String,
    tasks: Vec<Task>,
}

fn main() -> io::Result<()> {
    let arguments: Vec<String> = env::args().skip(1).collect();
    let [examples, sheets, rest @ ..] = arguments.as_slice() else {
        eprintln!("benchmark EXAMPLES SHEETS [REPETITIONS]");
        std::process::exit(2);
    };
    let repetitions = rest
        .first()
        .map_or(REPETITIONS, |r| r.parse().expect("a number"));
    let examples = texts_in(Path::new(examples))?;
    let found = texts_in(Path::new(sheets))?;

    let (kept, contradictory) = example_cases(&examples);
    settling_table("Examples, one settling", &kept, repetitions);
    report_table(&examples, repetitions);
    settling_table("Random sheets, one settling", &random_cases(), repetitions);
    settling_table(
        "Hard sheets, one settling",
        &hard_cases(&found),
        repetitions,
    );
    settling_table(
        "More events, 256 bounds of 8 terms",
        &by_events(),
        repetitions,
    );
    settling_table("More bounds, 64 events", &by_bounds(), repetitions);
    settling_table("Larger delays, the same sheets", &by_delay(), repetitions);
    let knots = contradictory
        .into_iter()
        .chain(knot_cases())
        .collect::<Vec<_>>();
    settling_table(
        "Contradictory sheets, one settling with its knot",
        &knots,
        repetitions,
    );
    Ok(())
}

/// The texts of a folder by name.
fn texts_in(folder: &Path) -> io::Result<Vec<(String, Vec<u8>)>> {
    let mut paths: Vec<PathBuf> = fs::read_dir(folder)?
        .map(|entry| entry.map(|e| e.path()))
        .collect::<Result<_, _>>()?;
    paths.retain(|path| path.extension().is_some_and(|e| e == "txt"));
    paths.sort();
    paths
        .into_iter()
        .map(|path| {
            let name = path.file_stem().unwrap_or_default().to_string_lossy();
            Ok((name.into_owned(), fs::read(&path)?))
        })
        .collect()
}

/// The rule set under which a text loads, and its sheet.
fn opened(text: &[u8]) -> Option<(Shipped, Sheet)> {
    [Shipped::Vote, Shipped::Group, Shipped::Plain]
        .into_iter()
        .find_map(|rules| Some((rules, rules.load(text).ok()?.sheet)))
}

impl Case {
    /// A sheet, settled from its first event.
    fn of_sheet(name: impl Into<String>, rules: Shipped, sheet: Sheet) -> Case {
        Case {
            name: name.into(),
            tasks: vec![Task::new(rules, sheet, 0)],
        }
    }

    /// Some random sheets of a shape, each settled from its first event.
    fn of_shape(name: impl Into<String>, shape: &Shape, seed: u64) -> Case {
        let mut random = Random::new(seed);
        let tasks = (0..SHEETS_OF_A_SHAPE)
            .map(|_| Task::new(shape.rules, kept_sheet(&mut random, shape), 0))
            .collect();
        Case {
            name: name.into(),
            tasks,
        }
    }

    fn is_contradictory(&self) -> bool {
        self.tasks.iter().any(Task::is_contradictory)
    }
}

impl Task {
    fn new(rules: Shipped, sheet: Sheet, source: usize) -> Task {
        let text = sheet.to_text();
        Task {
            rules,
            sheet,
            text,
            source,
        }
    }

    fn settle(&self) -> Settled {
        self.rules.settle(&self.sheet, self.source)
    }

    fn is_contradictory(&self) -> bool {
        matches!(self.settle(), Settled::Knot(_))
    }
}

/// The examples that some timetable keeps, each from every event, and the others.
fn example_cases(examples: &[(String, Vec<u8>)]) -> (Vec<Case>, Vec<Case>) {
    examples
        .iter()
        .filter_map(|(name, text)| {
            let (rules, sheet) = opened(text).filter(|(_, sheet)| sheet.events() > 0)?;
            let all = (0..sheet.events()).map(|e| Task::new(rules, sheet.clone(), e));
            let mut case = Case {
                name: name.clone(),
                tasks: all.collect(),
            };
            if case.is_contradictory() {
                case.tasks.truncate(1);
            }
            Some(case)
        })
        .partition(|case| case.tasks.len() > 1)
}

/// A random sheet of a shape that some timetable keeps.
fn kept_sheet(random: &mut Random, shape: &Shape) -> Sheet {
    loop {
        let sheet = generate::sheet(random, shape);
        if !Task::new(shape.rules, sheet.clone(), 0).is_contradictory() {
            return sheet;
        }
    }
}

/// A random sheet of a shape that is contradictory.
fn contradictory_sheet(random: &mut Random, shape: &Shape) -> Sheet {
    loop {
        let sheet = generate::sheet(random, shape);
        if Task::new(shape.rules, sheet.clone(), 0).is_contradictory() {
            return sheet;
        }
    }
}

const FULL: Shape = Shape {
    rules: Shipped::Vote,
    events: MAX_EVENTS,
    bounds: MAX_BOUNDS,
    terms: (MAX_TERMS, MAX_TERMS),
    delay: MAX_DELAY,
    spoiled: 0,
};

const SMALL_DELAY: i64 = 20;

fn random_cases() -> Vec<Case> {
    let mut cases = Vec::new();
    for events in [8, 16, 32, 64] {
        for (size, delay) in [("small", SMALL_DELAY), ("large", MAX_DELAY)] {
            let shape = Shape {
                events,
                bounds: 4 * events,
                delay,
                ..FULL
            };
            let name = format!("vote, 8 terms, {size} delays");
            cases.push(Case::of_shape(name, &shape, 1));
        }
    }
    for rules in [Shipped::Plain, Shipped::Group] {
        let name = format!("{rules:?}, 8 terms, large delays").to_lowercase();
        cases.push(Case::of_shape(name, &Shape { rules, ..FULL }, 2));
    }
    let few = Shape {
        terms: (1, 3),
        ..FULL
    };
    cases.push(Case::of_shape("vote, 1 to 3 terms, large delays", &few, 3));
    cases
}

fn hard_cases(found: &[(String, Vec<u8>)]) -> Vec<Case> {
    let mut cases: Vec<Case> = [
        ("1 wave", 1, WaveRule::Latest),
        ("4 waves", 4, WaveRule::Latest),
        ("16 waves", 16, WaveRule::Count),
    ]
    .into_iter()
    .map(|(name, count, rule)| Case::of_sheet(name, Shipped::Vote, waves(MAX_EVENTS, count, rule)))
    .collect();
    for (name, text) in found {
        if let Some((rules, sheet)) = opened(text) {
            cases.push(Case::of_sheet(name.clone(), rules, sheet));
        }
    }
    cases
}

fn by_events() -> Vec<Case> {
    [8, 16, 32, 48, 64]
        .into_iter()
        .map(|events| Case::of_shape("vote", &Shape { events, ..FULL }, 4))
        .collect()
}

fn by_bounds() -> Vec<Case> {
    [32, 64, 128, 192, 256]
        .into_iter()
        .map(|bounds| Case::of_shape("vote", &Shape { bounds, ..FULL }, 5))
        .collect()
}

fn by_delay() -> Vec<Case> {
    let small = Shape { delay: 100, ..FULL };
    let base = Case::of_shape("", &small, 6);
    [1, 10, 100, 1000, 10_000]
        .into_iter()
        .map(|factor| Case {
            name: format!("delays up to {}", small.delay * factor),
            tasks: base
                .tasks
                .iter()
                .map(|task| Task::new(task.rules, scaled(&task.sheet, factor), 0))
                .collect(),
        })
        .collect()
}

fn knot_cases() -> Vec<Case> {
    let mut random = Random::new(7);
    let mut cases = Vec::new();
    for (events, spoiled) in [(8, 10), (16, 10), (32, 10), (64, 10), (64, 3)] {
        let shape = Shape {
            events,
            bounds: 4 * events,
            spoiled,
            ..FULL
        };
        let sheet = contradictory_sheet(&mut random, &shape);
        cases.push(Case::of_sheet("vote, 8 terms", Shipped::Vote, sheet));
    }
    let tied = tied_waves(16, 4, WaveRule::Latest);
    cases.push(Case::of_sheet("4 tied waves", Shipped::Vote, tied));
    cases
}

/// The times of some turns.
#[derive(Default)]
struct Times(Vec<f64>);

impl Times {
    fn median(&self) -> f64 {
        let mut times = self.0.clone();
        times.sort_by(f64::total_cmp);
        times[times.len() / 2]
    }

    /// The ratios to other times, turn by turn.
    fn over(&self, other: &Times) -> Times {
        Times(self.0.iter().zip(&other.0).map(|(a, b)| a / b).collect())
    }

    fn least(&self) -> f64 {
        self.0.iter().copied().fold(f64::INFINITY, f64::min)
    }

    fn most(&self) -> f64 {
        self.0.iter().copied().fold(0.0, f64::max)
    }
}

/// How often work that takes so many seconds is done in a turn.
fn times_in_a_turn(once: f64) -> u32 {
    ((TURN / once) as u32).clamp(1, MOST_IN_A_TURN)
}

/// How many times a task is settled in a turn.
fn settlings_in_a_turn(task: &Task) -> u32 {
    times_in_a_turn(seconds(|| drop(black_box(task.settle()))))
}

/// The time of one settling by the library, loading left out.
fn library_time(task: &Task, times: u32) -> f64 {
    let run = |times| {
        seconds(|| {
            library::settle_times(task.rules, &task.text, task.source, times);
        })
    };
    (run(times) - run(0)) / f64::from(times)
}

fn independent_time(task: &Task, times: u32) -> f64 {
    let all = seconds(|| {
        for _ in 0..times {
            black_box(task.settle());
        }
    });
    all / f64::from(times)
}

/// The time of one settling by a lowering; None where it gives up.
fn lowering_time(task: &Task, lower: impl Fn(&Task) -> Lowered) -> Option<f64> {
    let mut lowered = Lowered::GaveUp;
    let time = seconds(|| lowered = black_box(lower(task)));
    (lowered != Lowered::GaveUp).then_some(time)
}

fn plain(task: &Task) -> Lowered {
    task.rules.lower(&task.sheet, task.source, PATIENCE)
}

fn leaping(task: &Task) -> Lowered {
    task.rules.leap(&task.sheet, task.source, PATIENCE)
}

/// The time of all tasks of a case by a lowering, over that of the independent implementation.
fn lowering_ratio(case: &Case, independent: f64, lower: fn(&Task) -> Lowered) -> String {
    if case.is_contradictory() {
        return "-".into();
    }
    let mut all = 0.0;
    for task in &case.tasks {
        let best = (0..3)
            .map_while(|_| lowering_time(task, lower))
            .reduce(f64::min);
        match best {
            Some(time) => all += time,
            None => return "gave up".into(),
        }
    }
    format!("{:.2}", all / independent)
}

fn settling_table(title: &str, cases: &[Case], repetitions: usize) {
    println!("\n{title}\n");
    println!(
        "| sheet | events | bounds | phases | library µs | independent µs | library / independent | least to most | plain lowering | leaping |"
    );
    println!("|---|---|---|---|---|---|---|---|---|---|");
    for case in cases {
        settling_row(case, repetitions);
    }
}

fn settling_row(case: &Case, repetitions: usize) {
    let times: Vec<u32> = case.tasks.iter().map(settlings_in_a_turn).collect();
    let mut ours = Times::default();
    let mut theirs = Times::default();
    for _ in 0..repetitions {
        let mut turn = (0.0, 0.0);
        for (task, &times) in case.tasks.iter().zip(&times) {
            turn.0 += library_time(task, times);
            turn.1 += independent_time(task, times);
        }
        ours.0.push(turn.0);
        theirs.0.push(turn.1);
    }
    let ratio = ours.over(&theirs);
    let count = case.tasks.len() as f64;
    let sheet = &case.tasks[0].sheet;
    println!(
        "| {} | {} | {} | {} | {:.1} | {:.1} | {:.2} | {:.2} to {:.2} | {} | {} |",
        case.name,
        sheet.events(),
        sheet.bounds.len(),
        phases(case),
        1e6 * ours.median() / count,
        1e6 * theirs.median() / count,
        ratio.median(),
        ratio.least(),
        ratio.most(),
        lowering_ratio(case, theirs.median(), plain),
        lowering_ratio(case, theirs.median(), leaping),
    );
}

/// The most phases that a task of the case takes.
fn phases(case: &Case) -> usize {
    let all = case.tasks.iter();
    all.map(|task| task.rules.cost(&task.sheet, task.source, usize::MAX).phases)
        .max()
        .unwrap_or(0)
}

/// Whole reports: loading, settling for each need, and printing.
fn report_table(examples: &[(String, Vec<u8>)], repetitions: usize) {
    println!("\nExamples, the whole report of `check`\n");
    println!("| sheet | library µs | independent µs | library / independent | least to most |");
    println!("|---|---|---|---|---|");
    let mut out = vec![0; REPORT_BYTES];
    for (name, text) in examples {
        let times = times_in_a_turn(seconds(|| drop(black_box(report(text)))));
        let mut ours = Times::default();
        let mut theirs = Times::default();
        for _ in 0..repetitions {
            let library = || {
                for _ in 0..times {
                    black_box(library::report(text, &mut out));
                }
            };
            ours.0.push(seconds(library) / f64::from(times));
            let independent = || {
                for _ in 0..times {
                    black_box(report(text));
                }
            };
            theirs.0.push(seconds(independent) / f64::from(times));
        }
        let ratio = ours.over(&theirs);
        println!(
            "| {name} | {:.1} | {:.1} | {:.2} | {:.2} to {:.2} |",
            1e6 * ours.median(),
            1e6 * theirs.median(),
            ratio.median(),
            ratio.least(),
            ratio.most(),
        );
    }
}
