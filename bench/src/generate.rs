//! Random sheets, random texts and damages, all from a seed.

use crate::random::Random;
use crate::sheet::{Bound, MAX_BOUNDS, MAX_DELAY, MAX_NEEDS, MAX_TERMS, REACH, Sheet, Term};
use crate::shipped::Shipped;

/// What a random sheet is to be like.
#[derive(Clone, Copy, Debug)]
pub struct Shape {
    pub rules: Shipped,
    pub events: usize,
    pub bounds: usize,
    /// The least and the most terms of a bound.
    pub terms: (usize, usize),
    /// No delay is larger than this, up or down.
    pub delay: i64,
    /// How many bounds out of a hundred need not be kept by the timetable that the others were made from.
    pub spoiled: usize,
}

/// A random sheet, made around a hidden timetable that keeps the bounds but for the spoiled ones.
pub fn sheet(random: &mut Random, shape: &Shape) -> Sheet {
    let hidden: Vec<i64> = (0..shape.events)
        .map(|_| random.between(0, shape.delay))
        .collect();
    let bounds = (0..shape.bounds)
        .map(|_| bound(random, shape, &hidden))
        .collect();
    Sheet::numbered(shape.events, bounds)
}

fn bound(random: &mut Random, shape: &Shape, hidden: &[i64]) -> Bound {
    let to = random.below(shape.events);
    let (least, most) = shape.terms;
    let count = random.between(least as i64, most as i64) as usize;
    let (kind, k) = rule(random, shape.rules, count);
    let spoiled = random.percent(shape.spoiled);
    let terms: Vec<Term> = (0..count)
        .map(|_| {
            let from = random.below(shape.events);
            let gap = hidden[to] - hidden[from];
            let delay = if spoiled {
                random.between(-shape.delay, shape.delay / 4)
            } else {
                let slack = random.between(0, shape.delay);
                gap + random.pick(&[0, 1, slack / 8, slack])
            };
            Term {
                from,
                delay: delay.clamp(-shape.delay, shape.delay),
            }
        })
        .collect();
    Bound::new(to, kind, k, &terms)
}

/// A kind and a K that the rule set admits for so many terms.
pub fn rule(random: &mut Random, rules: Shipped, count: usize) -> (u8, u8) {
    let kinds: &[u8] = match rules {
        Shipped::Plain => &[0],
        Shipped::Group if count == 1 => &[0],
        Shipped::Group => &[0, 1],
        Shipped::Vote => &[0, 1, 2],
    };
    match (rules, random.pick(kinds)) {
        (Shipped::Vote, 2) => (2, 1 + random.below(count) as u8),
        (Shipped::Group, 1) => (1, 1 + random.below(count - 1) as u8),
        (_, kind) => (kind, 0),
    }
}

/// The same sheet with every delay multiplied.
pub fn scaled(sheet: &Sheet, factor: i64) -> Sheet {
    let mut sheet = sheet.clone();
    for bound in &mut sheet.bounds {
        for term in bound.terms_mut() {
            term.delay *= factor;
        }
    }
    sheet
}

/// A random text: a well-formed one, or one with a few damages.
pub fn text(random: &mut Random) -> Vec<u8> {
    let mut lines = Writer::new(random).lines();
    if random.percent(50) {
        for _ in 0..random.pick(&[1, 1, 1, 2, 3]) {
            damage_lines(random, &mut lines);
        }
    }
    let mut text: Vec<u8> = lines
        .into_iter()
        .flat_map(|mut line| {
            line.push(b'\n');
            line
        })
        .collect();
    if random.percent(4) {
        damage_bytes(random, &mut text);
    }
    text
}

type Line = Vec<u8>;

/// Writes the lines of a well-formed text under the vote set, mostly around a hidden timetable.
struct Writer<'a> {
    random: &'a mut Random,
    names: Vec<String>,
    hidden: Vec<i64>,
    delay: i64,
    /// How many events stand so far.
    standing: usize,
    bounds: usize,
    needs: usize,
    lines: Vec<Line>,
}

impl Writer<'_> {
    fn new(random: &mut Random) -> Writer<'_> {
        let events = if random.percent(85) {
            random.pick(&[1, 2, 3, 4, 5, 6, 8, 10, 14])
        } else {
            random.pick(&[20, 33, 64])
        };
        let delay = random.pick(&[1, 5, 30, 1000, MAX_DELAY]);
        let names = (0..events).map(|e| event_name(random, e)).collect();
        let hidden = (0..events).map(|_| random.between(0, delay)).collect();
        Writer {
            random,
            names,
            hidden,
            delay,
            standing: 0,
            bounds: 0,
            needs: 0,
            lines: Vec::new(),
        }
    }

    fn lines(mut self) -> Vec<Line> {
        let events_first = self.random.percent(60);
        let mut records = self.random.below(3 * self.names.len() + 1);
        while records > 0 || self.standing < self.names.len() {
            let more_events = self.standing < self.names.len();
            if more_events && (events_first || self.standing == 0 || self.random.percent(50)) {
                let line = format!("event\t{}", self.names[self.standing]);
                self.put(line);
                self.standing += 1;
            } else if records == 0 {
                break;
            } else {
                records -= 1;
                self.record();
            }
        }
        for _ in 0..self.random.below(4) {
            self.need();
        }
        self.lines
    }

    fn put(&mut self, line: String) {
        self.lines.push(line.into_bytes());
    }

    fn record(&mut self) {
        match self.random.below(7) {
            0 | 1 => self.linear(),
            2 | 3 => self.delay(),
            4 | 5 => self.limit(),
            _ => self.need(),
        }
    }

    /// An event that stands.
    fn event(&mut self) -> usize {
        self.random.below(self.standing)
    }

    /// A HIGH, mostly one that the hidden timetable keeps.
    fn high(&mut self, from: usize, to: usize) -> i64 {
        if self.random.percent(15) {
            return self.any_delay();
        }
        let gap = self.hidden[to] - self.hidden[from];
        let slack = self.random.between(0, self.delay);
        (gap + self.random.pick(&[0, 0, 1, slack])).clamp(-MAX_DELAY, MAX_DELAY)
    }

    /// A LOW not above HIGH, mostly one that the hidden timetable keeps.
    fn low(&mut self, from: usize, to: usize, high: i64) -> i64 {
        let gap = self.hidden[to] - self.hidden[from];
        let slack = self.random.between(0, self.delay);
        (gap - self.random.pick(&[0, 0, 1, slack]))
            .clamp(-MAX_DELAY, MAX_DELAY)
            .min(high)
    }

    fn any_delay(&mut self) -> i64 {
        let delay = self.random.between(-self.delay, self.delay);
        self.random
            .pick(&[delay, delay, delay, 0, MAX_DELAY, -MAX_DELAY])
    }

    /// Whether so many more bounds would fit, mostly: now and then a text has too many.
    fn room(&mut self, more: usize) -> bool {
        self.bounds += more;
        self.bounds <= MAX_BOUNDS || self.random.percent(1)
    }

    fn linear(&mut self) {
        let (from, to) = (self.event(), self.event());
        let high = self.high(from, to);
        let low = self.low(from, to, high);
        let (low, high, bounds) = match self.random.below(3) {
            0 => (low.to_string(), high.to_string(), 2),
            1 => ("-".into(), high.to_string(), 1),
            _ => (low.to_string(), "-".into(), 1),
        };
        if self.room(bounds) {
            let line = format!(
                "linear\t{}\t{}\t{low}\t{high}",
                self.names[from], self.names[to]
            );
            self.put(line);
        }
    }

    fn delay(&mut self) {
        let to = self.event();
        let mut line = format!("delay\t{}", self.names[to]);
        let mut bounds = 1;
        for _ in 0..self.random.pick(&[1, 2, 2, 3, 3, 4, 8]) {
            let from = self.event();
            let high = self.high(from, to);
            let low = self.low(from, to, high);
            let low = if self.random.percent(40) {
                "-".into()
            } else {
                bounds += 1;
                low.to_string()
            };
            line += &format!("\t{}\t{low}\t{high}", self.names[from]);
        }
        if self.room(bounds) {
            self.put(line);
        }
    }

    fn limit(&mut self) {
        let to = self.event();
        let count = self.random.pick(&[1, 2, 2, 3, 4, 5, 8]);
        let (kind, k) = rule(self.random, Shipped::Vote, count);
        let mut line = format!("limit\t{kind}\t{k}\t{}", self.names[to]);
        for _ in 0..count {
            let from = self.event();
            let high = self.high(from, to);
            line += &format!("\t{}\t{high}", self.names[from]);
        }
        if self.room(1) {
            self.put(line);
        }
    }

    fn need(&mut self) {
        self.needs += 1;
        if self.needs > MAX_NEEDS && !self.random.percent(1) {
            return;
        }
        let (from, to) = (self.event(), self.event());
        let near = self.random.between(-2 * self.delay, 2 * self.delay);
        let most = self.random.pick(&[near, near, near, 0, REACH, -REACH]);
        let line = format!("need\t{}\t{}\t{most}", self.names[from], self.names[to]);
        self.put(line);
    }
}

/// A name of its own for each event, short or long.
fn event_name(random: &mut Random, event: usize) -> String {
    match random.below(3) {
        0 => format!("E{event}"),
        1 => format!("{event:_>12}"),
        _ => format!("{event}abcdefghi"),
    }
}

const NUMERALS: [&str; 34] = [
    "-0",
    "00",
    "01",
    "-01",
    "+1",
    "1.0",
    "",
    " 1",
    "1 ",
    "0x1",
    "1e3",
    "--1",
    "-",
    "1-",
    "1000001",
    "-1000001",
    "1000000",
    "-1000000",
    "63000000",
    "63000001",
    "-63000000",
    "-63000001",
    "99999999999999999999999999999",
    "-99999999999999999999999999999",
    "9999999999999999999999999999x",
    "4294967296",
    "4294967297",
    "18446744073709551617",
    "-9223372036854775809",
    "340282366920938463463374607431768211457",
    "255",
    "256",
    "10",
    "0",
];

const NAMES: [&str; 14] = [
    "",
    " ",
    "A B",
    "A-B",
    "abcdefghijklm",
    "abcdefghijkl",
    "A.",
    "-",
    "0",
    "event",
    "_",
    "A~",
    "@",
    "[",
];

const WORDS: [&str; 12] = [
    "Event", "events", "even", "event ", " event", "limit", "need", "delay", "linear", "event", "",
    "#",
];

const LINES: [&str; 8] = [
    "",
    "\t",
    " ",
    "event",
    "event\t",
    "event\t\t",
    "need",
    "linear\t\t\t\t",
];

/// Damages one line.
fn damage_lines(random: &mut Random, lines: &mut Vec<Line>) {
    if lines.is_empty() {
        lines.push(random.pick(&LINES).into());
        return;
    }
    let i = random.below(lines.len());
    match random.below(11) {
        0 => lines.insert(i, random.pick(&LINES).into()),
        1 => {
            lines.remove(i);
        }
        2 => {
            let again = lines[i].clone();
            lines.insert(random.below(lines.len() + 1), again);
        }
        3 => {
            let j = random.below(lines.len());
            lines.swap(i, j);
        }
        4 => {
            let at = random.below(lines[i].len() + 1);
            let byte = random.pick(&[0, 8, 9, 10, 11, 13, 31, 32, 33, 126, 127, 128, 255]);
            lines[i].insert(at, byte);
        }
        5 if random.percent(20) => crowd(random, lines, i),
        5..=7 => damage_record(random, lines, i),
        _ => {
            let mut fields = fields_of(&lines[i]);
            damage_fields(random, &mut fields);
            lines[i] = fields.join(&b'\t');
        }
    }
}

fn fields_of(line: &[u8]) -> Vec<Vec<u8>> {
    line.split(|&b| b == b'\t').map(<[u8]>::to_vec).collect()
}

/// Repeats a line until there are about as many as a sheet takes, or a few more.
fn crowd(random: &mut Random, lines: &mut Vec<Line>, i: usize) {
    let line = lines[i].clone();
    let is_event = line.starts_with(b"event");
    for number in 0..random.pick(&[40, 63, 64, 65, 240, 255, 256, 257]) {
        lines.push(if is_event {
            format!("event\tX{number}").into_bytes()
        } else {
            line.clone()
        });
    }
}

/// Gives the first line from line i on that has a rule, or a LOW and a HIGH, other ones.
fn damage_record(random: &mut Random, lines: &mut [Line], i: usize) {
    for line in &mut lines[i..] {
        let mut fields = fields_of(line);
        let (first, pair) = match (fields[0].as_slice(), fields.len()) {
            (b"limit", 6..) => (1, random.pick(&RULES)),
            (b"linear" | b"delay", 5..) => (3, random.pick(&SIDES)),
            _ => continue,
        };
        fields[first] = pair.0.into();
        fields[first + 1] = pair.1.into();
        *line = fields.join(&b'\t');
        return;
    }
}

/// Kinds with a K, not all of which are admitted.
const RULES: [(&str, &str); 10] = [
    ("0", "1"),
    ("1", "0"),
    ("1", "1"),
    ("1", "7"),
    ("2", "0"),
    ("2", "2"),
    ("2", "9"),
    ("3", "0"),
    ("255", "255"),
    ("256", "0"),
];

/// LOW and HIGH, not all of which may stand together.
const SIDES: [(&str, &str); 6] = [
    ("-", "-"),
    ("5", "4"),
    ("0", "-1"),
    ("1000000", "-1000000"),
    ("7", "7"),
    ("-3", "-2"),
];

/// Damages one field, or how many there are.
fn damage_fields(random: &mut Random, fields: &mut Vec<Vec<u8>>) {
    let i = random.below(fields.len());
    match random.below(9) {
        0..=2 => fields[i] = random.pick(&NUMERALS).into(),
        3 => fields[i] = random.pick(&NAMES).into(),
        4 => fields.insert(
            random.below(fields.len() + 1),
            random.pick(&NUMERALS).into(),
        ),
        5 => {
            fields.remove(i);
        }
        6 => {
            let again: Vec<Vec<u8>> = fields[i..].to_vec();
            for _ in 0..random.pick(&[1, 2, MAX_TERMS]) {
                fields.extend_from_slice(&again);
            }
        }
        7 => fields[0] = random.pick(&WORDS).into(),
        _ => {
            let byte = random.pick(b"0aZ_- 9");
            fields[i].push(byte);
        }
    }
}

/// Damages the text as a whole: cuts it, changes a byte, or makes it too long.
fn damage_bytes(random: &mut Random, text: &mut Vec<u8>) {
    let at = random.below(text.len() + 1);
    match random.below(4) {
        0 => text.truncate(at),
        1 if at < text.len() => text[at] = random.next() as u8,
        2 => {
            let size = random.pick(&[65_535, 65_536, 65_537]);
            text.resize(size - 1, b'x');
            text.push(random.pick(b"\nx"));
        }
        _ => {
            text.pop();
        }
    }
}
