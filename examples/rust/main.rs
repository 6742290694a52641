//! Prints what can be told of a timing sheet: the separations from each event, or its knot, or its fault; and then the
//! verdicts on its needs.
//!
//! usage: main SHEET [RULES]   RULES is the number of a rule set; without it, 1 (vote)

use std::env;
use std::fs::File;
use std::io::{self, Read, Write};
use std::process::ExitCode;

/// The calls of include/vaultginger.h, which says what each promises, and safe functions over them.
mod vaultginger {
    pub const MAX_EVENTS: usize = 64;
    pub const MAX_BOUNDS: usize = 256;
    pub const NO_SUCH_EVENT: i64 = -10;
    pub const CONTRADICTORY: i64 = -17;

    #[repr(C)]
    #[derive(Clone, Copy, Default)]
    pub struct EventReading {
        pub place: i64,
        pub separation: i64,
        pub open: u8,
    }

    #[repr(C)]
    #[derive(Clone, Copy, Default)]
    pub struct FaultPlace {
        pub number: usize,
        pub line: usize,
        pub field: usize,
    }

    unsafe extern "C" {
        fn vaultginger_report(text: *const u8, text_len: usize, out: *mut u8, out_len: usize) -> i64;

        fn vaultginger_settle(
            rules: u8,
            text: *const u8,
            text_len: usize,
            source: usize,
            events: *mut EventReading,
            events_len: usize,
            knot: *mut u8,
            knot_len: usize,
            fault: *mut FaultPlace,
            fault_len: usize,
        ) -> i64;
    }

    /// What settling gave.
    pub enum Settled {
        Events(Vec<EventReading>),
        /// By bound number, which bounds are in the knot.
        Knot(Vec<bool>),
        Fault(FaultPlace),
        /// Any other refusal, by its number.
        Refused(i64),
    }

    pub fn settle(rules: u8, text: &[u8], source: usize) -> Settled {
        let mut events = [EventReading::default(); MAX_EVENTS];
        let mut knot = [0; MAX_BOUNDS];
        let mut fault = FaultPlace::default();
        // SAFETY: each pointer comes with the length of what it points to, and none of these overlap.
        let answer = unsafe {
            vaultginger_settle(
                rules,
                text.as_ptr(),
                text.len(),
                source,
                events.as_mut_ptr(),
                events.len(),
                knot.as_mut_ptr(),
                knot.len(),
                &mut fault,
                1,
            )
        };
        match answer {
            _ if fault.number != 0 => Settled::Fault(fault),
            CONTRADICTORY => Settled::Knot(knot.iter().map(|&byte| byte == 1).collect()),
            refusal if refusal < 0 => Settled::Refused(-refusal),
            count => Settled::Events(events[..count as usize].to_vec()),
        }
    }

    /// What `check` prints for a text, or the number of a refusal.
    pub fn report(text: &[u8]) -> Result<Vec<u8>, i64> {
        // more than any report has
        let mut out = vec![0; 1 << 17];
        // SAFETY: each pointer comes with the length of what it points to, and the two do not overlap.
        let written =
            unsafe { vaultginger_report(text.as_ptr(), text.len(), out.as_mut_ptr(), out.len()) };
        if written < 0 {
            return Err(-written);
        }
        out.truncate(written as usize);
        Ok(out)
    }
}

use vaultginger::{EventReading, Settled};

fn print_events(source: usize, events: &[EventReading]) {
    print!("from\t{source}");
    for event in events {
        match event.open {
            0 => print!("\t{}", event.separation),
            _ => print!("\topen"),
        }
    }
    println!();
}

/// One line for each event: how late every event can come after it.
fn print_separations(rules: u8, text: &[u8]) -> Result<(), i64> {
    let mut count = 1;
    let mut source = 0;
    while source < count {
        match vaultginger::settle(rules, text, source) {
            Settled::Events(events) => {
                count = events.len();
                print_events(source, &events);
            }
            Settled::Knot(knot) => {
                for (bound, _) in knot.iter().enumerate().filter(|(_, inside)| **inside) {
                    println!("in knot\t{bound}");
                }
                return Ok(());
            }
            Settled::Fault(fault) => {
                println!("fault\t{}\tline\t{}\tfield\t{}", fault.number, fault.line, fault.field);
                return Ok(());
            }
            Settled::Refused(number) if -number == vaultginger::NO_SUCH_EVENT => {
                println!("no events");
                return Ok(());
            }
            Settled::Refused(number) => return Err(number),
        }
        source += 1;
    }
    Ok(())
}

/// The bytes of a file, and no more than show that a text is too long.
fn read_text(path: &str) -> io::Result<Vec<u8>> {
    let mut text = Vec::new();
    File::open(path)?.take(65_537).read_to_end(&mut text)?;
    Ok(text)
}

fn main() -> ExitCode {
    let arguments: Vec<String> = env::args().collect();
    let Some(path) = arguments.get(1) else {
        eprintln!("usage: main SHEET [RULES]");
        return ExitCode::from(2);
    };
    let Ok(text) = read_text(path) else {
        eprintln!("cannot read {path}");
        return ExitCode::from(2);
    };
    let rules = arguments.get(2).and_then(|number| number.parse().ok()).unwrap_or(1);

    let mut code = ExitCode::SUCCESS;
    if let Err(number) = print_separations(rules, &text) {
        println!("refused\t{number}");
        code = ExitCode::FAILURE;
    }
    match vaultginger::report(&text) {
        Ok(lines) => io::stdout().write_all(&lines).expect("standard output"),
        Err(number) => {
            println!("refused\t{number}");
            code = ExitCode::FAILURE;
        }
    }
    code
}
