//! What `check` prints for a text.

use crate::independent::{Settled, is_met, is_open, settle};
use crate::rules::Vote;
use crate::sheet::{MAX_NEEDS, Need, Sheet, Timetable};
use crate::text::load;
use std::fmt::Write;

/// The bytes that `check` prints for a text.
pub fn report(text: &[u8]) -> Vec<u8> {
    let mut out = String::new();
    match load(&Vote, text, MAX_NEEDS) {
        Err(fault) => {
            let _ = writeln!(
                out,
                "fault\t{}\t{}\t{}",
                fault.number, fault.line, fault.field
            );
        }
        Ok(loaded) if loaded.sheet.events() == 0 => {}
        Ok(loaded) => put_findings(&mut out, &loaded.sheet, &loaded.needs),
    }
    out.into_bytes()
}

fn put_findings(out: &mut String, sheet: &Sheet, needs: &[Need]) {
    if let Settled::Knot(knot) = settle(&Vote, sheet.events(), &sheet.bounds, 0) {
        for number in knot {
            let _ = writeln!(out, "knot\t{number}");
        }
        return;
    }
    for need in needs {
        if let Settled::Places(places) = settle(&Vote, sheet.events(), &sheet.bounds, need.from) {
            put_need(out, sheet, need, &places);
        }
    }
}

fn put_need(out: &mut String, sheet: &Sheet, need: &Need, places: &Timetable) {
    let place = places[need.to];
    let met = is_met(place, need.most);
    let verdict = if met { "met" } else { "broken" };
    let _ = write!(
        out,
        "need\t{}\t{}\t{}\t{verdict}\t",
        sheet.name(need.from),
        sheet.name(need.to),
        need.most
    );
    let _ = if is_open(place) {
        writeln!(out, "open")
    } else {
        writeln!(out, "{place}")
    };
    if !met {
        for (e, place) in places[..sheet.events()].iter().enumerate() {
            let _ = writeln!(out, "at\t{}\t{place}", sheet.name(e));
        }
    }
}
