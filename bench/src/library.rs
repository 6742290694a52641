//! The proved library, called through the C exports of its static archive.

use vaultginger_bench::shipped::Shipped;

/// What the library reads of an event.
#[repr(C)]
#[derive(Clone, Copy, Debug, Default, PartialEq, Eq)]
pub struct EventReading {
    pub place: i64,
    pub separation: i64,
    pub open: u8,
}

/// A fault of a text, as the library tells it.
#[repr(C)]
#[derive(Clone, Copy, Debug, Default, PartialEq, Eq)]
pub struct FaultPlace {
    pub number: usize,
    pub line: usize,
    pub field: usize,
}

/// The slots that a settling fills.
#[derive(Clone, Debug, PartialEq, Eq)]
pub struct Slots {
    pub events: Vec<EventReading>,
    pub knot: Vec<u8>,
    pub fault: Vec<FaultPlace>,
}

unsafe extern "C" {
    fn vaultginger_report(text: *const u8, len: usize, out: *mut u8, out_len: usize) -> i64;

    fn vaultginger_settle(
        rules: u8,
        text: *const u8,
        len: usize,
        source: usize,
        events: *mut EventReading,
        events_len: usize,
        knot: *mut u8,
        knot_len: usize,
        fault: *mut FaultPlace,
        fault_len: usize,
    ) -> i64;

    fn vaultginger_need(
        rules: u8,
        text: *const u8,
        len: usize,
        from: usize,
        to: usize,
        most: i64,
    ) -> i64;

    fn vaultginger_settle_times(
        rules: u8,
        text: *const u8,
        len: usize,
        source: usize,
        times: u32,
    ) -> i64;
}

/// Puts what `check` prints into `out`; answers how many bytes that is, or a negative number.
pub fn report(text: &[u8], out: &mut [u8]) -> i64 {
    // SAFETY: both slices are valid for their lengths, and do not overlap.
    unsafe { vaultginger_report(text.as_ptr(), text.len(), out.as_mut_ptr(), out.len()) }
}

/// Settles the sheet of a text; answers how many events it has, or minus the number of a refusal.
pub fn settle(rules: Shipped, text: &[u8], source: usize, slots: &mut Slots) -> i64 {
    // SAFETY: all slices are valid for their lengths, and do not overlap.
    unsafe {
        vaultginger_settle(
            rules.number(),
            text.as_ptr(),
            text.len(),
            source,
            slots.events.as_mut_ptr(),
            slots.events.len(),
            slots.knot.as_mut_ptr(),
            slots.knot.len(),
            slots.fault.as_mut_ptr(),
            slots.fault.len(),
        )
    }
}

/// Judges a need: 1 where it is met, 0 where it is broken, or minus the number of a refusal.
pub fn need(rules: Shipped, text: &[u8], from: usize, to: usize, most: i64) -> i64 {
    // SAFETY: the slice is valid for its length.
    unsafe { vaultginger_need(rules.number(), text.as_ptr(), text.len(), from, to, most) }
}

/// Loads a text once and settles its sheet so many times; answers how many of these found some timetable.
pub fn settle_times(rules: Shipped, text: &[u8], source: usize, times: u32) -> i64 {
    // SAFETY: the slice is valid for its length.
    unsafe { vaultginger_settle_times(rules.number(), text.as_ptr(), text.len(), source, times) }
}
