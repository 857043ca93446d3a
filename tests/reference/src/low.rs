//! A box that counts milliseconds in 32 bits (C-20): each call with a clock takes a reading of that counter.

use crate::calls::{Call, Reply};
use crate::layout;
use crate::table::Counters;

/// The full clock, or None for a reading that "counts as going back": by the signed difference of the reading and the clock's
/// low 32 bits, which is negative from 2^31 on.
pub fn widen(clock: u64, reading: u32) -> Option<u64> {
    let step = reading.wrapping_sub(clock as u32) as i32;
    u64::try_from(step).ok().and_then(|step| clock.checked_add(step))
}

/// A call with a clock, made at a reading; the call's own millisecond doesn't count. 1 goes before the front's 2, and both are
/// counted as answers of that call.
pub fn run(memory: &mut [u8], counters: &mut Counters, call: &Call, reading: u32) -> Reply {
    let Some(table) = layout::touched_table(memory, call) else {
        return layout::run(memory, counters, call);
    };
    match widen(table.clock, reading) {
        Some(now) => layout::run(memory, counters, &call.at(now)),
        None => {
            counters.raise(2);
            call.refused(2)
        }
    }
}
