//! The calls with numbers and arrays, as C has them: for arguments that the types of [`Store`](crate::Store) leave no room for.
//!
//! Each call on a store returns 0, or the number of a refusal ([`Refusal::from_number`](crate::Refusal::from_number)), and writes to
//! the store and to the arrays that are lent only where it returns 0. The refusals stand at each in the order of the tests.

use crate::c;

// SAFETY of each call below: every pointer is that of a slice or array that is lent for the whole call, and passes with the
// slice's own length. The borrows keep what is written to apart from all else. By its header the library reads and writes
// within these alone, keeps no pointer, and answers on every buffer and argument.

/// Opens a store: 10. There are to be as many `rows`, 0 or 1, as `stations`.
#[must_use]
pub fn open(store: &mut [u8], year: u32, month: u32, day: u32, stations: &[u32], rows: &[u16]) -> u32 {
    let (count, row_count) = (stations.len(), rows.len());
    let (stations, rows) = (stations.as_ptr(), rows.as_ptr());
    // SAFETY: as above.
    unsafe {
        c::esfenruk_open(store.as_mut_ptr(), store.len(), year, month, day, stations, count, rows, row_count)
    }
}

/// Files a report at a rank: 9, 13 (the rank is above 24), 1 to 7, 13 (it is below that of the report in the slot), 8.
#[must_use]
pub fn file(store: &mut [u8], text: &[u8], rank: u32) -> u32 {
    // SAFETY: as above.
    unsafe { c::esfenruk_file(store.as_mut_ptr(), store.len(), text.as_ptr(), text.len(), rank) }
}

/// Files the reports of a bulletin at a rank: 9, 13 (the rank is above 24), 1, 3, 4, for the whole. `counts`: how many reports
/// were accepted and refused.
#[must_use]
pub fn bulletin(store: &mut [u8], text: &[u8], rank: u32, counts: &mut [u32; 2]) -> u32 {
    let (bytes, length) = (text.as_ptr(), text.len());
    // SAFETY: as above.
    unsafe { c::esfenruk_bulletin(store.as_mut_ptr(), store.len(), bytes, length, rank, counts) }
}

/// Settles a station: 9, 6.
#[must_use]
pub fn settle(store: &mut [u8], station: u32) -> u32 {
    // SAFETY: as above.
    unsafe { c::esfenruk_settle(store.as_mut_ptr(), store.len(), station) }
}

/// Begins to settle a station in portions: 9, 6.
#[must_use]
pub fn begin(store: &mut [u8], station: u32) -> u32 {
    // SAFETY: as above.
    unsafe { c::esfenruk_begin(store.as_mut_ptr(), store.len(), station) }
}

/// Does the next step of a settling under way: 9, 6, 14.
#[must_use]
pub fn step(store: &mut [u8], station: u32) -> u32 {
    // SAFETY: as above.
    unsafe { c::esfenruk_step(store.as_mut_ptr(), store.len(), station) }
}

/// A checked cell: 9, 6, 12, 11. `out`: state, flag, value.
#[must_use]
pub fn cell(store: &[u8], station: u32, element: u32, slot: u32, out: &mut [i32; 3]) -> u32 {
    // SAFETY: as above.
    unsafe { c::esfenruk_cell(store.as_ptr(), store.len(), station, element, slot, out) }
}

/// The day line of a station: 9, 6, 11.
///
/// `means`: of T, D, P, W, C and of vapour pressure, 0.0 where absent. `numbers`: 0 to 5 the kind of each mean (0 absent, 1 read,
/// 2 mended); 6 whether there is rain (0, 1); 7 the rain (0 where absent); 8, 9 the warmest and the coldest slot (-1 where
/// absent); 10 to 13 how many cells are read, corrected, filled, missing.
#[must_use]
pub fn day(store: &[u8], station: u32, means: &mut [f64; 6], numbers: &mut [i32; 14]) -> u32 {
    // SAFETY: as above.
    unsafe { c::esfenruk_day(store.as_ptr(), store.len(), station, means, numbers) }
}

/// Fills `entries` with the vapour table. Its length is to be [`VAPOUR_TABLE`](crate::VAPOUR_TABLE): any other is answered with
/// the length needed.
#[must_use]
pub fn vapour_table(entries: &mut [u16]) -> u32 {
    // SAFETY: as above.
    unsafe { c::esfenruk_vapour_table(entries.as_mut_ptr(), entries.len()) }
}
