//! The papers in plain Rust, section by section: document 01's calls on a lent buffer; of document 02, S-1
//! (`vapour::fill`), which has no buffer of that kind, S-2, a humidity in D's cell, S-3, the ranks of reports, S-4, the
//! vapour table as whole entries and differences, S-5, dry stations, S-6, settling in portions, and S-7, the latest of
//! equal temperatures as the warmest slot.
//!
//! Written from the papers alone. Every call on a buffer but open tests the whole of it first, and a refused
//! call writes nothing.

pub mod bulletin;
pub mod calendar;
pub mod day;
pub mod gate;
pub mod layout;
pub mod report;
pub mod settle;
pub mod store;
pub mod values;
pub mod vapour;

pub use bulletin::Tally;
pub use day::{DayLine, Mean};
pub use gate::Refusal;
pub use store::Cell;

use calendar::Date;

/// Writes a fresh store for one day and its stations.
pub fn open(
    store: &mut [u8],
    year: u32,
    month: u32,
    day: u32,
    stations: &[u32],
    rows: &[u16],
) -> Result<(), Refusal> {
    let date = Date::new(year, month, day).ok_or(Refusal::CannotOpen)?;
    if !store::can_open(store.len(), stations, rows) {
        return Err(Refusal::CannotOpen);
    }
    store::write_fresh(store, date, stations, rows);
    Ok(())
}

/// Files one report at a rank.
pub fn file(store: &mut [u8], text: &[u8], rank: u32) -> Result<(), Refusal> {
    store::require_sound(store)?;
    let rank = report::rank(rank)?;
    report::file(store, text, rank)
}

/// Checks a station's raw cells and marks it settled.
pub fn settle(store: &mut [u8], station: u32) -> Result<(), Refusal> {
    store::require_sound(store)?;
    let index = store::find(store, station)?;
    settle::settle(store, index);
    Ok(())
}

/// Begins to settle a station in portions.
pub fn begin(store: &mut [u8], station: u32) -> Result<(), Refusal> {
    store::require_sound(store)?;
    let index = store::find(store, station)?;
    settle::begin(store, index);
    Ok(())
}

/// Makes the next of the four steps of a settling under way.
pub fn step(store: &mut [u8], station: u32) -> Result<(), Refusal> {
    store::require_sound(store)?;
    let index = store::find(store, station)?;
    settle::step(store, index)
}

/// One checked cell.
pub fn cell(store: &[u8], station: u32, element: u32, slot: u32) -> Result<Cell, Refusal> {
    store::require_sound(store)?;
    let index = store::find(store, station)?;
    if element > 8 || slot > 8 {
        return Err(Refusal::NoSuchCell);
    }
    store::require_settled(store, index)?;
    Ok(store::checked_cell(store::block(store, index), element as usize, slot as usize))
}

/// A station's day line.
pub fn day(store: &[u8], station: u32) -> Result<DayLine, Refusal> {
    store::require_sound(store)?;
    let index = store::find(store, station)?;
    store::require_settled(store, index)?;
    Ok(day::day_line(store::block(store, index)))
}

/// Files the reports of a bulletin at one rank and counts them.
pub fn bulletin(store: &mut [u8], text: &[u8], rank: u32) -> Result<Tally, Refusal> {
    store::require_sound(store)?;
    let rank = report::rank(rank)?;
    bulletin::file_all(store, text, rank)
}
