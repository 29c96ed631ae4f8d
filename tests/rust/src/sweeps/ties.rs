//! Sweeps of equal temperatures (document 02, S-7): which slots share the highest and the lowest T, and in which states.

use super::{checked, lend, settled, strings, whole_cell, Take, STATION};
use crate::generate::{Call, Step};
use crate::reference::store::{Cell, FILLED, READ, T};

/// The day line of a settled station with these T.
fn day_of(take: Take, cells: [Cell; 9]) {
    let edits = cells.into_iter().enumerate().flat_map(|(slot, cell)| whole_cell(checked(slot, T), cell));
    let edits = settled().into_iter().chain(edits).collect();
    take(Step::Damaged { edits, call: Call::Day { station: STATION } });
}

/// T missing, low or high in each of slots 0 to 7, and in slot 8 also colder and hotter than these: above 0 all of them
/// read, below 0 read, corrected and filled in turn.
pub fn columns(take: Take) {
    lend(take);
    for levels in strings(b"-lh", 8) {
        for (low, high, states) in [(100, 101, 1), (-101, -100, 3)] {
            let level = |byte: u8| match byte {
                b'l' => Some(low),
                b'h' => Some(high),
                _ => None,
            };
            let lasts = [None, Some(-i16::MAX), Some(low), Some(high), Some(i16::MAX)];
            for (turn, last) in lasts.into_iter().enumerate() {
                let mut cells = [Cell::MISSING; 9];
                for (slot, value) in levels.bytes().map(level).chain([last]).enumerate() {
                    let state = READ + ((slot + turn) % states) as u8;
                    cells[slot] = value.map_or(Cell::MISSING, |value| Cell { state, flag: 0, value });
                }
                day_of(take, cells);
            }
        }
    }
}

/// The same T in slots 0 to 7, each of them read, corrected or filled.
pub fn flat_days(take: Take) {
    lend(take);
    for states in strings(b"123", 8) {
        let mut cells = [Cell::MISSING; 9];
        for (cell, state) in cells.iter_mut().zip(states.bytes()) {
            *cell = Cell { state: state - b'0', flag: 0, value: 0 };
        }
        day_of(take, cells);
    }
}

/// Every two slots that share the highest T, or the lowest, in each state with each flag.
pub fn pairs(take: Take) {
    let kinds = || (READ..=FILLED).flat_map(|state| (0..5).map(move |flag| (state, flag)));
    lend(take);
    for (one, two) in (0..8).flat_map(|two| (0..two).map(move |one| (one, two))) {
        for (first, second) in kinds().flat_map(|first| kinds().map(move |second| (first, second))) {
            for value in [-50, 50] {
                let mut cells = std::array::from_fn(|slot| Cell::raw(Some(slot as i16)));
                for (slot, (state, flag)) in [(one, first), (two, second)] {
                    cells[slot] = Cell { state, flag, value };
                }
                day_of(take, cells);
            }
        }
    }
}
