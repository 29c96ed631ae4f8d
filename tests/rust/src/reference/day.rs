//! "The day line".

use super::store::{self, Cell, Sheet, C, CORRECTED, D, DRY, FILLED, HUMIDITY, MISSING, P, R, READ, T, W};
use super::vapour;

#[derive(Clone, Copy, Debug, PartialEq)]
pub enum Mean {
    Absent,
    Read(f64),
    Mended(f64),
}

#[derive(Clone, Copy, Debug, PartialEq)]
pub struct DayLine {
    /// T, D, P, W, C, vapour pressure.
    pub means: [Mean; 6],
    /// Tenths of mm.
    pub rain: Option<i32>,
    pub warmest: Option<u8>,
    pub coldest: Option<u8>,
    /// Of the 81 checked cells: read, corrected, filled, missing.
    pub counts: [u32; 4],
}

/// The slot that is taken of those with one temperature: "the warmest slot is now the latest. The coldest slot keeps the
/// earliest" (document 02, S-7).
#[derive(Clone, Copy, Debug, PartialEq, Eq)]
enum Tie {
    Earliest,
    Latest,
}

/// The day line of a settled station.
pub fn day_line(block: &[u8]) -> DayLine {
    let sheet = store::checked_sheet(block);
    let plain = |element: usize| mean(&sheet, |cells| (cells[element], cells[element].get()));
    DayLine {
        means: [plain(T), plain(D), plain(P), plain(W), plain(C), mean(&sheet, vapour_pressure)],
        rain: rain(block, &sheet),
        warmest: extreme(&sheet, |t, best| t > best, Tie::Latest),
        coldest: extreme(&sheet, |t, best| t < best, Tie::Earliest),
        counts: counts(&sheet),
    }
}

/// A slot's vapour pressure, with the cell that it is from: at the dew point or, where D's cell holds a humidity, so
/// many hundredths of the pressure at T.
pub fn vapour_pressure(cells: &[Cell; 9]) -> (Cell, Option<i32>) {
    let at = |cell: Cell| cell.get().and_then(vapour::pressure);
    match cells[D].humidity() {
        None => (cells[D], at(cells[D])),
        Some(percent) => (cells[T], at(cells[T]).map(|e| (e * percent + 50) / 100)),
    }
}

/// The mean over slots 0 to 7 of a value, which is given with the cell that it is from.
fn mean(sheet: &Sheet, value: impl Fn(&[Cell; 9]) -> (Cell, Option<i32>)) -> Mean {
    let mut sum = 0;
    let mut mended = false;
    for cells in &sheet[..8] {
        let (cell, value) = value(cells);
        let Some(value) = value else { return Mean::Absent };
        sum += value;
        mended |= cell.state == CORRECTED || cell.state == FILLED;
    }
    let mean = f64::from(sum) * 0.125;
    if mended {
        Mean::Mended(mean)
    } else {
        Mean::Read(mean)
    }
}

/// R of slot 8 over 24 hours, else the sum of two halves.
fn rain(block: &[u8], sheet: &Sheet) -> Option<i32> {
    if store::head(block, 8).tr == 4 {
        return sheet[8][R].get();
    }
    Some(half(block, sheet, 4)? + half(block, sheet, 8)?)
}

/// The rain of the half that ends in a slot. "A half that ends in a slot with iR 3, R 0 and tR 2 is the R of the slot six
/// hours before where that slot has tR 1" (document 02, S-5), and so absent where that R is missing.
pub fn half(block: &[u8], sheet: &Sheet, end: usize) -> Option<i32> {
    let before = end - 2;
    let amount = |slot: usize| sheet[slot][R].get();
    let [six_hours_before, at_end] = [before, end].map(|slot| store::head(block, slot));
    match (six_hours_before.tr, at_end.tr) {
        (1, 2) if at_end.ir == DRY && amount(end) == Some(0) => amount(before),
        (_, 2) => amount(end),
        (1, 1) => Some(amount(before)? + amount(end)?),
        _ => None,
    }
}

/// Of the slots 0 to 7 whose T no other beats, the one that the tie asks for.
fn extreme(sheet: &Sheet, beats: impl Fn(i32, i32) -> bool, tie: Tie) -> Option<u8> {
    let mut best: Option<(u8, i32)> = None;
    for slot in 0..8 {
        if let Some(t) = sheet[slot as usize][T].get() {
            if best.is_none_or(|(_, value)| beats(t, value) || (t == value && tie == Tie::Latest)) {
                best = Some((slot, t));
            }
        }
    }
    best.map(|(slot, _)| slot)
}

/// A humidity counts as read.
fn counts(sheet: &Sheet) -> [u32; 4] {
    let mut by_state = [0; 5];
    for cell in sheet.as_flattened() {
        by_state[cell.state as usize] += 1;
    }
    by_state[READ as usize] += by_state[HUMIDITY as usize];
    [READ, CORRECTED, FILLED, MISSING].map(|state| by_state[state as usize])
}
