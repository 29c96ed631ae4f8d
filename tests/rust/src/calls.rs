//! The calls as the C interface has them, for the reference and for the engine: 0 or the refusal's number (of
//! the vapour table: the length needed), and arrays that only an answer of 0 writes to.

use crate::reference::{self, vapour, Cell, DayLine, Mean, Refusal};

pub trait Calls {
    fn open(&self, store: &mut [u8], year: u32, month: u32, day: u32, stations: &[u32], rows: &[u16]) -> u32;
    fn file(&self, store: &mut [u8], text: &[u8], rank: u32) -> u32;
    fn settle(&self, store: &mut [u8], station: u32) -> u32;
    fn begin(&self, store: &mut [u8], station: u32) -> u32;
    fn step(&self, store: &mut [u8], station: u32) -> u32;
    /// `out`: state, flag, value.
    fn cell(&self, store: &[u8], station: u32, element: u32, slot: u32, out: &mut [i32; 3]) -> u32;
    /// `means` and `numbers`: see `day_arrays`.
    fn day(&self, store: &[u8], station: u32, means: &mut [f64; 6], numbers: &mut [i32; 14]) -> u32;
    /// `counts`: accepted, refused.
    fn bulletin(&self, store: &mut [u8], text: &[u8], rank: u32, counts: &mut [u32; 2]) -> u32;
    fn vapour_table(&self, entries: &mut [u16]) -> u32;
}

/// The reading of the paper in this crate.
pub struct Reference;

impl Calls for Reference {
    fn open(&self, store: &mut [u8], year: u32, month: u32, day: u32, stations: &[u32], rows: &[u16]) -> u32 {
        number(reference::open(store, year, month, day, stations, rows), |()| {})
    }

    fn file(&self, store: &mut [u8], text: &[u8], rank: u32) -> u32 {
        number(reference::file(store, text, rank), |()| {})
    }

    fn settle(&self, store: &mut [u8], station: u32) -> u32 {
        number(reference::settle(store, station), |()| {})
    }

    fn begin(&self, store: &mut [u8], station: u32) -> u32 {
        number(reference::begin(store, station), |()| {})
    }

    fn step(&self, store: &mut [u8], station: u32) -> u32 {
        number(reference::step(store, station), |()| {})
    }

    fn cell(&self, store: &[u8], station: u32, element: u32, slot: u32, out: &mut [i32; 3]) -> u32 {
        number(reference::cell(store, station, element, slot), |cell| *out = cell_array(cell))
    }

    fn day(&self, store: &[u8], station: u32, means: &mut [f64; 6], numbers: &mut [i32; 14]) -> u32 {
        number(reference::day(store, station), |line| (*means, *numbers) = day_arrays(&line))
    }

    fn bulletin(&self, store: &mut [u8], text: &[u8], rank: u32, counts: &mut [u32; 2]) -> u32 {
        number(reference::bulletin(store, text, rank), |tally| *counts = [tally.accepted, tally.refused])
    }

    fn vapour_table(&self, entries: &mut [u16]) -> u32 {
        vapour::fill(entries).map_or_else(|needed| needed as u32, |()| 0)
    }
}

/// 0 and what an accepted call writes, or the refusal's number.
fn number<A>(answer: Result<A, Refusal>, write: impl FnOnce(A)) -> u32 {
    match answer {
        Ok(answer) => {
            write(answer);
            0
        }
        Err(refusal) => refusal.number(),
    }
}

/// State, flag, value.
fn cell_array(cell: Cell) -> [i32; 3] {
    [cell.state.into(), cell.flag.into(), cell.value.into()]
}

/// The means of T, D, P, W, C and vapour pressure (0 where absent), and the whole numbers: 0 to 5 the
/// kind of each mean (0 absent, 1 read, 2 mended), 6 whether there is rain, 7 rain in tenths of mm
/// (0 where absent), 8 and 9 the warmest and coldest slot (-1 where absent), 10 to 13 the counts of
/// cells read, corrected, filled, missing.
fn day_arrays(line: &DayLine) -> ([f64; 6], [i32; 14]) {
    let mut means = [0.0; 6];
    let mut numbers = [0; 14];
    for (i, mean) in line.means.iter().enumerate() {
        (numbers[i], means[i]) = match *mean {
            Mean::Absent => (0, 0.0),
            Mean::Read(value) => (1, value),
            Mean::Mended(value) => (2, value),
        };
    }
    numbers[6] = line.rain.is_some().into();
    numbers[7] = line.rain.unwrap_or(0);
    numbers[8] = line.warmest.map_or(-1, i32::from);
    numbers[9] = line.coldest.map_or(-1, i32::from);
    for (number, count) in numbers[10..].iter_mut().zip(line.counts) {
        *number = count as i32;
    }
    (means, numbers)
}
