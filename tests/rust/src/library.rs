//! libesfenruk.a, by the crate `esfenruk`: its calls with arrays, and these beside its calls with types.

use crate::calls::Calls;
use crate::reference::layout::store_length;
use esfenruk::{arrays, Cell, Date, DayLine, Element, Mean, Refusal, Row, State, Store, Tally};
use std::fmt::Debug;

/// The calls with arrays alone.
pub struct Arrays;

impl Calls for Arrays {
    fn open(&self, store: &mut [u8], year: u32, month: u32, day: u32, stations: &[u32], rows: &[u16]) -> u32 {
        arrays::open(store, year, month, day, stations, rows)
    }

    fn file(&self, store: &mut [u8], text: &[u8], rank: u32) -> u32 {
        arrays::file(store, text, rank)
    }

    fn settle(&self, store: &mut [u8], station: u32) -> u32 {
        arrays::settle(store, station)
    }

    fn begin(&self, store: &mut [u8], station: u32) -> u32 {
        arrays::begin(store, station)
    }

    fn step(&self, store: &mut [u8], station: u32) -> u32 {
        arrays::step(store, station)
    }

    fn cell(&self, store: &[u8], station: u32, element: u32, slot: u32, out: &mut [i32; 3]) -> u32 {
        arrays::cell(store, station, element, slot, out)
    }

    fn day(&self, store: &[u8], station: u32, means: &mut [f64; 6], numbers: &mut [i32; 14]) -> u32 {
        arrays::day(store, station, means, numbers)
    }

    fn bulletin(&self, store: &mut [u8], text: &[u8], rank: u32, counts: &mut [u32; 2]) -> u32 {
        arrays::bulletin(store, text, rank, counts)
    }

    fn vapour_table(&self, entries: &mut [u16]) -> u32 {
        arrays::vapour_table(entries)
    }
}

/// The calls with types. Those that answer a number alone are made so; of the others the call with arrays answers, and the one
/// with types, where its arguments have any, must say the same.
pub struct Engine;

impl Calls for Engine {
    fn open(&self, store: &mut [u8], year: u32, month: u32, day: u32, stations: &[u32], rows: &[u16]) -> u32 {
        let number = Arrays.open(store, year, month, day, stations, rows);
        if let Some(stations) = with_rows(stations, rows) {
            let typed = opened(store.len(), Date::new(year, month, day), &stations);
            same(number, &*store, typed.as_deref());
        }
        number
    }

    fn file(&self, store: &mut [u8], text: &[u8], rank: u32) -> u32 {
        number(Store::from_bytes(store).file(text, rank))
    }

    fn settle(&self, store: &mut [u8], station: u32) -> u32 {
        number(Store::from_bytes(store).settle(station))
    }

    fn begin(&self, store: &mut [u8], station: u32) -> u32 {
        number(Store::from_bytes(store).begin(station))
    }

    fn step(&self, store: &mut [u8], station: u32) -> u32 {
        number(Store::from_bytes(store).step(station))
    }

    fn cell(&self, store: &[u8], station: u32, element: u32, slot: u32, out: &mut [i32; 3]) -> u32 {
        let number = Arrays.cell(store, station, element, slot, out);
        if let Some(&element) = Element::ALL.get(element as usize) {
            let typed = Store::from_bytes(store).cell(station, element, slot);
            same(number, *out, typed.as_ref().map(cell_array));
        }
        number
    }

    fn day(&self, store: &[u8], station: u32, means: &mut [f64; 6], numbers: &mut [i32; 14]) -> u32 {
        let number = Arrays.day(store, station, means, numbers);
        let typed = Store::from_bytes(store).day(station);
        same(number, (means.map(f64::to_bits), *numbers), typed.as_ref().map(day_arrays));
        number
    }

    fn bulletin(&self, store: &mut [u8], text: &[u8], rank: u32, counts: &mut [u32; 2]) -> u32 {
        let mut other = Store::from_bytes(store.to_vec());
        let number = Arrays.bulletin(store, text, rank, counts);
        let typed = other.bulletin(text, rank);
        same(number, *counts, typed.as_ref().map(|&Tally { accepted, refused }| [accepted, refused]));
        assert!(other.as_bytes() == store, "the call with types leaves another store");
        number
    }

    fn vapour_table(&self, entries: &mut [u16]) -> u32 {
        let number = Arrays.vapour_table(entries);
        if number == 0 {
            assert_eq!(entries, esfenruk::vapour_table());
        }
        number
    }
}

/// Holds what the call with types answers to what the one with arrays gave.
fn same<A: PartialEq + Debug>(number: u32, arrays: A, typed: Result<A, &Refusal>) {
    let arrays = if number == 0 { Ok(arrays) } else { Err(number) };
    assert_eq!(arrays, typed.map_err(|refusal| refusal.number()), "arrays, and types");
}

fn number(typed: Result<(), Refusal>) -> u32 {
    typed.map_or_else(Refusal::number, |()| 0)
}

/// Stations with their rows, if there are as many of both and each row has a name.
fn with_rows(stations: &[u32], rows: &[u16]) -> Option<Vec<(u32, Row)>> {
    let row = |row: &u16| [Row::Lowland, Row::Hill].get(usize::from(*row)).copied();
    let rows: Option<Vec<Row>> = rows.iter().map(row).collect();
    let rows = rows.filter(|rows| rows.len() == stations.len())?;
    Some(stations.iter().copied().zip(rows).collect())
}

/// The bytes of a store that is opened: its own ones where they are as many as are lent, else in a buffer as long as that.
fn opened(lent: usize, date: Date, stations: &[(u32, Row)]) -> Result<Vec<u8>, Refusal> {
    let store = if lent == store_length(stations.len()) {
        Store::open(date, stations)?
    } else {
        Store::open_in(vec![0xa5; lent], date, stations)?
    };
    Ok(store.into_bytes())
}

/// State, flag, value.
fn cell_array(cell: &Cell) -> [i32; 3] {
    let (state, value) = match cell.state {
        State::Missing => (0, 0),
        State::Read(value) => (1, value),
        State::Corrected(value) => (2, value),
        State::Filled(value) => (3, value),
        State::Humidity(value) => (4, value),
    };
    [state, cell.flag as i32, value]
}

/// The bits of the means, and the numbers (`calls::day_arrays` has their order).
fn day_arrays(line: &DayLine) -> ([u64; 6], [i32; 14]) {
    let means =
        [line.temperature, line.dew_point, line.pressure, line.wind_speed, line.cloud, line.vapour_pressure];
    let kinds = means.map(|mean| match mean {
        Mean::Absent => 0,
        Mean::Read(_) => 1,
        Mean::Mended(_) => 2,
    });
    let slot = |slot: Option<u32>| slot.map_or(-1, |slot| slot as i32);
    let counts = [line.read, line.corrected, line.filled, line.missing].map(|count| count as i32);
    let mut numbers = [0; 14];
    numbers[..6].copy_from_slice(&kinds);
    numbers[6..10].copy_from_slice(&[
        line.rain.is_some().into(),
        line.rain.unwrap_or(0),
        slot(line.warmest),
        slot(line.coldest),
    ]);
    numbers[10..].copy_from_slice(&counts);
    (means.map(|mean| mean.value().unwrap_or(0.0).to_bits()), numbers)
}
