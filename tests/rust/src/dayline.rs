//! The program `dayline` of the paper, over the reference: input in pieces of any size, fixed memory.

use crate::reference::{self, layout::store_length, store::ORDINARY};
use std::fmt::Write;

/// Year, month, day, then 32 pairs of station and row.
const MOST_FIELDS: usize = 3 + 2 * 32;
/// One byte more than a report may have: a longer one is refused 1, whatever it holds.
const KEPT: usize = 513;

/// What the program knows between two pieces of its input.
pub struct DayLines {
    first_line: Option<FirstLine>,
    /// None where no store could be opened.
    store: Option<Vec<u8>>,
    stations: Vec<u32>,
    report: Vec<u8>,
    refused: u64,
}

impl Default for DayLines {
    fn default() -> Self {
        DayLines {
            first_line: Some(FirstLine::default()),
            store: None,
            stations: Vec::new(),
            report: Vec::with_capacity(KEPT),
            refused: 0,
        }
    }
}

impl DayLines {
    /// Takes the next piece of the input.
    pub fn feed(&mut self, input: &[u8]) {
        for &byte in input {
            match &mut self.first_line {
                Some(line) if byte != b'\n' => line.feed(byte),
                Some(_) => self.open(),
                None => self.feed_report(byte),
            }
        }
    }

    /// Ends the input: settles all stations and gives the program's output.
    pub fn finish(mut self) -> String {
        if self.first_line.is_some() {
            self.open();
        }
        if self.report.iter().any(|&byte| !matches!(byte, b' ' | b'\r' | b'\n')) {
            self.file();
        }
        match self.store {
            None => "open 10\n".to_string(),
            Some(mut store) => {
                let mut out = String::new();
                for &station in &self.stations {
                    write_line(&mut out, &mut store, station);
                }
                writeln!(out, "refused {}", self.refused).unwrap();
                out
            }
        }
    }

    /// Opens the store that the first line asks for.
    fn open(&mut self) {
        let Some((date, stations, rows)) = self.first_line.take().and_then(FirstLine::fields) else { return };
        let mut store = vec![0; store_length(stations.len())];
        if reference::open(&mut store, date[0], date[1], date[2], &stations, &rows).is_ok() {
            self.store = Some(store);
            self.stations = stations;
        }
    }

    fn feed_report(&mut self, byte: u8) {
        // A blank beyond the limit is kept off too, so what is kept must show a byte that is none.
        if self.report.len() < KEPT {
            self.report.push(byte);
        } else if !matches!(byte, b' ' | b'\r' | b'\n' | b'=') {
            self.report[KEPT - 1] = byte;
        }
        if byte == b'=' {
            self.file();
        }
    }

    /// Files the report that is kept.
    fn file(&mut self) {
        if let Some(store) = &mut self.store {
            self.refused += u64::from(reference::file(store, &self.report, ORDINARY).is_err());
        }
        self.report.clear();
    }
}

/// Settles a station and prints its line.
fn write_line(out: &mut String, store: &mut [u8], station: u32) {
    reference::settle(store, station).expect("an open store has its stations");
    let line = reference::day(store, station).expect("the station is settled");
    let shown = |value: Option<i32>| value.map_or("-".to_string(), |value| value.to_string());
    let [read, corrected, filled, missing] = line.counts;
    writeln!(
        out,
        "{station:05} {} {} {} {read} {corrected} {filled} {missing}",
        shown(line.rain),
        shown(line.warmest.map(i32::from)),
        shown(line.coldest.map(i32::from)),
    )
    .unwrap();
}

/// The first line, as it comes: decimal fields parted by spaces or CR.
#[derive(Default)]
struct FirstLine {
    numbers: Vec<u32>,
    /// The last byte was a digit of a field.
    in_field: bool,
    /// A byte that has no place in the line, or more fields than any store has.
    bad: bool,
}

impl FirstLine {
    fn feed(&mut self, byte: u8) {
        match byte {
            b'0'..=b'9' => self.digit(byte - b'0'),
            b' ' | b'\r' => self.in_field = false,
            _ => self.bad = true,
        }
    }

    fn digit(&mut self, digit: u8) {
        if !self.in_field {
            self.in_field = true;
            self.bad |= self.numbers.len() == MOST_FIELDS;
            if !self.bad {
                self.numbers.push(0);
            }
        }
        if let Some(number) = self.numbers.last_mut() {
            // The largest number stands for all that are too large: no store has it.
            *number = number.saturating_mul(10).saturating_add(digit.into());
        }
    }

    /// The date, the stations and their rows.
    fn fields(self) -> Option<([u32; 3], Vec<u32>, Vec<u16>)> {
        let (date, pairs) = self.numbers.split_first_chunk::<3>()?;
        if self.bad || pairs.len() % 2 != 0 {
            return None;
        }
        let stations = pairs.iter().step_by(2).copied().collect();
        let rows = pairs.iter().skip(1).step_by(2).map(|&row| u16::try_from(row).unwrap_or(u16::MAX));
        Some((*date, stations, rows.collect()))
    }
}
