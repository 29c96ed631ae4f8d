//! Openings and buffers, sound and not.

use super::rng::Rng;
use super::texts::{PRESSURES, TEMPERATURES};
use crate::reference;
use crate::reference::calendar::Date;
pub use crate::reference::layout::Edits;
use crate::reference::layout::{block_at, entry_at, store_length, Record};
use crate::reference::layout::{
    BLOCK, DD_COPY, ENTRY, FILED, FLAG, HEADER, HEADER_FIELDS, N, NUMBER, RANK, RAW, SETTLED, STATE, STATION,
    VALUE,
};
use crate::reference::store::{
    self, can_open, Cell, Head, Settling, Sheet, D, DRY, HIGHEST_RANK, HUMIDITY, R, READ, T,
};

/// The arguments of an open call but its buffer.
#[derive(Clone, Debug)]
pub struct Opening {
    pub year: u32,
    pub month: u32,
    pub day: u32,
    pub stations: Vec<u32>,
    pub rows: Vec<u16>,
}

/// Dates where a rule of the calendar turns.
const DATES: [[u32; 3]; 8] = [
    [2024, 2, 28],
    [2024, 2, 29],
    [2023, 2, 28],
    [2000, 2, 28],
    [2000, 2, 29],
    [2000, 1, 1],
    [2096, 2, 29],
    [2099, 12, 31],
];

impl Opening {
    /// One that is accepted. Small stores mostly, since they are quicker to compare.
    pub fn good(rng: &mut Rng) -> Opening {
        let [year, month, day] = match rng.below(10) {
            0 | 1 => rng.pick(&DATES),
            2 | 3 => month_end(rng),
            _ => [rng.between(2000, 2099), rng.between(1, 12), rng.between(1, 28)].map(|x| x as u32),
        };
        let n = match rng.below(100) {
            0..=44 => 1,
            45..=79 => 2 + rng.below(2),
            80..=95 => 4 + rng.below(5),
            96 => 32,
            _ => 9 + rng.below(24),
        };
        let stations = good_stations(rng, n);
        let rows = (0..n).map(|_| rng.below(2) as u16).collect();
        Opening { year, month, day, stations, rows }
    }

    /// A buffer of the right length can be opened so.
    pub fn is_good(&self) -> bool {
        self.has_slots() && can_open(store_length(self.stations.len()), &self.stations, &self.rows)
    }

    /// The date is one that has slots.
    pub fn has_slots(&self) -> bool {
        Date::new(self.year, self.month, self.day).is_some()
    }

    /// One thing wrong, or at least odd.
    pub fn spoil(&mut self, rng: &mut Rng, len: &mut usize) {
        let at = rng.below(self.stations.len());
        match rng.below(14) {
            0 => (self.year, self.month, self.day) = any_date(rng),
            1 => self.year = rng.pick(&[0, 1999, 2100, 24, 65536 + 2024, u32::MAX]),
            2 => self.month = rng.pick(&[0, 13, 256 + 4, 65536 + 4, u32::MAX]),
            3 => self.day = rng.pick(&[0, 29, 30, 31, 32, 256 + 4, 65536 + 4, u32::MAX]),
            4 => self.rows[at] = rng.pick(&[2, 256, 257, u16::MAX]),
            5 => self.stations[at] = rng.pick(&[0, 1, 99999, 100000, 65536, 1 << 17, u32::MAX]),
            6 => self.stations[at] = self.stations[rng.below(self.stations.len())],
            7 => {
                let other = rng.below(self.stations.len());
                self.stations.swap(at, other);
            }
            8 => *len = any_length(rng, *len),
            9 => self.rows.truncate(at),
            10 => self.rows.push(0),
            11 => {
                let n = rng.pick(&[0, 33]);
                self.resize(rng, n);
                *len = store_length(self.stations.len());
            }
            12 => self.resize(rng, at),
            _ => {
                self.stations.push(99999);
                self.rows.push(1);
                *len = store_length(self.stations.len());
            }
        }
    }

    fn resize(&mut self, rng: &mut Rng, n: usize) {
        self.stations = good_stations(rng, n);
        self.rows = vec![0; n];
    }
}

/// The last day of a month.
fn month_end(rng: &mut Rng) -> [u32; 3] {
    let (year, month) = (rng.between(2000, 2099) as u32, rng.between(1, 12) as u32);
    let day = (28..=31).rev().find(|&day| Date::new(year, month, day).is_some()).unwrap();
    [year, month, day]
}

fn any_date(rng: &mut Rng) -> (u32, u32, u32) {
    let year = rng.pick(&[2000, 2001, 2004, 2023, 2024, 2050, 2096, 2099, 2100]);
    (year, rng.between(0, 13) as u32, rng.between(27, 32) as u32)
}

fn any_length(rng: &mut Rng, len: usize) -> usize {
    match rng.below(6) {
        0 => 0,
        1 => rng.below(HEADER + ENTRY + 16),
        2 => len + STATION,
        3 => len - STATION,
        4 => len + 1 + rng.below(8),
        _ => len - 1 - rng.below(8),
    }
}

/// Ascending numbers, at times close together or at the ends.
fn good_stations(rng: &mut Rng, n: usize) -> Vec<u32> {
    let mut stations: Vec<u32> = Vec::new();
    let (low, span) = match rng.below(4) {
        0 => (1, n + 3),
        1 => (99999 - n as u32 - 2, n + 3),
        _ => (1, 99999),
    };
    while stations.len() < n {
        let station = low + rng.below(span) as u32;
        if station <= 99999 && !stations.contains(&station) {
            stations.push(station);
        }
    }
    stations.sort();
    stations
}

fn opened(opening: &Opening) -> Vec<u8> {
    let mut store = vec![0; store_length(opening.stations.len())];
    let Opening { year, month, day, stations, rows } = opening;
    reference::open(&mut store, *year, *month, *day, stations, rows).expect("a good opening");
    store
}

/// A sound buffer with anything in its heads and cells.
pub fn hand_made(rng: &mut Rng, opening: &Opening) -> Vec<u8> {
    let mut store = opened(opening);
    for index in 0..opening.stations.len() {
        store::set_settling(&mut store, index, any_settling(rng));
    }
    for index in 0..opening.stations.len() {
        let under_way = matches!(store::settling(&store, index), Settling::UnderWay { .. });
        let block = store::block_mut(&mut store, index);
        for slot in 0..9 {
            let head = any_head(rng);
            let dd_copy = if under_way { any_copy(rng, head.dd) } else { 0 };
            store::put_head(block, slot, Head { dd_copy, ..head });
        }
        // So many in a hundred are missing or mended, in all of the block.
        let missing = rng.pick(&[0, 0, 1, 5, 30]);
        let mended = rng.pick(&[0, 1, 5, 50]);
        let mut raw = any_sheet(rng, missing, 0);
        some_humidities(rng, &mut raw, &[0]);
        store::put_raw(block, &raw);
        let mut checked = any_sheet(rng, missing, mended);
        for (element, percent) in [(D, 40), (T, 20)] {
            if rng.chance(percent) {
                one_value(rng, &mut checked, element);
            }
        }
        some_humidities(rng, &mut checked, &[0, 0, 1, 2, 3, 4]);
        for end in [4, 8] {
            if rng.chance(50) {
                dry_end(rng, block, &mut checked, end);
            }
        }
        store::put_checked(block, &checked);
    }
    store
}

fn any_head(rng: &mut Rng) -> Head {
    let tr = if rng.chance(80) { rng.pick(&[1, 1, 2, 4]) } else { rng.below(10) as u8 };
    let dd = if rng.chance(30) { rng.pick(&[0, 99, 100]) } else { rng.below(37) as u8 };
    let filed = rng.below(2) as u8;
    let any_rank = rng.below(HIGHEST_RANK as usize + 1) as u8;
    let rank = filed * rng.pick(&[0, 0, 1, 2, HIGHEST_RANK as u8, any_rank, any_rank]);
    Head { filed, ir: rng.below(6) as u8, tr, dd, rank, dd_copy: 0 }
}

/// Mostly settled, since a day line asks for that; of the others most are under way.
fn any_settling(rng: &mut Rng) -> Settling {
    let number = if rng.chance(65) { 1 } else { rng.below(10) as u16 };
    Settling::from_number(number).expect("a settled number")
}

/// A copy of dd while a settling is under way, which need not be the head's.
fn any_copy(rng: &mut Rng, dd: u8) -> u8 {
    let any = rng.below(37) as u8;
    rng.pick(&[dd, dd, 0, any, any, 36, 99, 100])
}

/// 81 cells; flags and states above 1 only where cells may be mended.
fn any_sheet(rng: &mut Rng, missing: usize, mended: usize) -> Sheet {
    let mut sheet = [[Cell::MISSING; 9]; 9];
    for element in 0..9 {
        let column = any_column(rng, element);
        for (slot, value) in column.into_iter().enumerate() {
            let state = match () {
                _ if rng.chance(missing) => 0,
                _ if rng.chance(mended) => 2 + rng.below(2) as u8,
                _ => 1,
            };
            let flag = if mended == 0 { 0 } else { rng.pick(&[0, 0, 0, 1, 2, 3, 4]) };
            let value = if state == 0 { 0 } else { value as i16 };
            sheet[slot][element] = Cell { state, flag, value };
        }
    }
    sheet
}

/// The limits of the range step, by element.
const LIMITS: [&[i32]; 9] = [
    &TEMPERATURES,
    &TEMPERATURES,
    &PRESSURES,
    &[0, 400, 750],
    &[0, 8],
    &[0, 700],
    &[0, 2000, 5000],
    &TEMPERATURES,
    &TEMPERATURES,
];

/// An element's nine values: steady, with jumps round what the time step asks, at limits, or anything.
fn any_column(rng: &mut Rng, element: usize) -> [i32; 9] {
    let base = match element {
        0 | 1 | 7 | 8 => rng.between(-200, 300),
        2 => rng.between(9600, 10400),
        3 => rng.between(0, 80),
        4 => rng.between(0, 8),
        _ => rng.between(0, 300),
    };
    let kind = rng.below(6);
    std::array::from_fn(|_| match kind {
        0 => base,
        1 if rng.chance(30) => base + rng.pick(&[-102, -101, -100, -99, 99, 100, 101, 102]),
        2 if rng.chance(30) => -base + rng.pick(&[-51, -50, -49, 0, 49, 50, 51]),
        3 => rng.pick(LIMITS[element]) + rng.between(-1, 1),
        4 => any_value(rng),
        _ => base + rng.between(0, 3),
    })
}

/// Any value that a sound cell holds.
fn any_value(rng: &mut Rng) -> i32 {
    match rng.below(4) {
        0 => rng.pick(&[-32767, -32766, 32767, 0, -1, 1, 501, 500, 499, -499, -500, -501]),
        1 => rng.between(-600, 600),
        _ => rng.between(-32767, 32767),
    }
}

/// The same D, or T, in all slots, so that the mean of vapour pressure is one entry of the table, or a part of it; at
/// times one of the last or beside them, which no settled report comes to.
fn one_value(rng: &mut Rng, checked: &mut Sheet, element: usize) {
    let value = if rng.chance(20) { rng.between(490, 502) } else { rng.between(-502, 502) } as i16;
    for cells in checked {
        let state = cells[element].state.max(READ);
        cells[element] = Cell { state, value, ..cells[element] };
    }
}

/// Humidities in none, one, some or all of D's cells.
fn some_humidities(rng: &mut Rng, sheet: &mut Sheet, flags: &[u8]) {
    let percent = rng.pick(&[0, 0, 0, 0, 10, 40, 100]);
    let slot = rng.chance(15).then(|| rng.below(9));
    let one = rng.chance(30).then(|| rng.between(1, 100) as i16);
    for (at, cells) in sheet.iter_mut().enumerate() {
        if slot.map_or_else(|| rng.chance(percent), |slot| slot == at) {
            let any = if rng.chance(30) { rng.pick(&[1, 50, 100]) } else { rng.between(1, 100) as i16 };
            cells[D] = Cell { state: HUMIDITY, flag: rng.pick(flags), value: one.unwrap_or(any) };
        }
    }
}

/// A half of the day that ends in a dry slot, or nearly so: iR, tR and R of that slot and of the one six hours before.
fn dry_end(rng: &mut Rng, block: &mut [u8], checked: &mut Sheet, end: usize) {
    let indicators = [rng.below(6), rng.below(6)].map(|ir| ir as u8);
    let (before_end, at_end) = (
        (indicators[0], rng.pick(&[1, 1, 1, 1, 2, 0]), rng.pick(&[Some(120), Some(3), Some(0), None])),
        (
            rng.pick(&[DRY, DRY, indicators[1]]),
            rng.pick(&[2, 2, 2, 2, 2, 4, 1, 0]),
            rng.pick(&[Some(0), Some(0), Some(0), Some(0), Some(1), None]),
        ),
    );
    for (slot, (ir, tr, rain)) in [(end - 2, before_end), (end, at_end)] {
        store::put_head(block, slot, Head { ir, tr, ..store::head(block, slot) });
        let Cell { state, flag, .. } = checked[slot][R];
        let flag = rng.pick(&[flag, flag, 1]);
        let missing = Cell { flag, ..Cell::MISSING };
        checked[slot][R] = rain.map_or(missing, |value| Cell { state: state.max(READ), flag, value });
    }
}

// ---- Damage ----

/// A change of a buffer of n stations: mostly one byte, at times a whole field.
pub fn any_edits(rng: &mut Rng, n: usize) -> Edits {
    if !rng.chance(30) {
        return vec![(any_place(rng, n), any_byte(rng))];
    }
    let entry = Record::Entry { index: rng.below(n) };
    let cell = any_cell(rng, n);
    match rng.below(12) {
        0 => entry.edit(n, NUMBER, rng.pick(&[0, 1, 99999, 100000, 1 << 16, 1 << 17, u32::MAX])),
        1 => {
            let number = rng.pick(&[0, 1, 2, 12, 13, 28, 29, 30, 31, 32, 33, 1999, 2000, 2099, 2100]);
            Record::Header.edit(n, rng.pick(HEADER_FIELDS), number)
        }
        2 | 3 => humidity_edits(rng, n),
        4 | 5 => rank_edits(rng, n),
        6..=8 => settling_edits(rng, n),
        _ => {
            let value: i32 = rng.pick(&[-32768, -32768, -32767, 0, 1]);
            let mut edits = cell.edit(n, VALUE, value as u32);
            if rng.chance(70) {
                edits.extend(cell.edit(n, STATE, 1));
            }
            edits
        }
    }
}

/// A humidity, or nearly one, mostly in a cell of D.
fn humidity_edits(rng: &mut Rng, n: usize) -> Edits {
    let (index, slot) = (rng.below(n), rng.below(9));
    let any = rng.below(9);
    let element = rng.pick(&[D, D, D, T, any]);
    let cell = if rng.chance(50) {
        Record::Raw { index, element, slot }
    } else {
        Record::Checked { index, element, slot }
    };
    let value: i32 = rng.pick(&[-32768, -1, 0, 1, 50, 100, 101, 256]);
    let mut edits = cell.edit(n, STATE, HUMIDITY.into());
    edits.extend(cell.edit(n, VALUE, value as u32));
    if rng.chance(40) {
        edits.extend(cell.edit(n, FLAG, rng.pick(&[0, 0, 1, 4, 5])));
    }
    edits
}

/// A settled number, at times one that no entry has, a slot's copy of dd, or both.
fn settling_edits(rng: &mut Rng, n: usize) -> Edits {
    let (index, slot) = (rng.below(n), rng.below(9));
    let number = rng.below(10) as u32;
    let number = rng.pick(&[number, number, number, 10, 11, 255, 256, 258, 65535]);
    let mut edits = match rng.below(3) {
        0 => Edits::new(),
        _ => Record::Entry { index }.edit(n, SETTLED, number),
    };
    if edits.is_empty() || rng.chance(50) {
        let copy = rng.pick(&[0, 1, 36, 37, 98, 99, 100, 101, 255]);
        edits.extend(Record::Head { index, slot }.edit(n, DD_COPY, copy));
    }
    edits
}

/// A rank in a filed or unfiled slot, at times one that it may not have.
fn rank_edits(rng: &mut Rng, n: usize) -> Edits {
    let head = Record::Head { index: rng.below(n), slot: rng.below(9) };
    let any_rank = rng.below(HIGHEST_RANK as usize + 1) as u32;
    let rank = rng.pick(&[0, 1, any_rank, any_rank, HIGHEST_RANK, HIGHEST_RANK + 1, HIGHEST_RANK + 1, 255]);
    let mut edits = head.edit(n, RANK, rank);
    if rng.chance(80) {
        edits.extend(head.edit(n, FILED, rng.pick(&[0, 1, 1])));
    }
    edits
}

/// A raw or checked cell.
fn any_cell(rng: &mut Rng, n: usize) -> Record {
    let index = rng.below(n);
    let cell = rng.below(2 * 81);
    let (element, slot) = (cell % 9, cell / 9 % 9);
    if cell < 81 {
        Record::Raw { index, element, slot }
    } else {
        Record::Checked { index, element, slot }
    }
}

/// A place in a buffer of n stations: header, entries, heads and cells alike.
fn any_place(rng: &mut Rng, n: usize) -> usize {
    let block = block_at(n, rng.below(n));
    match rng.below(5) {
        0 => rng.below(HEADER),
        1 => entry_at(0) + rng.below(ENTRY * n),
        2 => block + rng.below(RAW),
        _ => block + RAW + rng.below(BLOCK - RAW),
    }
}

fn any_byte(rng: &mut Rng) -> u8 {
    match rng.below(4) {
        0 => rng.next_u64() as u8,
        1 => rng.pick(&[0, 1]),
        _ => rng.pick(&[2, 3, 4, 5, 6, 9, 10, 24, 25, 36, 37, 98, 99, 100, 101, 127, 128, 255]),
    }
}

/// A buffer that is no store, mostly for its length.
pub fn wrong_length(rng: &mut Rng, opening: &Opening) -> Vec<u8> {
    let mut store = if rng.chance(50) { opened(opening) } else { hand_made(rng, opening) };
    match rng.below(8) {
        0 => store.clear(),
        1 => store.truncate(rng.below(HEADER + 2)),
        2 => store.truncate(any_length(rng, store.len()).min(store.len())),
        3 => store.resize(store.len() + 1 + rng.below(STATION + 8), 0),
        4 => store.resize(store.len() + STATION, 0),
        5 => {
            let n = opening.stations.len();
            let other = rng.pick(&[n + 1, n - 1]) as u32;
            Record::Header.edit(n, N, other).into_iter().for_each(|(at, byte)| store[at] = byte);
        }
        6 => store = too_many(rng),
        _ => store = rng.bytes(store.len()),
    }
    store
}

/// All as it should be, but for 0 or 33 stations.
fn too_many(rng: &mut Rng) -> Vec<u8> {
    fresh(rng.pick(&[0, 33]))
}

/// The bytes of a fresh store of n stations, also where a store may not have so many.
pub fn fresh(n: usize) -> Vec<u8> {
    let mut store = vec![0; store_length(n)];
    let stations: Vec<u32> = (1..).take(n).collect();
    store::write_fresh(&mut store, Date { year: 2024, month: 4, day: 11 }, &stations, &vec![0; n]);
    store
}
