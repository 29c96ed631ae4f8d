//! "The store": soundness, a fresh one, and its parts read and written. Where they lie is in `layout`.

use super::calendar::Date;
use super::gate::Refusal;
use super::layout::{
    block_at, checked_at, entry_at, head_at, raw_at, store_length, BLOCK, BLOCK_LENGTH, BLOCK_OFFSET, CELL,
    CHECKED, DAY, DD_COPY, ENTRY, HEAD, HEADER, LIST_OFFSET, MONTH, N, NUMBER, RAW, ROW, SETTLED, YEAR, ZERO,
};

/// Elements, in the order of a slot's cells.
pub const T: usize = 0;
pub const D: usize = 1;
pub const P: usize = 2;
pub const W: usize = 3;
pub const C: usize = 4;
pub const V: usize = 5;
pub const R: usize = 6;
pub const X: usize = 7;
pub const M: usize = 8;

/// Their letters.
pub const ELEMENTS: &[u8; 9] = b"TDPWCVRXM";

/// States of a cell.
pub const MISSING: u8 = 0;
pub const READ: u8 = 1;
pub const CORRECTED: u8 = 2;
pub const FILLED: u8 = 3;
/// A humidity in percent, in D's cell (document 02, S-2).
pub const HUMIDITY: u8 = 4;

/// The iR of a station that has had no rain and drops group 6 (document 02, S-5).
pub const DRY: u8 = 3;

/// Ranks of a report: an ordinary one's, then 1 to 24 for CCA to CCX (document 02, S-3).
pub const ORDINARY: u32 = 0;
pub const HIGHEST_RANK: u32 = 24;

#[derive(Clone, Copy, Debug, PartialEq, Eq)]
pub struct Cell {
    pub state: u8,
    pub flag: u8,
    pub value: i16,
}

impl Cell {
    pub const MISSING: Cell = Cell { state: MISSING, flag: 0, value: 0 };

    /// A raw cell: read where there is a value.
    pub fn raw(value: Option<i16>) -> Cell {
        value.map_or(Cell::MISSING, |value| Cell { state: READ, flag: 0, value })
    }

    /// A raw cell of D that holds a humidity.
    pub fn raw_humidity(percent: i16) -> Cell {
        Cell { state: HUMIDITY, flag: 0, value: percent }
    }

    /// The value of its element, where there is one. A humidity is none: no step changes or tests it, and it is
    /// nobody's neighbour.
    pub fn get(self) -> Option<i32> {
        matches!(self.state, READ | CORRECTED | FILLED).then_some(self.value.into())
    }

    /// The humidity, where D's cell holds one.
    pub fn humidity(self) -> Option<i32> {
        (self.state == HUMIDITY).then_some(self.value.into())
    }

    /// Nothing is there, which is what the fill step looks for.
    pub fn is_missing(self) -> bool {
        self.state == MISSING
    }

    pub fn from_bytes(b: [u8; CELL]) -> Cell {
        Cell { state: b[0], flag: b[1], value: i16::from_be_bytes([b[2], b[3]]) }
    }

    pub fn to_bytes(self) -> [u8; CELL] {
        let value = self.value.to_be_bytes();
        [self.state, self.flag, value[0], value[1]]
    }
}

/// The head of a slot.
#[derive(Clone, Copy, Debug, PartialEq, Eq)]
pub struct Head {
    pub filed: u8,
    pub ir: u8,
    pub tr: u8,
    pub dd: u8,
    /// The filed report's (document 02, S-3).
    pub rank: u8,
    /// The dd that a settling under way reads, else 0 (document 02, S-6).
    pub dd_copy: u8,
}

impl Head {
    pub const UNFILED: Head = Head { filed: 0, ir: 5, tr: 0, dd: 100, rank: 0, dd_copy: 0 };

    fn from_bytes([filed, ir, tr, dd, rank, dd_copy]: [u8; HEAD]) -> Head {
        Head { filed, ir, tr, dd, rank, dd_copy }
    }

    fn to_bytes(self) -> [u8; HEAD] {
        [self.filed, self.ir, self.tr, self.dd, self.rank, self.dd_copy]
    }
}

/// One of the four steps of settling.
#[derive(Clone, Copy, Debug, PartialEq, Eq)]
pub enum Step {
    Range,
    Internal,
    Time,
    Fill,
}

const STEPS: [Step; 4] = [Step::Range, Step::Internal, Step::Time, Step::Fill];

/// What a station's settled number says (document 02, S-6).
#[derive(Clone, Copy, Debug, PartialEq, Eq)]
pub enum Settling {
    Unsettled,
    Settled,
    /// Begun: the step that is due, and whether a report for the station but NIL was accepted since.
    UnderWay {
        due: Step,
        reported: bool,
    },
}

impl Settling {
    /// "2 to 5 while range, internal, time or fill is due, 6 to 9 if such a report came since."
    pub fn from_number(number: u16) -> Option<Settling> {
        let under_way = |due: u16, reported| Settling::UnderWay { due: STEPS[due as usize], reported };
        Some(match number {
            0 => Settling::Unsettled,
            1 => Settling::Settled,
            2..=5 => under_way(number - 2, false),
            6..=9 => under_way(number - 6, true),
            _ => return None,
        })
    }

    pub fn number(self) -> u16 {
        match self {
            Settling::Unsettled => 0,
            Settling::Settled => 1,
            Settling::UnderWay { due, reported } => due as u16 + if reported { 6 } else { 2 },
        }
    }

    /// After a report but NIL: a settling under way goes on, and the station will not be settled when it ends.
    pub fn reported(self) -> Settling {
        match self {
            Settling::UnderWay { due, .. } => Settling::UnderWay { due, reported: true },
            Settling::Unsettled | Settling::Settled => Settling::Unsettled,
        }
    }
}

/// A station's 81 cells, raw or checked: `sheet[slot][element]`.
pub type Sheet = [[Cell; 9]; 9];

fn u16_at(bytes: &[u8], at: usize) -> u16 {
    u16::from_be_bytes([bytes[at], bytes[at + 1]])
}

fn u32_at(bytes: &[u8], at: usize) -> u32 {
    u32::from_be_bytes([bytes[at], bytes[at + 1], bytes[at + 2], bytes[at + 3]])
}

#[inline]
fn put_u16(bytes: &mut [u8], at: usize, number: u16) {
    bytes[at..at + 2].copy_from_slice(&number.to_be_bytes());
}

/// The N bytes from a place on.
fn array<const N: usize>(bytes: &[u8], at: usize) -> [u8; N] {
    std::array::from_fn(|i| bytes[at + i])
}

// ---- Soundness ----

pub fn require_sound(store: &[u8]) -> Result<(), Refusal> {
    if sound(store) {
        Ok(())
    } else {
        Err(Refusal::Unsound)
    }
}

/// Every sentence of "The store" holds of the buffer.
pub fn sound(store: &[u8]) -> bool {
    if store.len() < HEADER {
        return false;
    }
    let n = stations(store);
    if !(1..=32).contains(&n) || store.len() != store_length(n) {
        return false;
    }
    let (entries, blocks) = store[HEADER..].split_at(ENTRY * n);
    let mut parts = entries.chunks_exact(ENTRY).zip(blocks.chunks_exact(BLOCK));
    sound_header(store, n) && sound_entries(entries) && parts.all(|(entry, block)| sound_block(entry, block))
}

fn sound_header(store: &[u8], n: usize) -> bool {
    let (year, month, day) = date_numbers(store);
    u16_at(store, LIST_OFFSET.at) as usize == entry_at(0)
        && u16_at(store, BLOCK_OFFSET.at) as usize == block_at(n, 0)
        && u16_at(store, BLOCK_LENGTH.at) as usize == BLOCK
        && Date::new(year.into(), month.into(), day.into()).is_some()
        && u16_at(store, ZERO.at) == 0
}

fn sound_entries(entries: &[u8]) -> bool {
    let mut before = 0;
    entries.chunks_exact(ENTRY).all(|entry| {
        let number = u32_at(entry, NUMBER.at);
        let ascending = number > before;
        before = number;
        ascending && number <= 99999 && u16_at(entry, ROW.at) <= 1 && settling_in(entry).is_some()
    })
}

/// A block beside its station's sound entry.
fn sound_block(entry: &[u8], block: &[u8]) -> bool {
    let under_way = matches!(settling_in(entry), Some(Settling::UnderWay { .. }));
    let sound_copy = |copy: u8| if under_way { sound_dd(copy) } else { copy == 0 };
    let mut heads = block[..RAW].chunks_exact(HEAD).map(|bytes| Head::from_bytes(array(bytes, 0)));
    heads.all(|head| sound_head(head) && sound_copy(head.dd_copy))
        && sound_cells(&block[RAW..CHECKED], sound_raw)
        && sound_cells(&block[CHECKED..], sound_checked)
}

/// Nine slots of nine cells; one of D's may hold a humidity.
fn sound_cells(bytes: &[u8], sound: impl Fn(Cell) -> bool) -> bool {
    bytes.chunks_exact(9 * CELL).all(|slot| {
        (0..9).all(|element| {
            let cell = Cell::from_bytes(array(slot, CELL * element));
            sound(cell) && (cell.state != HUMIDITY || element == D)
        })
    })
}

fn sound_head(head: Head) -> bool {
    head.filed <= 1
        && head.ir <= 5
        && head.tr <= 9
        && sound_dd(head.dd)
        && u32::from(head.rank) <= if head.filed == 0 { 0 } else { HIGHEST_RANK }
}

fn sound_dd(dd: u8) -> bool {
    matches!(dd, 0..=36 | 99 | 100)
}

fn sound_raw(cell: Cell) -> bool {
    cell.flag == 0 && (cell.state <= READ && sound_value(cell) || sound_humidity(cell))
}

fn sound_checked(cell: Cell) -> bool {
    cell.flag <= 4 && (cell.state <= FILLED && sound_value(cell) || sound_humidity(cell))
}

fn sound_value(cell: Cell) -> bool {
    cell.value != i16::MIN && (cell.state != MISSING || cell.value == 0)
}

fn sound_humidity(cell: Cell) -> bool {
    cell.state == HUMIDITY && (1..=100).contains(&cell.value)
}

// ---- Opening ----

/// What refusal 10 asks of the buffer's length and the stations.
pub fn can_open(len: usize, stations: &[u32], rows: &[u16]) -> bool {
    (1..=32).contains(&stations.len())
        && rows.len() == stations.len()
        && len == store_length(stations.len())
        && rows.iter().all(|&row| row <= 1)
        && stations.iter().all(|&number| (1..=99999).contains(&number))
        && stations.windows(2).all(|pair| pair[0] < pair[1])
}

/// Writes every byte of a store that can be opened.
pub fn write_fresh(store: &mut [u8], date: Date, stations: &[u32], rows: &[u16]) {
    let n = stations.len();
    let header = [
        (N, n as u16),
        (LIST_OFFSET, entry_at(0) as u16),
        (BLOCK_OFFSET, block_at(n, 0) as u16),
        (BLOCK_LENGTH, BLOCK as u16),
        (YEAR, date.year),
        (MONTH, date.month.into()),
        (DAY, date.day.into()),
        (ZERO, 0),
    ];
    for (field, number) in header {
        put_u16(store, field.at, number);
    }
    let (entries, blocks) = store[HEADER..].split_at_mut(ENTRY * n);
    for (entry, (number, row)) in entries.chunks_exact_mut(ENTRY).zip(stations.iter().zip(rows)) {
        entry[NUMBER.at..NUMBER.at + 4].copy_from_slice(&number.to_be_bytes());
        put_u16(entry, ROW.at, *row);
        put_u16(entry, SETTLED.at, 0);
    }
    for block in blocks.chunks_exact_mut(BLOCK) {
        block.fill(0);
        for head in block[..RAW].chunks_exact_mut(HEAD) {
            head.copy_from_slice(&Head::UNFILED.to_bytes());
        }
    }
}

// ---- Reading and writing the parts of a sound store ----

/// The number of stations.
#[inline]
pub fn stations(store: &[u8]) -> usize {
    u16_at(store, N.at) as usize
}

#[inline]
fn date_numbers(store: &[u8]) -> (u16, u16, u16) {
    (u16_at(store, YEAR.at), u16_at(store, MONTH.at), u16_at(store, DAY.at))
}

/// The day D.
pub fn date(store: &[u8]) -> Date {
    let (year, month, day) = date_numbers(store);
    Date { year, month: month as u8, day: day as u8 }
}

/// The place of a station in the list, which ascends.
pub fn find(store: &[u8], station: u32) -> Result<usize, Refusal> {
    let (mut low, mut high) = (0, stations(store));
    while low < high {
        let middle = (low + high) / 2;
        if number(store, middle) < station {
            low = middle + 1;
        } else {
            high = middle;
        }
    }
    if low < stations(store) && number(store, low) == station {
        Ok(low)
    } else {
        Err(Refusal::NoStation)
    }
}

#[inline]
pub fn number(store: &[u8], index: usize) -> u32 {
    u32_at(store, entry_at(index) + NUMBER.at)
}

/// The station's climate row: 0 lowland, 1 hill.
pub fn row(store: &[u8], index: usize) -> usize {
    u16_at(store, entry_at(index) + ROW.at) as usize
}

/// What the settled number of a station's entry says, if it may stand there.
#[inline]
fn settling_in(entry: &[u8]) -> Option<Settling> {
    Settling::from_number(u16_at(entry, SETTLED.at))
}

/// How far a station's settling is, in a sound store.
pub fn settling(store: &[u8], index: usize) -> Settling {
    settling_in(&store[entry_at(index)..]).expect("a sound store")
}

pub fn set_settling(store: &mut [u8], index: usize, settling: Settling) {
    put_u16(store, entry_at(index) + SETTLED.at, settling.number());
}

pub fn require_settled(store: &[u8], index: usize) -> Result<(), Refusal> {
    if settling(store, index) == Settling::Settled {
        Ok(())
    } else {
        Err(Refusal::NotSettled)
    }
}

/// The station's own part of the store.
pub fn block(store: &[u8], index: usize) -> &[u8] {
    let at = block_at(stations(store), index);
    &store[at..at + BLOCK]
}

pub fn block_mut(store: &mut [u8], index: usize) -> &mut [u8] {
    let at = block_at(stations(store), index);
    &mut store[at..at + BLOCK]
}

pub fn head(block: &[u8], slot: usize) -> Head {
    Head::from_bytes(array(block, head_at(slot)))
}

#[inline]
pub fn put_head(block: &mut [u8], slot: usize, head: Head) {
    block[head_at(slot)..head_at(slot) + HEAD].copy_from_slice(&head.to_bytes());
}

/// The nine copies of dd, slot by slot.
pub fn put_dd_copies(block: &mut [u8], copies: [u8; 9]) {
    for (slot, copy) in copies.into_iter().enumerate() {
        block[head_at(slot) + DD_COPY.at] = copy;
    }
}

/// Replaces a slot's head and its nine raw cells.
pub fn put_slot(block: &mut [u8], slot: usize, head: Head, cells: &[Cell; 9]) {
    put_head(block, slot, head);
    let at = raw_at(0, slot);
    for (bytes, cell) in block[at..at + 9 * CELL].chunks_exact_mut(CELL).zip(cells) {
        bytes.copy_from_slice(&cell.to_bytes());
    }
}

pub fn checked_cell(block: &[u8], element: usize, slot: usize) -> Cell {
    Cell::from_bytes(array(block, checked_at(element, slot)))
}

pub fn raw_sheet(block: &[u8]) -> Sheet {
    sheet(&block[RAW..CHECKED])
}

pub fn checked_sheet(block: &[u8]) -> Sheet {
    sheet(&block[CHECKED..])
}

fn sheet(bytes: &[u8]) -> Sheet {
    let mut sheet = [[Cell::MISSING; 9]; 9];
    for (cell, bytes) in sheet.as_flattened_mut().iter_mut().zip(bytes.chunks_exact(CELL)) {
        *cell = Cell::from_bytes(array(bytes, 0));
    }
    sheet
}

pub fn put_raw(block: &mut [u8], sheet: &Sheet) {
    put_sheet(&mut block[RAW..CHECKED], sheet);
}

pub fn put_checked(block: &mut [u8], sheet: &Sheet) {
    put_sheet(&mut block[CHECKED..], sheet);
}

#[inline]
fn put_sheet(bytes: &mut [u8], sheet: &Sheet) {
    for (bytes, cell) in bytes.chunks_exact_mut(CELL).zip(sheet.as_flattened()) {
        bytes.copy_from_slice(&cell.to_bytes());
    }
}
