//! Where things lie in the store, in bytes, and its fields by name. No other file knows a position or a length.

use super::store::HIGHEST_RANK;

/// The header, a station's entry, a slot's head, a cell.
pub const HEADER: usize = 16;
pub const ENTRY: usize = 8;
pub const HEAD: usize = 6;
pub const CELL: usize = 4;

/// In a station's block, after its nine heads, the raw and the checked cells, 81 each; and the block.
pub const RAW: usize = 9 * HEAD;
pub const CHECKED: usize = RAW + 81 * CELL;
pub const BLOCK: usize = CHECKED + 81 * CELL;

/// What a station adds to the length of a store.
pub const STATION: usize = ENTRY + BLOCK;

/// The length of a store of n stations: 16 + 710n.
pub const fn store_length(n: usize) -> usize {
    block_at(n, n)
}

/// The n whose stores have this length.
pub fn stations_for(length: usize) -> Option<usize> {
    let rest = length.checked_sub(HEADER)?;
    (rest % STATION == 0).then_some(rest / STATION)
}

pub const fn entry_at(index: usize) -> usize {
    HEADER + ENTRY * index
}

pub const fn block_at(n: usize, index: usize) -> usize {
    entry_at(n) + BLOCK * index
}

/// In a block.
pub const fn head_at(slot: usize) -> usize {
    HEAD * slot
}

pub const fn raw_at(element: usize, slot: usize) -> usize {
    RAW + CELL * cell_index(element, slot)
}

pub const fn checked_at(element: usize, slot: usize) -> usize {
    CHECKED + CELL * cell_index(element, slot)
}

/// Slot by slot, elements in their order.
const fn cell_index(element: usize, slot: usize) -> usize {
    9 * slot + element
}

/// A field of a record: where it stands in the record, its bytes, high byte first, and the numbers at which
/// soundness turns, but for those that a fresh store has there.
#[derive(Clone, Copy, Debug, PartialEq, Eq)]
pub struct Field {
    pub name: &'static str,
    pub at: usize,
    pub width: usize,
    pub turns: &'static [u32],
}

const fn field(name: &'static str, at: usize, width: usize, turns: &'static [u32]) -> Field {
    Field { name, at, width, turns }
}

pub const N: Field = field("n", 0, 2, &[1, 32]);
pub const LIST_OFFSET: Field = field("list", 2, 2, &[]);
pub const BLOCK_OFFSET: Field = field("blocks", 4, 2, &[]);
pub const BLOCK_LENGTH: Field = field("length", 6, 2, &[]);
pub const YEAR: Field = field("year", 8, 2, &[2000, 2099]);
pub const MONTH: Field = field("month", 10, 2, &[1, 12]);
pub const DAY: Field = field("day", 12, 2, &[1, 28, 29, 30, 31]);
pub const ZERO: Field = field("zero", 14, 2, &[]);
pub const HEADER_FIELDS: &[Field] = &[N, LIST_OFFSET, BLOCK_OFFSET, BLOCK_LENGTH, YEAR, MONTH, DAY, ZERO];

pub const NUMBER: Field = field("number", 0, 4, &[1, 99999]);
pub const ROW: Field = field("row", 4, 2, &[1]);
pub const SETTLED: Field = field("settled", 6, 2, &[1, 2, 9]);
pub const ENTRY_FIELDS: &[Field] = &[NUMBER, ROW, SETTLED];

pub const FILED: Field = field("filed", 0, 1, &[1]);
pub const IR: Field = field("iR", 1, 1, &[5]);
pub const TR: Field = field("tR", 2, 1, &[9]);
pub const DD: Field = field("dd", 3, 1, &[36, 99, 100]);
/// With S-3 of document 02.
pub const RANK: Field = field("rank", 4, 1, &[HIGHEST_RANK]);
/// With S-6: the dd at begin while a settling is under way, else 0.
pub const DD_COPY: Field = field("copy", 5, 1, &[36, 99, 100]);
pub const HEAD_FIELDS: &[Field] = &[FILED, IR, TR, DD, RANK, DD_COPY];

pub const STATE: Field = field("state", 0, 1, &[1, 3, 4]);
pub const FLAG: Field = field("flag", 1, 1, &[4]);
pub const VALUE: Field = field("value", 2, 2, &[32767, 32768, 65535]);
pub const CELL_FIELDS: &[Field] = &[STATE, FLAG, VALUE];

/// A record of a store, of the station at an index.
#[derive(Clone, Copy, Debug, PartialEq, Eq)]
pub enum Record {
    Header,
    Entry { index: usize },
    Head { index: usize, slot: usize },
    Raw { index: usize, element: usize, slot: usize },
    Checked { index: usize, element: usize, slot: usize },
}

impl Record {
    /// Every record of a store of n stations.
    pub fn all(n: usize) -> impl Iterator<Item = Record> {
        let slots = |index| (0..9).map(move |slot| (index, slot));
        let cells = move || (0..n).flat_map(slots).flat_map(|(i, k)| (0..9).map(move |e| (i, e, k)));
        let entries = (0..n).map(|index| Record::Entry { index });
        let heads = (0..n).flat_map(slots).map(|(index, slot)| Record::Head { index, slot });
        let raw = cells().map(|(index, element, slot)| Record::Raw { index, element, slot });
        let checked = cells().map(|(index, element, slot)| Record::Checked { index, element, slot });
        [Record::Header].into_iter().chain(entries).chain(heads).chain(raw).chain(checked)
    }

    /// Where it starts in a store of n stations.
    pub fn at(self, n: usize) -> usize {
        match self {
            Record::Header => 0,
            Record::Entry { index } => entry_at(index),
            Record::Head { index, slot } => block_at(n, index) + head_at(slot),
            Record::Raw { index, element, slot } => block_at(n, index) + raw_at(element, slot),
            Record::Checked { index, element, slot } => block_at(n, index) + checked_at(element, slot),
        }
    }

    pub fn fields(self) -> &'static [Field] {
        match self {
            Record::Header => HEADER_FIELDS,
            Record::Entry { .. } => ENTRY_FIELDS,
            Record::Head { .. } => HEAD_FIELDS,
            Record::Raw { .. } | Record::Checked { .. } => CELL_FIELDS,
        }
    }

    /// A number set in one of its fields, in a store of n stations.
    pub fn edit(self, n: usize, field: Field, number: u32) -> Edits {
        let from = self.at(n) + field.at;
        (from..).zip(number.to_be_bytes().into_iter().skip(4 - field.width)).collect()
    }
}

/// Bytes and where to put them.
pub type Edits = Vec<(usize, u8)>;

/// The record at a position of a store of n stations, and the number of its field there.
pub fn field_at(n: usize, at: usize) -> Option<(Record, usize)> {
    Record::all(n).find_map(|record| {
        let within = at.checked_sub(record.at(n))?;
        let here = |field: &Field| (field.at..field.at + field.width).contains(&within);
        Some((record, record.fields().iter().position(here)?))
    })
}
