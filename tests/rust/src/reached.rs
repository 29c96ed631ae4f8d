//! What the calls of a run reached: every answer of every call, and the places where a rule turns.
//! A row for each, with the numbers that must come up in it; one that never did shows as 0.

mod dry;
mod portions;
mod ranks;
mod ties;

use crate::generate::stores::Opening;
use crate::generate::{Answer, Call, Step};
use crate::place::{later_groups, Later};
use crate::reference::calendar::Date;
use crate::reference::layout::{self, field_at, stations_for, store_length, Record};
use crate::reference::report::{self, groups, is_blank, Observation};
use crate::reference::store::{self, Cell, D, HUMIDITY, T};
use crate::reference::{day, values, vapour};
use std::cmp::Ordering;
use std::collections::BTreeMap;

/// The rows: the answers of each call, then the rest.
pub const ROWS: &[(&str, &[u32])] = &[
    ("open", &[0, 10]),
    ("file", &[0, 1, 2, 3, 4, 5, 6, 7, 8, 9, 13]),
    ("settle", &[0, 6, 9]),
    ("begin", &[0, 6, 9]),
    ("step", &[0, 6, 9, 14]),
    ("cell", &[0, 6, 9, 11, 12]),
    ("day", &[0, 6, 9, 11]),
    ("bulletin", &[0, 1, 3, 4, 9, 13]),
    ("vapour_table", &[0, 1001]),
    // What alone is wrong with a refused opening, as `opening_faults` has them.
    ("open: the one fault", &[0, 1, 2, 3, 4, 5, 6]),
    ("stations of a store", &[1, 2, 31, 32]),
    // The one field that makes a store unsound, numbered as the layout has them.
    ("unsound: header's field", first(layout::HEADER_FIELDS.len())),
    ("unsound: entry's field", first(layout::ENTRY_FIELDS.len())),
    ("unsound: head's field", first(layout::HEAD_FIELDS.len())),
    ("unsound: raw cell's field", first(layout::CELL_FIELDS.len())),
    ("unsound: checked cell's field", first(layout::CELL_FIELDS.len())),
    // 0 none, 1 less than a header, 2 too short, 3 too long for its n.
    ("unsound: length", &[0, 1, 2, 3]),
    // What makes a cell of state 4 unsound: 0 the element, 1 the value, 2 a raw cell's flag, 3 a checked cell's.
    ("unsound: humidity", &[0, 1, 2, 3]),
    // 0 above 24 in a filed slot; in an unfiled one, 1 from 1 to 24, 2 above.
    ("unsound: rank", &[0, 1, 2]),
    ("unsound: settled number", &[0, 1, 10, 11, 255, 256, 258, 65535]),
    // Above 0 where the settled number is 0 or 1; under way: 2 from 37 to 98, 3 above 100.
    ("unsound: copy of dd", &[0, 1, 2, 3]),
    ("file: bytes of an accepted text", &[511, 512]),
    ("file: bytes of a text refused 1", &[0, 1, 512, 513]),
    ("file: slot", &[0, 1, 2, 3, 4, 5, 6, 7, 8]),
    ("file: slot refused 8", &[0, 1, 2, 3, 4, 5, 6, 7, 8]),
    ("file: NIL where filed is", &[0, 1]),
    ("file: section", &[2, 3, 4, 5]),
    ("file: iw with ff", &[0, 1, 3, 4]),
    ("file: iw with 00fff", &[0, 1, 3, 4]),
    ("file: R from section", &[0, 1, 3]),
    ("file: in a 55 run, first digit", &[0, 1, 2, 3, 4, 5, 6]),
    ("file: UUU in section 1", &[0, 1, 100, 101, 999]),
    ("file: UUU in section 1, place of a `/`", &[0, 1, 2]),
    ("file: UUU in section 3", &[0, 1, 100, 101]),
    ("file: rank above 24", ABOVE_24),
    // What the same text would get at rank 24.
    ("file: above 24, at 24 answered", &[0, 1, 2, 3, 4, 5, 6, 7, 8]),
    ("file: NIL above 24 where filed is", &[0, 1]),
    // 0 below the slot's, 1 equal, 2 above.
    ("file: NIL where filed, its rank", &[0, 1, 2]),
    ("file: rank in a free slot", first(25)),
    ("file: rank refused 8", first(25)),
    ("file: slot's rank, refused 13 below it", first(25).split_at(1).1),
    ("file: rank that replaced a lower one", first(25).split_at(1).1),
    ("file: letters skipped where replaced", &[0, 1, 2, 23]),
    ("file: replaced where settled was", first(10)),
    ("file: settled number, accepted", first(10)),
    ("file: settled number, dd not its copy", first(10).split_at(2).1),
    ("file: settled number, NIL", first(10)),
    ("file: settled number, refused 8 or 13", first(10)),
    ("file: slot of a dry report", first(9)),
    // At slots 0, 2, 4, 6 and 8.
    ("file: iR without a group 6", first(6)),
    // At these slots, as `dry::group_6` has them.
    ("file: group 6 under iR 3", first(8)),
    // 0 missing, 1 none, 2 some.
    ("file: R that a dry report replaced", &[0, 1, 2]),
    ("T read", &[0, 1]),
    ("D read", &[0, 1, 4]),
    ("P read", &[0, 1]),
    ("W read", &[0, 1]),
    ("C read", &[0, 1]),
    ("V read", &[0, 1]),
    ("R read", &[0, 1]),
    ("X read", &[0, 1]),
    ("M read", &[0, 1]),
    ("settle: T's state", &[0, 1, 2, 3]),
    ("settle: D's state", &[0, 1, 3, 4]),
    ("settle: P's state", &[0, 1, 3]),
    ("settle: W's state", &[0, 1, 3]),
    ("settle: C's state", &[0, 1]),
    ("settle: V's state", &[0, 1]),
    ("settle: R's state", &[0, 1]),
    ("settle: X's state", &[0, 1]),
    ("settle: M's state", &[0, 1]),
    ("settle: T's flag", &[0, 1, 3, 4]),
    ("settle: D's flag", &[0, 1, 2, 3, 4]),
    ("settle: P's flag", &[0, 1, 3, 4]),
    ("settle: W's flag", &[0, 1, 4]),
    ("settle: C's flag", &[0]),
    ("settle: V's flag", &[0]),
    ("settle: R's flag", &[0, 1, 4]),
    ("settle: X's flag", &[0, 1, 4]),
    ("settle: M's flag", &[0, 1, 4]),
    // 0 by internal, above T; 1 by time, far from both dew points beside it; as a neighbour: 2 by time, of a dew point
    // far from it and from the other one; 3 by fill, of a missing D with another one.
    ("settle: a humidity passed over", &[0, 1, 2, 3]),
    ("settle: settled number", first(10)),
    ("begin: settled number", first(10)),
    // 0 and 1 are refused 14.
    ("step: settled number", first(10)),
    ("step: cells' states before range", first(5)),
    ("step: cells' states before internal", first(5)),
    ("step: cells' states before time", first(5)),
    ("step: cells' states before fill", first(5)),
    // 2 where the copy alone makes it suspect, 1 where the head's dd alone would, 0 and 3 where they agree.
    ("step: W suspect by the copy, by dd", first(4)),
    ("step: others under way", &[0, 1]),
    ("cell: settled number, refused 11", &[0, 2, 3, 4, 5, 6, 7, 8, 9]),
    ("cell: state", &[0, 1, 2, 3, 4]),
    ("cell: a humidity's flag", &[0, 1, 2, 3, 4]),
    ("day: settled number, refused 11", &[0, 2, 3, 4, 5, 6, 7, 8, 9]),
    ("day: T's mean", &[0, 1, 2]),
    ("day: D's mean", &[0, 1, 2]),
    ("day: P's mean", &[0, 1, 2]),
    ("day: W's mean", &[0, 1, 2]),
    ("day: C's mean", &[0, 1, 2]),
    ("day: vapour's mean", &[0, 1, 2]),
    ("day: vapour's mean with a humidity", &[0, 1, 2]),
    // T's state, or 4 where it lies outside the table.
    ("day: T at a humidity", &[0, 1, 2, 3, 4]),
    // Where D is there in all other slots of 0 to 7, so that the humidity alone decides on its mean.
    ("day: slot of the one humidity", &[0, 1, 2, 3, 4, 5, 6, 7, 8]),
    // Of each entry in vapour's mean, from the whole one at or before it; then of those from the last whole one on.
    ("day: places after a whole entry", first(16)),
    ("day: places after the last whole entry", first(9)),
    ("day: rain", &[0, 1]),
    // With tR 2, where the other half is there, as `dry::ended` has them.
    ("day: first half's end under iR 3", first(7)),
    ("day: second half's end under iR 3", first(7)),
    ("day: iR six hours before a dry end", first(6)),
    // 0 over a dry slot 4 after a shower at slot 2, 1 over iR 3 and R 0 at slot 8 itself after one at slot 6.
    ("day: 24 hours over dry slots", &[0, 1]),
    // 0 absent, else one more than the slot.
    ("day: warmest", &[0, 1, 2, 3, 4, 5, 6, 7, 8]),
    ("day: coldest", &[0, 1, 2, 3, 4, 5, 6, 7, 8]),
    // How many there are, where all are equal.
    ("day: T there, all equal", first(9)),
    // Of slots 0 to 7; then the first and the last, where there are two or more.
    ("day: slots that share the warmest T", first(9)),
    ("day: slots that share the coldest T", first(9)),
    ("day: first of equal warmest slots", first(7)),
    ("day: first of equal coldest slots", first(7)),
    ("day: last of equal warmest slots", first(8).split_at(1).1),
    ("day: last of equal coldest slots", first(8).split_at(1).1),
    // Read, corrected, filled: 3 times that of the first, and that of the last.
    ("day: states of first and last warmest", first(9)),
    ("day: states of first and last coldest", first(9)),
    // 0 equal ones alone, 1 another T, 2 a missing one.
    ("day: between equal warmest slots", first(3)),
    ("day: between equal coldest slots", first(3)),
    // Its T: 0 missing, 1 below, 2 equal, 3 above.
    ("day: slot 8 beside equal warmest ones", first(4)),
    ("day: slot 8 beside equal coldest ones", first(4)),
    // 0 below 0, 1 at 0, 2 above.
    ("day: sign of equal warmest T", first(3)),
    ("day: sign of equal coldest T", first(3)),
    ("bulletin: bytes", &[0, 1, 16383, 16384, 16385]),
    // 0 by the end, 1 by `=`, in its first or second group.
    ("bulletin: heading cut", &[0, 1]),
    // 0 none, 1 blank, 2 a report refused.
    ("bulletin: tail", &[0, 1, 2]),
    ("bulletin: bytes of a report rebuilt", &[11, 511, 512, 513]),
    // 0 none, 1 some, 2 all.
    ("bulletin: accepted", &[0, 1, 2]),
    ("bulletin: rank above 24", ABOVE_24),
    // What the same text would get at rank 24.
    ("bulletin: above 24, at 24 answered", &[0, 1, 3, 4]),
    // 0 free; filed: 1 replaced, 2 refused 8 at rank 0, 3 at a higher one, 4 refused 13, 5 NIL below its rank.
    ("bulletin: slot that a report met", &[0, 1, 2, 3, 4, 5]),
    ("bulletin: settled number, accepted", first(10)),
    ("bulletin: slot of a dry report", first(9)),
    ("bulletin: iR without a group 6", first(6)),
    ("bulletin: group 6 under iR 3", first(8)),
    ("vapour_table: numbers lent", &[0, 1, 1000, 1001, 1002, 2002]),
];

/// 0, 1, .. n - 1.
const fn first(n: usize) -> &'static [u32] {
    const NUMBERS: &[u32] =
        &[0, 1, 2, 3, 4, 5, 6, 7, 8, 9, 10, 11, 12, 13, 14, 15, 16, 17, 18, 19, 20, 21, 22, 23, 24];
    NUMBERS.split_at(n).0
}

/// Ranks above 24; the low bytes of some are not.
const ABOVE_24: &[u32] = &[25, 26, 127, 128, 255, 256, 257, 1 << 16, 1 << 31, u32::MAX];

/// The first of rows that stand in the order of elements or means.
const READ: usize = place_of("T read");
const STATE: usize = place_of("settle: T's state");
const FLAG: usize = place_of("settle: T's flag");
const MEAN: usize = place_of("day: T's mean");

/// The place of a row.
const fn place_of(name: &str) -> usize {
    let mut at = 0;
    while !same(ROWS[at].0.as_bytes(), name.as_bytes()) {
        at += 1;
    }
    at
}

const fn same(one: &[u8], other: &[u8]) -> bool {
    let mut at = 0;
    while at < one.len() && at < other.len() && one[at] == other[at] {
        at += 1;
    }
    at == one.len() && at == other.len()
}

/// How often each number came up in each row.
#[derive(Default)]
pub struct Reached(BTreeMap<(&'static str, u32), u64>);

impl Reached {
    pub fn count(&self, row: &'static str, number: u32) -> u64 {
        self.0.get(&(row, number)).copied().unwrap_or(0)
    }

    /// The rows' numbers that never came up.
    pub fn gaps(&self) -> Vec<(&'static str, u32)> {
        let wanted = ROWS.iter().flat_map(|&(row, numbers)| numbers.iter().map(move |&number| (row, number)));
        wanted.filter(|&(row, number)| self.count(row, number) == 0).collect()
    }

    /// A call, the buffer before and after it, and the answer.
    pub fn note(&mut self, step: &Step, before: &[u8], store: &[u8], answer: &Answer) {
        let (edits, call) = match step {
            Step::Lend(_) => return,
            Step::Call(call) => (&[] as &[_], call),
            Step::Damaged { edits, call } => (edits.as_slice(), call),
        };
        self.add(call.name(), answer.number);
        if answer.number != 9 {
            self.portions(call, before, store, answer.number);
        }
        match (call, answer.number) {
            (Call::Open(opening), number) => self.open(opening, store, number),
            (_, 9) => self.unsound(store, edits),
            (Call::File { text, rank }, number) => {
                self.file(text, store, number);
                self.file_at(text, *rank, before, number);
                if number == 0 {
                    self.rain_filed(dry::BY_FILE, text, store);
                    self.dry_over(text, before, store);
                }
            }
            (Call::Settle { station }, 0) => self.settle(*station, store),
            (Call::Cell { .. }, 0) => self.cell(answer),
            (Call::Day { station }, 0) => {
                self.day(answer);
                self.humid_day(*station, store, answer);
                self.dry_day(*station, store);
                self.equal_temperatures(*station, store);
                self.vapour_day(*station, store, answer);
            }
            (Call::Bulletin { text, rank }, number) => {
                self.bulletin(text, number, answer.counts);
                self.bulletin_at(text, *rank, before, number);
            }
            (Call::VapourTable { entries }, _) => {
                self.add("vapour_table: numbers lent", entries.len() as u32)
            }
            _ => {}
        }
    }

    fn add(&mut self, row: &'static str, number: u32) {
        *self.0.entry((row, number)).or_default() += 1;
    }

    fn open(&mut self, opening: &Opening, store: &[u8], number: u32) {
        if number == 0 {
            return self.add("stations of a store", opening.stations.len() as u32);
        }
        let faults = opening_faults(opening, store.len());
        let mut wrong = (0..).zip(faults).filter(|&(_, fault)| fault);
        if let (Some((which, _)), None) = (wrong.next(), wrong.next()) {
            self.add("open: the one fault", which);
        }
    }

    fn unsound(&mut self, store: &[u8], edits: &[(usize, u8)]) {
        if store.len() < layout::HEADER {
            self.add("unsound: length", (!store.is_empty()).into());
        } else if edits.is_empty() {
            let right = store_length(store::stations(store));
            if store.len() != right {
                self.add("unsound: length", if store.len() < right { 2 } else { 3 });
            }
        }
        // The buffer before the edits had the length of a store.
        let (Some(&(at, _)), Some(n)) = (edits.first(), stations_for(store.len())) else { return };
        let Some((record, field)) = field_at(n, at) else { return };
        let row = match record {
            Record::Header => "unsound: header's field",
            Record::Entry { .. } => "unsound: entry's field",
            Record::Head { .. } => "unsound: head's field",
            Record::Raw { .. } => "unsound: raw cell's field",
            Record::Checked { .. } => "unsound: checked cell's field",
        };
        self.add(row, field as u32);
        self.unsound_humidity(store, n, record);
        self.unsound_rank(store, n, record);
        self.unsound_settling(store, n, edits);
    }

    /// The one thing that makes a cell of state 4 unsound, in a buffer as long as a store of n stations.
    fn unsound_humidity(&mut self, store: &[u8], n: usize, record: Record) {
        let (element, flags) = match record {
            Record::Raw { element, .. } => (element, 0),
            Record::Checked { element, .. } => (element, 4),
            _ => return,
        };
        let cell = Cell::from_bytes(std::array::from_fn(|i| store[record.at(n) + i]));
        let wrong = [element != D, !(1..=100).contains(&cell.value), cell.flag > flags];
        let mut wrong = (0..).zip(wrong).filter(|&(_, wrong)| wrong);
        if let (HUMIDITY, Some((which, _)), None) = (cell.state, wrong.next(), wrong.next()) {
            self.add("unsound: humidity", if flags == 4 && which == 2 { 3 } else { which });
        }
    }

    fn file(&mut self, text: &[u8], store: &[u8], number: u32) {
        let len = text.len() as u32;
        match number {
            0 => self.add("file: bytes of an accepted text", len),
            1 => self.add("file: bytes of a text refused 1", len),
            _ => {}
        }
        let (Ok(report), 0 | 8) = (report::read(text), number) else { return };
        let Ok((index, slot)) = report.place(store) else { return };
        match report.observation {
            None => self
                .add("file: NIL where filed is", store::head(store::block(store, index), slot).filed.into()),
            Some(_) if number == 8 => self.add("file: slot refused 8", slot as u32),
            Some(found) => {
                self.add("file: slot", slot as u32);
                self.observation(report.iw, &found);
                self.sections(text);
                let cells = store::raw_sheet(store::block(store, index))[slot];
                for (element, cell) in cells.iter().enumerate() {
                    self.add(ROWS[READ + element].0, cell.state.into());
                }
            }
        }
    }

    fn observation(&mut self, iw: u8, found: &Observation) {
        let row = if found.strong_wind.is_some() { "file: iw with 00fff" } else { "file: iw with ff" };
        self.add(row, iw.into());
        let rain = match (found.section1[6], found.section3[6]) {
            (Some(_), _) => 1,
            (None, Some(_)) => 3,
            _ => 0,
        };
        self.add("file: R from section", rain);
        if let Some([b'2', b'9', uuu @ ..]) = found.section1[2] {
            if let Some(percent) = values::number(uuu) {
                self.add("file: UUU in section 1", percent as u32);
            }
            for (place, _) in (0..).zip(uuu).filter(|&(_, &byte)| byte == b'/') {
                self.add("file: UUU in section 1, place of a `/`", place);
            }
        }
        if let Some([b'2', b'9', uuu @ ..]) = found.section3[2] {
            if let Some(percent) = values::number(uuu) {
                self.add("file: UUU in section 3", percent as u32);
            }
        }
    }

    /// The sections of an accepted report, and the groups of its 55 runs.
    fn sections(&mut self, text: &[u8]) {
        let mut last = 1;
        for Later { group, section, skipped } in later_groups(text) {
            if section != last {
                self.add("file: section", section);
                last = section;
            }
            if skipped {
                self.add("file: in a 55 run, first digit", (group[0] - b'0').into());
            }
        }
    }

    fn settle(&mut self, station: u32, store: &[u8]) {
        let Ok(index) = store::find(store, station) else { return };
        let sheet = store::checked_sheet(store::block(store, index));
        for cells in sheet {
            for (element, cell) in cells.iter().enumerate() {
                self.add(ROWS[STATE + element].0, cell.state.into());
                self.add(ROWS[FLAG + element].0, cell.flag.into());
            }
        }
        for slot in 0..9 {
            if matches!((sheet[slot][D].humidity(), read(sheet[slot][T])), (Some(h), Some(t)) if h > t) {
                self.add("settle: a humidity passed over", 0);
            }
        }
        for slot in 1..8 {
            let three = [slot - 1, slot, slot + 1].map(|slot| sheet[slot][D]);
            if let Some(number) = passed_over(three) {
                self.add("settle: a humidity passed over", number);
            }
        }
    }

    fn cell(&mut self, answer: &Answer) {
        let [state, flag, _] = answer.cell.map(|number| number as u32);
        self.add("cell: state", state);
        if state == u32::from(HUMIDITY) {
            self.add("cell: a humidity's flag", flag);
        }
    }

    fn day(&mut self, answer: &Answer) {
        let numbers = answer.numbers.map(|number| (number + 1) as u32);
        for mean in 0..6 {
            self.add(ROWS[MEAN + mean].0, numbers[mean] - 1);
        }
        self.add("day: rain", numbers[6] - 1);
        self.add("day: warmest", numbers[8]);
        self.add("day: coldest", numbers[9]);
    }

    /// A day with humidities.
    fn humid_day(&mut self, station: u32, store: &[u8], answer: &Answer) {
        let Ok(index) = store::find(store, station) else { return };
        let sheet = store::checked_sheet(store::block(store, index));
        let humid: Vec<usize> = (0..9).filter(|&slot| sheet[slot][D].humidity().is_some()).collect();
        for &slot in humid.iter().filter(|&&slot| slot < 8) {
            let t = sheet[slot][T];
            let outside = t.get().is_some_and(|t| vapour::pressure(t).is_none());
            self.add("day: T at a humidity", if outside { 4 } else { t.state.into() });
        }
        if humid.first().is_some_and(|&slot| slot < 8) {
            self.add("day: vapour's mean with a humidity", answer.numbers[5] as u32);
        }
        if let [slot] = humid[..] {
            if (0..8).all(|other| other == slot || sheet[other][D].get().is_some()) {
                self.add("day: slot of the one humidity", slot as u32);
            }
        }
    }

    /// A day whose vapour mean is there: where the table was looked up for it.
    fn vapour_day(&mut self, station: u32, store: &[u8], answer: &Answer) {
        let (Ok(index), 1..) = (store::find(store, station), answer.numbers[5]) else { return };
        let sheet = store::checked_sheet(store::block(store, index));
        let looked_up = sheet[..8].iter().map(|cells| day::vapour_pressure(cells).0.value.into());
        for place in looked_up.filter_map(vapour::place) {
            let (index, after) = (place / vapour::SPACING, (place % vapour::SPACING) as u32);
            self.add("day: places after a whole entry", after);
            if index == vapour::WHOLE.len() - 1 {
                self.add("day: places after the last whole entry", after);
            }
        }
    }

    fn bulletin(&mut self, text: &[u8], number: u32, counts: [u32; 2]) {
        self.add("bulletin: bytes", text.len() as u32);
        let end = text.iter().position(|&byte| byte == b'=');
        if number == 3 && text.starts_with(b"AAXX") && end.unwrap_or(text.len()) < 10 {
            self.add("bulletin: heading cut", end.is_some().into());
        }
        if number != 0 {
            return;
        }
        let mut pieces = text.split(|&byte| byte == b'=').peekable();
        let mut behind = 2;
        while let Some(piece) = pieces.next() {
            if pieces.peek().is_some() {
                // `AAXX YYGGiw`, a space and a group for each, and `=`.
                let bytes: usize = groups(piece).skip(behind).map(|group| 1 + group.len()).sum();
                self.add("bulletin: bytes of a report rebuilt", bytes as u32 + 11);
            } else {
                let blank = piece.iter().all(|&byte| is_blank(byte)) || behind == 2;
                self.add("bulletin: tail", if piece.is_empty() { 0 } else { 1 + u32::from(!blank) });
            }
            behind = 0;
        }
        let kind = match counts {
            [0, _] => 0,
            [_, 0] => 2,
            _ => 1,
        };
        self.add("bulletin: accepted", kind);
    }
}

/// The value of a checked cell that no step changed.
fn read(cell: Cell) -> Option<i32> {
    cell.get().filter(|_| cell.state == store::READ)
}

/// How a humidity among three of D's checked cells in a row was passed over by time or fill, if it was.
fn passed_over([a, v, b]: [Cell; 3]) -> Option<u32> {
    let far = |x: i32, y: i32| (x - y).abs() > 100;
    let apart = |a, v, b| far(v, a) && far(v, b);
    match (a.humidity(), v.humidity(), b.humidity()) {
        (None, Some(h), None) => apart(read(a)?, h, read(b)?).then_some(1),
        (Some(h), None, None) => beside(h, v, read(b)?, apart),
        (None, None, Some(h)) => beside(h, v, read(a)?, apart),
        _ => None,
    }
}

/// The same for D between a humidity and another dew point.
fn beside(humidity: i32, v: Cell, other: i32, apart: impl Fn(i32, i32, i32) -> bool) -> Option<u32> {
    match read(v) {
        Some(v) => apart(humidity, v, other).then_some(2),
        None => v.is_missing().then_some(3),
    }
}

/// 0 below, 1 equal, 2 above.
fn against<A: Ord>(one: A, other: A) -> u32 {
    match one.cmp(&other) {
        Ordering::Less => 0,
        Ordering::Equal => 1,
        Ordering::Greater => 2,
    }
}

/// What refusal 10 names, each by itself: the number of stations, the lists' lengths, the buffer's
/// length, the date, a row, a number out of range, numbers that do not ascend.
fn opening_faults(opening: &Opening, len: usize) -> [bool; 7] {
    let Opening { year, month, day, stations, rows } = opening;
    [
        !(1..=32).contains(&stations.len()),
        rows.len() != stations.len(),
        len != store_length(stations.len()),
        Date::new(*year, *month, *day).is_none(),
        rows.iter().any(|&row| row > 1),
        stations.iter().any(|number| !(1..=99999).contains(number)),
        stations.windows(2).any(|pair| pair[0] >= pair[1]),
    ]
}
