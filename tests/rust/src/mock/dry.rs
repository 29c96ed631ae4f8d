//! Faults on dry stations (document 02, S-5): each changes R and tR that a report left, or the rain of a day line.

use super::{fault, set};
use crate::calls::{Calls, Reference};
use crate::place::{later_groups, reports};
use crate::reference::day::half;
use crate::reference::layout::{Record, FLAG, STATE};
use crate::reference::report::{self, Group};
use crate::reference::store::{self, Cell, Head, Sheet, DRY, FILLED, R};
use crate::reference::values;

/// What a report has for R.
struct Seen<'a> {
    slot: usize,
    ir: u8,
    /// The group 6 of section 1, and that of section 3.
    groups: [Option<Group<'a>>; 2],
    /// Another one stands in a 55 run; in section 2, 4 or 5.
    skipped: bool,
    elsewhere: bool,
    /// R and tR as they are to be read.
    right: Option<(i32, u8)>,
}

impl Seen<'_> {
    /// R and tR of a dry report at the slot.
    fn dry(&self) -> Option<(i32, u8)> {
        values::dry(DRY, self.slot)
    }

    /// iR is 3 and there is no group 6.
    fn is_dry(&self) -> bool {
        self.ir == DRY && self.groups == [None, None]
    }

    /// Another tR where the report is dry at one of the slots.
    fn tr_or(&self, slots: &[usize], tr: u8) -> Option<(i32, u8)> {
        let other = self.is_dry() && slots.contains(&self.slot);
        self.right.map(|(r, right)| (r, if other { tr } else { right }))
    }
}

/// R and tR as a wrong engine reads them.
type Reading = fn(&Seen) -> Option<(i32, u8)>;

const READINGS: [(usize, Reading); 17] = [
    (70, |seen| if seen.ir == DRY { seen.right.or(seen.dry()) } else { seen.right }),
    (71, |seen| if seen.ir == DRY { seen.dry() } else { seen.right }),
    (72, |seen| if seen.ir == DRY && seen.groups[0].is_none() { seen.dry() } else { seen.right }),
    (73, |seen| seen.right.filter(|_| !(seen.is_dry() && seen.skipped))),
    (74, |seen| seen.right.filter(|_| !(seen.is_dry() && seen.elsewhere))),
    (75, |seen| seen.tr_or(&[2], 2)),
    (76, |seen| seen.tr_or(&[6], 2)),
    (77, |seen| seen.tr_or(&[8], 4)),
    (78, |seen| seen.tr_or(&[0, 4, 8], 1)),
    (79, |seen| seen.tr_or(&[0, 2, 4, 6, 8], 0)),
    (80, |seen| seen.right.filter(|_| !seen.is_dry() || seen.slot != 0)),
    (81, |seen| if seen.is_dry() && seen.slot % 2 == 1 { Some((0, 1)) } else { seen.right }),
    (82, |seen| if seen.ir == 4 && seen.groups == [None; 2] { seen.dry() } else { seen.right }),
    (83, |seen| if seen.ir == 5 && seen.groups == [None; 2] { seen.dry() } else { seen.right }),
    (84, |seen| match (seen.ir, seen.right, seen.dry()) {
        (DRY, Some((r, 0)), Some((_, tr))) => Some((r, tr)),
        _ => seen.right,
    }),
    (85, |seen| seen.right.filter(|_| !seen.is_dry())),
    (86, |seen| seen.right.map(|(r, tr)| (r + i32::from(seen.is_dry()), tr))),
];

/// Faults that show on dry reports of a bulletin, or of a file, alone.
const BY_FILE_ALONE: usize = 87;
const BY_BULLETIN_ALONE: usize = 88;
/// The dry 0 with another state, or with a flag once it is settled.
const NOT_READ: usize = 89;
const SUSPECT: usize = 90;

/// A fault of filing.
fn any_filing() -> bool {
    READINGS.iter().any(|&(number, _)| fault(number)) || (BY_FILE_ALONE..=NOT_READ).any(fault)
}

/// On the head and the raw R of a report that was accepted.
pub fn filed(store: &mut [u8], text: &[u8], by_bulletin: bool) {
    let (true, Ok(report)) = (any_filing(), report::read(text)) else { return };
    let (Ok((index, slot)), Some(found)) = (report.place(store), report.observation) else { return };
    let block = store::block_mut(store, index);
    let (head, mut cells) = (store::head(block, slot), store::raw_sheet(block)[slot]);
    let elsewhere = |section: u32| matches!(section, 2 | 4 | 5);
    let sixes = || later_groups(text).filter(|later| later.group[0] == b'6');
    let seen = Seen {
        slot,
        ir: head.ir,
        groups: [found.section1[6], found.section3[6]],
        skipped: sixes().any(|later| later.skipped),
        elsewhere: sixes().any(|later| elsewhere(later.section)),
        right: cells[R].get().map(|r| (r, head.tr)),
    };
    let lost = if by_bulletin { fault(BY_FILE_ALONE) } else { fault(BY_BULLETIN_ALONE) };
    let wrong = match READINGS.iter().find(|&&(number, _)| fault(number)) {
        Some((_, reading)) => reading(&seen),
        None => seen.right.filter(|_| !(lost && seen.is_dry())),
    };
    cells[R] = Cell::raw(wrong.map(|(r, _)| r as i16));
    store::put_slot(block, slot, Head { tr: wrong.map_or(0, |(_, tr)| tr), ..head }, &cells);
    if fault(NOT_READ) && seen.is_dry() && wrong.is_some() {
        set(store, Record::Raw { index, element: R, slot }, STATE, FILLED.into());
    }
}

/// Files a bulletin report by report, where a fault of filing is chosen.
pub fn bulletin(store: &mut [u8], text: &[u8], rank: u32, counts: &mut [u32; 2]) -> Option<u32> {
    if !any_filing() {
        return None;
    }
    let number = Reference.bulletin(&mut store.to_vec(), text, rank, counts);
    if number == 0 {
        for report in reports(text) {
            if Reference.file(store, &report, rank) == 0 {
                filed(store, &report, true);
            }
        }
    }
    Some(number)
}

/// On the checked cells of a station that was settled.
pub fn settled(store: &mut [u8], station: u32) {
    let (true, Ok(index)) = (fault(SUSPECT), store::find(store, station)) else { return };
    for slot in 0..9 {
        let block = store::block(store, index);
        let dry = store::head(block, slot).ir == DRY;
        if dry && store::checked_cell(block, R, slot).get() == Some(0) {
            set(store, Record::Checked { index, element: R, slot }, FLAG, 4);
        }
    }
}

/// A station's day, for its rain.
struct Day<'a> {
    block: &'a [u8],
    raw: Sheet,
    checked: Sheet,
}

impl Day<'_> {
    fn head(&self, slot: usize) -> Head {
        store::head(self.block, slot)
    }

    fn r(&self, slot: usize) -> Option<i32> {
        self.checked[slot][R].get()
    }

    fn raw_r(&self, slot: usize) -> Option<i32> {
        self.raw[slot][R].get()
    }

    fn right(&self, end: usize) -> Option<i32> {
        half(self.block, &self.checked, end)
    }

    fn six_hours_before(&self, end: usize) -> bool {
        self.head(end - 2).tr == 1
    }

    /// iR 3 and tR 2 at the end, tR 1 six hours before.
    fn asked(&self, end: usize) -> bool {
        self.head(end).ir == DRY && self.head(end).tr == 2 && self.six_hours_before(end)
    }

    /// The same with R 0: a half that S-5 gives another R.
    fn moved(&self, end: usize) -> bool {
        self.asked(end) && self.r(end) == Some(0)
    }

    /// The wrong half where it applies.
    fn or_right(&self, end: usize, applies: bool, wrong: Option<i32>) -> Option<i32> {
        if applies {
            wrong
        } else {
            self.right(end)
        }
    }
}

/// The half that ends in a slot, as a wrong engine takes it.
type Half = fn(&Day, usize) -> Option<i32>;

const HALVES: [(usize, Half); 15] = [
    (91, |day, end| day.or_right(end, day.moved(end), Some(0))),
    (92, |day, end| day.or_right(end, day.moved(end), Some(day.r(end - 2).unwrap_or(0)))),
    (93, |day, end| day.or_right(end, day.moved(end) && day.head(end - 2).ir != DRY, Some(0))),
    (94, |day, end| {
        let sum = day.r(end).zip(day.r(end - 2)).map(|(a, b)| a + b);
        day.or_right(end, day.asked(end), sum)
    }),
    (95, |day, end| day.or_right(end, day.moved(end) && end == 4, Some(0))),
    (96, |day, end| day.or_right(end, day.moved(end) && end == 8, Some(0))),
    (97, |day, end| day.or_right(end, day.asked(end) && day.r(end).is_some(), day.r(end - 2))),
    (98, |day, end| day.or_right(end, day.asked(end) && day.r(end).is_none(), day.r(end - 2))),
    (99, |day, end| day.or_right(end, day.moved(end), day.raw_r(end - 2))),
    (100, |day, end| {
        let dry = day.raw_r(end) == Some(0);
        day.or_right(end, day.asked(end), day.r(if dry { end - 2 } else { end }))
    }),
    (101, |day, end| {
        let any_ir = day.head(end).tr == 2 && day.r(end) == Some(0) && day.six_hours_before(end);
        day.or_right(end, any_ir, day.r(end - 2))
    }),
    (102, |day, end| {
        let any_tr = day.head(end).ir == DRY && day.r(end) == Some(0) && day.six_hours_before(end);
        day.or_right(end, any_tr, day.r(end - 2))
    }),
    (103, |day, end| {
        let dry = day.head(end).ir == DRY && day.head(end).tr == 2 && day.r(end) == Some(0);
        day.or_right(end, dry, day.r(end - 2))
    }),
    (104, |day, end| day.or_right(end, day.moved(end), day.r(end - 1))),
    (105, |day, end| day.or_right(end, day.moved(end) && day.head(end).filed == 0, Some(0))),
];

/// 24 hours with iR 3 and R 0 at slot 8 do not decide first.
const NOT_FIRST: usize = 106;

/// On the rain of a day line of a sound store.
pub fn day(store: &[u8], station: u32, numbers: &mut [i32; 14]) {
    let wrong = HALVES.iter().find(|&&(number, _)| fault(number));
    let (true, Ok(index)) = (wrong.is_some() || fault(NOT_FIRST), store::find(store, station)) else {
        return;
    };
    let block = store::block(store, index);
    let day = Day { block, raw: store::raw_sheet(block), checked: store::checked_sheet(block) };
    let last = day.head(8);
    let halves = match wrong {
        Some(_) if last.tr == 4 => return,
        Some((_, half)) => [half(&day, 4), half(&day, 8)],
        None if last.tr == 4 && last.ir == DRY && day.r(8) == Some(0) && day.six_hours_before(8) => {
            [day.right(4), day.r(6)]
        }
        None => return,
    };
    let total = halves[0].zip(halves[1]).map(|(a, b)| a + b);
    (numbers[6], numbers[7]) = (total.is_some().into(), total.unwrap_or(0));
}
