//! What dry stations reached (document 02, S-5).

use super::Reached;
use crate::place::{later_groups, place, Later};
use crate::reference::day;
use crate::reference::report::{self, Observation};
use crate::reference::store::{self, Cell, DRY, R};

/// The rows of each call that files: the slot of a report with iR 3 and no group 6; at slots that can be dry, iR without
/// a group 6, and the group 6 under iR 3.
pub(super) const BY_FILE: [&str; 3] =
    ["file: slot of a dry report", "file: iR without a group 6", "file: group 6 under iR 3"];
pub(super) const BY_BULLETIN: [&str; 3] =
    ["bulletin: slot of a dry report", "bulletin: iR without a group 6", "bulletin: group 6 under iR 3"];

impl Reached {
    /// A report that was accepted, and the store after it.
    pub(super) fn rain_filed(&mut self, rows: [&'static str; 3], text: &[u8], store: &[u8]) {
        let (Some(place), Ok(report)) = (place(store, text), report::read(text)) else { return };
        let Some(found) = report.observation else { return };
        let [dry, indicator, group] = rows;
        let absent = found.section1[6].or(found.section3[6]).is_none();
        if absent && place.head.ir == DRY {
            self.add(dry, place.slot as u32);
        }
        if place.slot % 2 == 1 {
            return;
        }
        if absent {
            self.add(indicator, place.head.ir.into());
        }
        if place.head.ir == DRY {
            self.add(group, group_6(text, &found, place.cells[R]));
        }
    }

    /// The R that a dry report of a higher rank replaced.
    pub(super) fn dry_over(&mut self, text: &[u8], before: &[u8], store: &[u8]) {
        let (Some(old), Some(new)) = (place(before, text), place(store, text)) else { return };
        if old.head.filed == 1 && !new.nil && new.head.ir == DRY && new.cells[R].get() == Some(0) {
            self.add("file: R that a dry report replaced", amount(old.cells[R]));
        }
    }

    /// The halves of a day line, each where the other one is there.
    pub(super) fn dry_day(&mut self, station: u32, store: &[u8]) {
        let Ok(index) = store::find(store, station) else { return };
        let block = store::block(store, index);
        let sheet = store::checked_sheet(block);
        let [six, twelve] = [1, 2].map(|tr| move |slot: usize| store::head(block, slot).tr == tr);
        let dry = |slot: usize| store::head(block, slot).ir == DRY;
        let none = |slot: usize| sheet[slot][R].get() == Some(0);
        if store::head(block, 8).tr == 4 {
            if six(2) && twelve(4) && dry(4) && none(4) && amount(sheet[2][R]) == 2 {
                self.add("day: 24 hours over dry slots", 0);
            }
            if six(6) && dry(8) && none(8) && amount(sheet[6][R]) == 2 {
                self.add("day: 24 hours over dry slots", 1);
            }
            return;
        }
        for (row, end, other) in
            [("day: first half's end under iR 3", 4, 8), ("day: second half's end under iR 3", 8, 4)]
        {
            if !dry(end) || !twelve(end) || day::half(block, &sheet, other).is_none() {
                continue;
            }
            let Some(kind) = ended(six(end - 2), sheet[end - 2][R], sheet[end][R]) else { continue };
            self.add(row, kind);
            if (1..5).contains(&kind) {
                self.add("day: iR six hours before a dry end", store::head(block, end - 2).ir.into());
            }
        }
    }
}

/// 0 missing, 1 none, 2 some.
fn amount(rain: Cell) -> u32 {
    rain.get().map_or(0, |tenths| if tenths == 0 { 1 } else { 2 })
}

/// No group 6: 0 nowhere, 1 in a 55 run, 2 in section 2, 3 in section 4 or 5. One that counts: 4 read, 5 missing, of
/// section 1; 6 and 7 the same of section 3.
fn group_6(text: &[u8], found: &Observation, rain: Cell) -> u32 {
    let missing = u32::from(rain.is_missing());
    if found.section1[6].is_some() {
        return 4 + missing;
    }
    if found.section3[6].is_some() {
        return 6 + missing;
    }
    let others = later_groups(text).filter(|later| later.group[0] == b'6');
    let kind = |Later { section, .. }| match section {
        3 => 1,
        2 => 2,
        _ => 3,
    };
    others.map(kind).max().unwrap_or(0)
}

/// A half that ends in iR 3 and tR 2, R there being 0: 0 not tR 1 six hours before, or R there 1 more than 0, 2 0,
/// 3 missing, 4 discarded; with tR 1 six hours before, R at the end 5 not 0, 6 missing.
fn ended(six: bool, before: Cell, end: Cell) -> Option<u32> {
    Some(match (end.get(), amount(before)) {
        (Some(0), _) if !six => 0,
        (Some(0), 2) => 1,
        (Some(0), 1) => 2,
        (Some(0), _) => 3 + u32::from(before.flag == 1),
        (Some(_), _) if six => 5,
        (None, _) if six => 6,
        _ => return None,
    })
}
