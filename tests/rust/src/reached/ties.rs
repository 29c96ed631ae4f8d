//! What equal temperatures reached (document 02, S-7).

use super::{against, Reached};
use crate::reference::store::{self, Sheet, READ, T};
use crate::ties::{equal_extremes, temperatures};

/// The rows of each extreme: how many slots share it; where there are two or more, the first and the last of them, the
/// states of these two, what stands between, the T of slot 8, and the sign.
const WARMEST: [&str; 7] = [
    "day: slots that share the warmest T",
    "day: first of equal warmest slots",
    "day: last of equal warmest slots",
    "day: states of first and last warmest",
    "day: between equal warmest slots",
    "day: slot 8 beside equal warmest ones",
    "day: sign of equal warmest T",
];
const COLDEST: [&str; 7] = [
    "day: slots that share the coldest T",
    "day: first of equal coldest slots",
    "day: last of equal coldest slots",
    "day: states of first and last coldest",
    "day: between equal coldest slots",
    "day: slot 8 beside equal coldest ones",
    "day: sign of equal coldest T",
];

impl Reached {
    /// A station's day line.
    pub(super) fn equal_temperatures(&mut self, station: u32, store: &[u8]) {
        let Ok(index) = store::find(store, station) else { return };
        let sheet = store::checked_sheet(store::block(store, index));
        let list = temperatures(&sheet);
        let [warmest, coldest] = equal_extremes(&list);
        if warmest.len() == list.len() {
            self.add("day: T there, all equal", list.len() as u32);
        }
        self.extreme(WARMEST, &sheet, &warmest);
        self.extreme(COLDEST, &sheet, &coldest);
    }

    /// The slots that share an extreme.
    fn extreme(&mut self, rows: [&'static str; 7], sheet: &Sheet, slots: &[usize]) {
        let [share, first, last, states, between, slot_8, sign] = rows;
        self.add(share, slots.len() as u32);
        let &[one, .., two] = slots else { return };
        self.add(first, one as u32);
        self.add(last, two as u32);
        let [a, b] = [one, two].map(|slot| u32::from(sheet[slot][T].state - READ));
        self.add(states, 3 * a + b);
        let others = (one..two).filter(|slot| !slots.contains(slot));
        let missing = |slot: usize| sheet[slot][T].is_missing();
        self.add(between, others.map(|slot| 1 + u32::from(missing(slot))).max().unwrap_or(0));
        let t = sheet[one][T].value;
        let of_8 = sheet[8][T].get().map_or(0, |other| 1 + against(other, t.into()));
        self.add(slot_8, of_8);
        self.add(sign, against(t.into(), 0));
    }
}
