//! What settling in portions reached (document 02, S-6).

use super::Reached;
use crate::generate::Call;
use crate::place::{place, Place};
use crate::reference::layout::{field_at, Record, DD_COPY, ENTRY_FIELDS, HEAD_FIELDS, SETTLED};
use crate::reference::store::{self, Head, Settling, Step, HUMIDITY, W};

impl Reached {
    /// A settled number, or a copy of dd, that was set in a buffer as long as a store of n stations and refused 9.
    pub(super) fn unsound_settling(&mut self, store: &[u8], n: usize, edits: &[(usize, u8)]) {
        let settled = |index: usize| {
            let at = Record::Entry { index }.at(n) + SETTLED.at;
            u32::from(u16::from_be_bytes([store[at], store[at + 1]]))
        };
        for (record, field) in edits.iter().filter_map(|&(at, _)| field_at(n, at)) {
            match record {
                Record::Entry { index } if ENTRY_FIELDS[field] == SETTLED => {
                    self.add("unsound: settled number", settled(index));
                }
                Record::Head { index, .. } if HEAD_FIELDS[field] == DD_COPY => {
                    let copy = store[record.at(n) + DD_COPY.at];
                    let kind = match (settled(index), copy) {
                        (number @ (0 | 1), 1..) => number,
                        (2..=9, 37..=98) => 2,
                        (2..=9, 101..) => 3,
                        _ => continue,
                    };
                    self.add("unsound: copy of dd", kind);
                }
                _ => {}
            }
        }
    }

    /// A call and a sound store before and after it, by the settled number of the station that the call names.
    pub(super) fn portions(&mut self, call: &Call, before: &[u8], store: &[u8], number: u32) {
        let (row, station) = match (call, number) {
            (Call::Begin { station }, 0) => ("begin: settled number", station),
            (Call::Settle { station }, 0) => ("settle: settled number", station),
            (Call::Step { station }, 0 | 14) => ("step: settled number", station),
            (Call::Cell { station, .. }, 11) => ("cell: settled number, refused 11", station),
            (Call::Day { station }, 11) => ("day: settled number, refused 11", station),
            (Call::File { text, .. }, 0 | 8 | 13) => {
                return self.filed_in_portions(text, before, store, number)
            }
            _ => return,
        };
        let Ok(index) = store::find(before, *station) else { return };
        let settling = store::settling(before, index);
        self.add(row, settling.number().into());
        if let (Call::Step { .. }, Settling::UnderWay { due, .. }) = (call, settling) {
            self.step(before, index, due);
        }
    }

    /// A text, and the store before and after it, whether or not its rank let it in.
    fn filed_in_portions(&mut self, text: &[u8], before: &[u8], store: &[u8], number: u32) {
        let Some(Place { index, slot, settling, nil, .. }) = place(before, text) else { return };
        let row = match (nil, number) {
            (true, _) => "file: settled number, NIL",
            (false, 0) => "file: settled number, accepted",
            _ => "file: settled number, refused 8 or 13",
        };
        self.add(row, settling.number().into());
        let Head { dd, dd_copy, .. } = store::head(store::block(store, index), slot);
        if !nil && number == 0 && dd != dd_copy {
            self.add("file: settled number, dd not its copy", settling.number().into());
        }
    }

    /// A step that was due in a station.
    fn step(&mut self, before: &[u8], index: usize, due: Step) {
        let block = store::block(before, index);
        let sheet = store::checked_sheet(block);
        let row = match due {
            Step::Range => "step: cells' states before range",
            Step::Internal => "step: cells' states before internal",
            Step::Time => "step: cells' states before time",
            Step::Fill => "step: cells' states before fill",
        };
        let met = sheet.as_flattened().iter().fold(0, |met, cell| met | 1 << cell.state);
        for state in (0..=HUMIDITY).filter(|state| met >> state & 1 == 1) {
            self.add(row, state.into());
        }
        if due == Step::Internal {
            for slot in 0..9 {
                let (Head { dd, dd_copy, .. }, wind) = (store::head(block, slot), sheet[slot][W].get());
                let suspect = |dd: u8| wind.map(|w| dd == 0 && w > 0 || (1..=36).contains(&dd) && w == 0);
                if let (Some(by_copy), Some(by_dd)) = (suspect(dd_copy), suspect(dd)) {
                    self.add("step: W suspect by the copy, by dd", 2 * u32::from(by_copy) + u32::from(by_dd));
                }
            }
        }
        let mut others = (0..store::stations(before)).filter(|&other| other != index);
        let under_way = |other: usize| matches!(store::settling(before, other), Settling::UnderWay { .. });
        self.add("step: others under way", others.any(under_way).into());
    }
}
