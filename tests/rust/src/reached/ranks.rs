//! What filing at a rank reached (document 02, S-3).

use super::dry::BY_BULLETIN;
use super::{against, Reached};
use crate::calls::{Calls, Reference};
use crate::place::{place, reports, Place};
use crate::reference::layout::{Record, FILED, RANK};
use crate::reference::store::{HIGHEST_RANK, ORDINARY};

impl Reached {
    /// What makes a head's rank unsound, in a buffer as long as a store of n stations.
    pub(super) fn unsound_rank(&mut self, store: &[u8], n: usize, record: Record) {
        let Record::Head { .. } = record else { return };
        let [filed, rank] = [FILED, RANK].map(|field| store[record.at(n) + field.at].into());
        match (filed, rank) {
            (1, rank) if rank > HIGHEST_RANK => self.add("unsound: rank", 0),
            (0, rank) if rank > HIGHEST_RANK => self.add("unsound: rank", 2),
            (0, rank) if rank > 0 => self.add("unsound: rank", 1),
            _ => {}
        }
    }

    /// A text filed in a sound store.
    pub(super) fn file_at(&mut self, text: &[u8], rank: u32, before: &[u8], number: u32) {
        let place = place(before, text);
        if rank > HIGHEST_RANK {
            self.add("file: rank above 24", rank);
            let at_24 = Reference.file(&mut before.to_vec(), text, HIGHEST_RANK);
            self.add("file: above 24, at 24 answered", at_24);
            if let Some(Place { head, nil: true, .. }) = place {
                self.add("file: NIL above 24 where filed is", head.filed.into());
            }
            return;
        }
        let Some(Place { head, settling, nil, .. }) = place else { return };
        let of_slot = u32::from(head.rank);
        match (head.filed, nil, number) {
            (1, true, _) => self.add("file: NIL where filed, its rank", against(rank, of_slot)),
            (0, false, _) => self.add("file: rank in a free slot", rank),
            (1, false, 8) => self.add("file: rank refused 8", rank),
            (1, false, 13) => self.add("file: slot's rank, refused 13 below it", of_slot),
            (1, false, 0) => {
                self.add("file: rank that replaced a lower one", rank);
                self.add("file: letters skipped where replaced", rank - of_slot - 1);
                self.add("file: replaced where settled was", settling.number().into());
            }
            _ => {}
        }
    }

    /// A bulletin filed in a sound store, its reports one after the other.
    pub(super) fn bulletin_at(&mut self, text: &[u8], rank: u32, before: &[u8], number: u32) {
        let mut store = before.to_vec();
        if rank > HIGHEST_RANK {
            self.add("bulletin: rank above 24", rank);
            let at_24 = Reference.bulletin(&mut store, text, HIGHEST_RANK, &mut [0; 2]);
            return self.add("bulletin: above 24, at 24 answered", at_24);
        }
        if number != 0 {
            return;
        }
        for report in reports(text) {
            let place = place(&store, &report);
            let number = Reference.file(&mut store, &report, rank);
            if number == 0 {
                self.rain_filed(BY_BULLETIN, &report, &store);
            }
            let Some(Place { head, settling, nil, .. }) = place else { continue };
            if number == 0 && !nil {
                self.add("bulletin: settled number, accepted", settling.number().into());
            }
            let kind = match (head.filed, nil, number) {
                (0, false, 0) => 0,
                (1, false, 0) => 1,
                (1, false, 8) if rank == ORDINARY => 2,
                (1, false, 8) => 3,
                (1, false, 13) => 4,
                (1, true, 0) if rank < head.rank.into() => 5,
                _ => continue,
            };
            self.add("bulletin: slot that a report met", kind);
        }
    }
}
