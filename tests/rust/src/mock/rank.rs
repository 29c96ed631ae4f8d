//! Faults on ranks (document 02, S-3): each changes what is given to the reference, or what it left or answered.

use super::{fault, set};
use crate::calls::{Calls, Reference};
use crate::place::{place, reports, Place};
use crate::reference::layout::{stations_for, Record, FILED, RANK, SETTLED};
use crate::reference::store::{self, Cell, Head, HIGHEST_RANK, ORDINARY};
use std::iter::repeat;

/// Any fault of this file, so that a store is looked at for those alone.
fn any_fault() -> bool {
    (34..61).any(fault)
}

/// Files a text.
pub fn file(store: &mut [u8], text: &[u8], rank: u32) -> u32 {
    if !any_fault() || !store::sound(store) {
        return Reference.file(store, text, rank);
    }
    if let Some(number) = high(store, text, rank) {
        return number;
    }
    let rank = given(rank);
    let place = place(store, text);
    if place.as_ref().is_some_and(|place| !place.nil && out_of_turn(place.head, rank)) {
        return 13;
    }
    let number = Reference.file(store, text, rank);
    match place {
        Some(place) if number == 0 && !place.nil => left(store, &place),
        Some(place) if number == 0 => return nil(store, &place, rank),
        Some(place) if rank <= HIGHEST_RANK => return met(store, text, rank, &place, number),
        _ => {}
    }
    number
}

/// Ranks above 24 that are tested late.
fn high(store: &[u8], text: &[u8], rank: u32) -> Option<u32> {
    let late = if fault(38) { 1..=1 } else { 0..=7 };
    if rank <= HIGHEST_RANK || !(fault(38) || fault(39)) {
        return None;
    }
    let at_24 = Reference.file(&mut store.to_vec(), text, HIGHEST_RANK);
    let accepted = at_24 == 0 && !place(store, text)?.nil;
    (late.contains(&at_24) && !accepted).then_some(at_24)
}

/// The rank that is filed at.
fn given(rank: u32) -> u32 {
    match rank {
        25 if fault(40) => HIGHEST_RANK,
        HIGHEST_RANK if fault(41) => HIGHEST_RANK + 1,
        _ if fault(42) => rank & 0xff,
        _ => rank,
    }
}

/// A rank that is refused since it is not the next one.
fn out_of_turn(slot: Head, rank: u32) -> bool {
    match slot.filed {
        0 => fault(59) && rank > ORDINARY,
        _ => fault(58) && rank > u32::from(slot.rank) + 1,
    }
}

/// A report refused 8 or 13 for its slot's rank.
fn met(store: &mut [u8], text: &[u8], rank: u32, place: &Place, number: u32) -> u32 {
    let Place { index, slot, .. } = *place;
    match number {
        8 if fault(37) => return 13,
        13 if fault(36) => return 8,
        13 if fault(46) => set(store, Record::Entry { index }, SETTLED, 0),
        _ => {}
    }
    if (fault(34) && number == 8) || (fault(35) && number == 13) {
        let free = Head { dd_copy: place.head.dd_copy, ..Head::UNFILED };
        store::put_head(store::block_mut(store, index), slot, free);
        return Reference.file(store, text, rank);
    }
    number
}

/// A NIL that was accepted.
fn nil(store: &mut [u8], place: &Place, rank: u32) -> u32 {
    let Place { index, slot, head, .. } = *place;
    let of_slot = u32::from(head.rank);
    if fault(44) && head.filed == 1 && rank > of_slot {
        set(store, Record::Head { index, slot }, RANK, rank);
    }
    if fault(43) && rank < of_slot {
        13
    } else {
        0
    }
}

/// A report that was accepted, in a slot that may have been filed.
fn left(store: &mut [u8], place: &Place) {
    let Place { index, slot, head: before, cells: old, .. } = *place;
    if fault(47) {
        set(store, Record::Head { index, slot }, RANK, before.rank.into());
    }
    if before.filed == 0 {
        return;
    }
    if fault(45) {
        set(store, Record::Entry { index }, SETTLED, place.settling.number().into());
    }
    let block = store::block_mut(store, index);
    let (mut head, mut cells) = (store::head(block, slot), store::raw_sheet(block)[slot]);
    if fault(48) {
        cells = old;
    }
    if fault(49) {
        head = Head { rank: head.rank, ..before };
    }
    if fault(50) {
        cells = std::array::from_fn(|e| if cells[e].is_missing() { old[e] } else { cells[e] });
    }
    store::put_slot(block, slot, head, &cells);
    if fault(60) {
        let mut sheet = store::checked_sheet(block);
        sheet[slot] = [Cell::MISSING; 9];
        store::put_checked(block, &sheet);
    }
}

/// Files a bulletin.
pub fn bulletin(store: &mut [u8], text: &[u8], rank: u32, counts: &mut [u32; 2]) -> u32 {
    if !(54..58).any(fault) {
        return Reference.bulletin(store, text, rank, counts);
    }
    let mut tally = [0; 2];
    let at_24 = Reference.bulletin(&mut store.to_vec(), text, HIGHEST_RANK, &mut tally);
    let accepted = match (rank > HIGHEST_RANK, at_24) {
        (true, 1..) if fault(54) || fault(55) => return at_24,
        (true, 0) if fault(54) => 0,
        (false, 0) if fault(56) => file_each(store, text, ORDINARY),
        (false, 0) if fault(57) => file_each(store, text, rank),
        _ => return Reference.bulletin(store, text, rank, counts),
    };
    *counts = [accepted, tally[0] + tally[1] - accepted];
    0
}

/// Files the reports of a bulletin, the first at a rank and the others at 0: how many are accepted.
fn file_each(store: &mut [u8], text: &[u8], first: u32) -> u32 {
    let ranks = [first].into_iter().chain(repeat(ORDINARY));
    let ranked = reports(text).into_iter().zip(ranks);
    ranked.filter(|(report, rank)| Reference.file(store, report, *rank) == 0).count() as u32
}

/// The store with heads mended that are unsound for their rank.
pub fn heads_taken_for_sound(store: &[u8]) -> Vec<u8> {
    let mut store = store.to_vec();
    let Some(n) = stations_for(store.len()) else { return store };
    for at in Record::all(n).filter(|record| matches!(record, Record::Head { .. })).map(|record| record.at(n))
    {
        if fault(51) && store[at + FILED.at] == 1 && store[at + RANK.at] == 25 {
            store[at + RANK.at] = 0;
        }
        if fault(52) && store[at + FILED.at] == 0 {
            store[at + RANK.at] = 0;
        }
    }
    store
}
