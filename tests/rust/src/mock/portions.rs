//! Faults on settling in portions (document 02, S-6): each makes a call otherwise on the station that it names, or takes
//! a settled number or a copy of dd otherwise.

use super::{fault, set};
use crate::calls::{Calls, Reference};
use crate::place::{place, reports};
use crate::reference::layout::{stations_for, Record, DD_COPY, FILED, SETTLED};
use crate::reference::store::{self, Head, Sheet, HIGHEST_RANK};

/// What a store has of a station.
#[derive(Clone, Copy)]
struct Part {
    settled: u16,
    heads: [Head; 9],
    raw: Sheet,
    checked: Sheet,
}

impl Part {
    fn read(store: &[u8], index: usize) -> Part {
        let block = store::block(store, index);
        Part {
            settled: store::settling(store, index).number(),
            heads: std::array::from_fn(|slot| store::head(block, slot)),
            raw: store::raw_sheet(block),
            checked: store::checked_sheet(block),
        }
    }

    fn write(&self, store: &mut [u8], index: usize) {
        set(store, Record::Entry { index }, SETTLED, self.settled.into());
        let block = store::block_mut(store, index);
        for (slot, head) in self.heads.into_iter().enumerate() {
            store::put_head(block, slot, head);
        }
        store::put_raw(block, &self.raw);
        store::put_checked(block, &self.checked);
    }

    fn put_copies(&mut self, copy: impl Fn(&Head) -> u8) {
        for head in &mut self.heads {
            head.dd_copy = copy(head);
        }
    }

    fn put_copies_of(&mut self, other: &Part) {
        for (head, other) in self.heads.iter_mut().zip(&other.heads) {
            head.dd_copy = other.dd_copy;
        }
    }

    /// No settling is under way.
    fn drop_settling(&mut self) {
        self.settled = 0;
        self.put_copies(|_| 0);
    }
}

/// A call on a station of a sound store: what it has of that station, and the call as it is right.
struct Turn<'a> {
    store: &'a mut [u8],
    index: usize,
    before: Part,
    right: &'a dyn Fn(&mut [u8]) -> u32,
    /// The one that a text means; of other calls 0.
    slot: usize,
}

impl Turn<'_> {
    /// Makes the right call.
    fn make(&mut self) -> u32 {
        (self.right)(self.store)
    }

    /// Changes what the store has of the station, given also what it had before.
    fn change(&mut self, change: impl FnOnce(&mut Part, &Part)) {
        let mut part = Part::read(self.store, self.index);
        change(&mut part, &self.before);
        part.write(self.store, self.index);
    }

    /// Makes the right call, then a change.
    fn make_and(&mut self, change: impl FnOnce(&mut Part, &Part)) -> u32 {
        let number = self.make();
        self.change(change);
        number
    }

    fn begin(&mut self) -> u32 {
        Reference.begin(self.store, store::number(self.store, self.index))
    }

    /// Makes the next step that is due.
    fn step(&mut self) -> u32 {
        Reference.step(self.store, store::number(self.store, self.index))
    }

    fn others(&self) -> impl Iterator<Item = usize> {
        let this = self.index;
        (0..store::stations(self.store)).filter(move |&index| index != this)
    }

    /// Makes a call for every other station.
    fn for_others(&mut self, call: impl Fn(&mut [u8], u32) -> u32) {
        for index in self.others() {
            call(self.store, store::number(self.store, index));
        }
    }

    /// Changes what the store has of every other station.
    fn change_others(&mut self, change: impl Fn(&mut Part)) {
        for index in self.others() {
            let mut part = Part::read(self.store, index);
            change(&mut part);
            part.write(self.store, index);
        }
    }
}

/// Where a fault shows, by the station before the call.
type When = fn(&Part) -> bool;
const ALWAYS: When = |_| true;
const NOT_BEGUN: When = |part| part.settled < 2;
const UNDER_WAY: When = |part| part.settled >= 2;
const NO_REPORT: When = |part| (2..6).contains(&part.settled);
const REPORTED: When = |part| part.settled >= 6;
const INTERNAL_DUE: When = |part| matches!(part.settled, 3 | 7);
const FILL_DUE: When = |part| matches!(part.settled, 5 | 9);

type Fault = (usize, When, fn(&mut Turn) -> u32);

const STEPS: &[Fault] = &[
    (107, UNDER_WAY, |turn| {
        turn.change(|part, _| part.checked = part.raw);
        turn.make()
    }),
    (108, INTERNAL_DUE, |turn| {
        turn.change(|part, _| part.put_copies(|head| head.dd));
        turn.make_and(|part, before| part.put_copies_of(before))
    }),
    (109, INTERNAL_DUE, |turn| turn.make_and(|part, _| part.put_copies(|_| 0))),
    (110, FILL_DUE, |turn| turn.make_and(|part, before| part.put_copies_of(before))),
    (111, FILL_DUE, |turn| turn.make_and(|part, _| part.settled = 1)),
    (112, FILL_DUE, |turn| turn.make_and(|part, _| part.settled = 0)),
    (113, NOT_BEGUN, |_| 0),
    (114, NOT_BEGUN, |turn| turn.begin()),
    (117, NOT_BEGUN, |_| 11),
    (118, UNDER_WAY, |turn| {
        while turn.make() == 0 {}
        0
    }),
    (
        119,
        |part| matches!(part.settled, 2 | 6),
        |turn| {
            turn.make();
            turn.make_and(|part, _| part.settled -= 1)
        },
    ),
    (120, UNDER_WAY, |turn| turn.make_and(|part, before| part.checked = before.checked)),
    (121, REPORTED, |turn| turn.make_and(|part, before| part.checked = before.checked)),
    (122, REPORTED, |_| 14),
    (123, REPORTED, |turn| turn.begin()),
    (124, |part| (6..9).contains(&part.settled), |turn| turn.make_and(|part, _| part.settled -= 4)),
    (125, UNDER_WAY, |turn| {
        turn.for_others(|store, station| Reference.step(store, station));
        turn.make()
    }),
];

/// A step is answered 14 before the station, or the store, is tested.
const BEFORE_6: usize = 115;
const BEFORE_9: usize = 116;

const BEGINNINGS: &[Fault] = &[
    (126, UNDER_WAY, |_| 14),
    (127, UNDER_WAY, |_| 0),
    (128, REPORTED, |turn| turn.make_and(|part, _| part.settled = 6)),
    (129, ALWAYS, |turn| turn.make_and(|part, before| part.checked = before.checked)),
    (130, ALWAYS, |turn| turn.make_and(|part, _| part.put_copies(|_| 0))),
    (131, UNDER_WAY, |turn| turn.make_and(|part, before| part.put_copies_of(before))),
    (132, ALWAYS, |turn| {
        turn.make_and(|part, _| part.put_copies(|head| if head.filed == 0 { 0 } else { head.dd }))
    }),
    (133, ALWAYS, |turn| {
        turn.make_and(|part, before| {
            for slot in (0..9).filter(|&slot| part.heads[slot].filed == 0) {
                part.checked[slot] = before.checked[slot];
            }
        })
    }),
    (134, ALWAYS, |turn| {
        turn.make();
        turn.step();
        turn.change(|part, _| part.settled -= 1);
        0
    }),
    (135, ALWAYS, |turn| turn.make_and(|part, before| part.settled = before.settled)),
    (136, ALWAYS, |turn| {
        turn.for_others(|store, station| Reference.begin(store, station));
        turn.make()
    }),
    (137, ALWAYS, |turn| {
        turn.change_others(|part| {
            if UNDER_WAY(part) {
                part.drop_settling();
            }
        });
        turn.make()
    }),
];

const SETTLINGS: &[Fault] = &[
    (138, UNDER_WAY, |turn| turn.make_and(|part, before| part.put_copies_of(before))),
    (139, UNDER_WAY, |_| 14),
    (140, UNDER_WAY, |turn| {
        while turn.step() == 0 {}
        turn.change(|part, _| part.settled = 1);
        0
    }),
    (141, UNDER_WAY, |turn| {
        turn.change(|part, _| part.heads.iter_mut().for_each(|head| head.dd = head.dd_copy));
        turn.make_and(|part, before| part.heads = before.heads.map(|head| Head { dd_copy: 0, ..head }))
    }),
    (142, UNDER_WAY, |turn| turn.make_and(|part, before| part.settled = before.settled)),
    (143, REPORTED, |turn| turn.make_and(|part, _| part.settled = 0)),
];

/// A report but NIL that is accepted.
const REPORTS: &[Fault] = &[
    (144, UNDER_WAY, |turn| {
        let slot = turn.slot;
        turn.make_and(|part, _| part.heads[slot].dd_copy = 0)
    }),
    (145, UNDER_WAY, dd_to_copy),
    (146, NOT_BEGUN, dd_to_copy),
    (147, UNDER_WAY, not_counted),
    (148, UNDER_WAY, |turn| turn.make_and(|part, _| part.drop_settling())),
    (149, REPORTED, |turn| turn.make_and(|part, _| part.drop_settling())),
    (150, REPORTED, |turn| turn.make_and(|part, _| part.settled += 4)),
    (151, UNDER_WAY, |turn| {
        let slot = turn.slot;
        turn.make_and(|part, _| part.checked[slot] = part.raw[slot])
    }),
    (152, UNDER_WAY, |_| 8),
    (153, UNDER_WAY, |turn| {
        turn.make();
        turn.begin()
    }),
    (IN_A_BULLETIN, UNDER_WAY, not_counted),
    (155, UNDER_WAY, |turn| match turn.before.heads[turn.slot].filed {
        0 => not_counted(turn),
        _ => turn.make(),
    }),
    (156, UNDER_WAY, |turn| match turn.before.heads[turn.slot].filed {
        0 => turn.make(),
        _ => not_counted(turn),
    }),
    (157, ALWAYS, |turn| {
        turn.change_others(|part| {
            if NO_REPORT(part) {
                part.settled += 4;
            }
        });
        turn.make()
    }),
];

/// A fault of reports in a bulletin alone.
const IN_A_BULLETIN: usize = 154;

const NILS: &[Fault] = &[(158, NO_REPORT, counted)];

/// A report that its slot's rank refuses.
const REFUSED: &[Fault] = &[(159, NO_REPORT, counted)];

fn dd_to_copy(turn: &mut Turn) -> u32 {
    let slot = turn.slot;
    turn.make_and(|part, _| part.heads[slot].dd_copy = part.heads[slot].dd)
}

fn not_counted(turn: &mut Turn) -> u32 {
    turn.make_and(|part, before| part.settled = before.settled)
}

fn counted(turn: &mut Turn) -> u32 {
    turn.make_and(|part, _| part.settled += 4)
}

/// The fault among these that is chosen.
fn chosen(faults: &'static [Fault]) -> Option<&'static Fault> {
    faults.iter().find(|&&(number, ..)| fault(number))
}

/// The wrong call, where one of these faults is chosen and shows.
fn wrong(
    faults: &'static [Fault],
    store: &mut [u8],
    (index, slot): (usize, usize),
    right: &dyn Fn(&mut [u8]) -> u32,
) -> Option<u32> {
    let (_, when, call) = chosen(faults)?;
    let before = Part::read(store, index);
    when(&before).then(|| call(&mut Turn { store, index, before, right, slot }))
}

/// A call that names a station and has no other argument.
fn on_station(
    faults: &'static [Fault],
    store: &mut [u8],
    station: u32,
    right: &dyn Fn(&mut [u8]) -> u32,
) -> u32 {
    let index = store::sound(store).then(|| store::find(store, station).ok()).flatten();
    let answer = index.and_then(|index| wrong(faults, store, (index, 0), right));
    match (answer.unwrap_or_else(|| right(store)), taken_for_sound(store)) {
        (9, Some(mut store)) => right(&mut store),
        (number, _) => number,
    }
}

pub fn begin(store: &mut [u8], station: u32) -> u32 {
    on_station(BEGINNINGS, store, station, &|store| Reference.begin(store, station))
}

pub fn step(store: &mut [u8], station: u32) -> u32 {
    match on_station(STEPS, store, station, &|store| Reference.step(store, station)) {
        6 if fault(BEFORE_6) => 14,
        9 if fault(BEFORE_9) => 14,
        number => number,
    }
}

pub fn settle(store: &mut [u8], station: u32) -> u32 {
    on_station(SETTLINGS, store, station, &|store| Reference.settle(store, station))
}

/// Files a text, where a fault of filing is chosen and shows.
pub fn file(store: &mut [u8], text: &[u8], rank: u32, in_a_bulletin: bool) -> Option<u32> {
    let any = [REPORTS, NILS, REFUSED].into_iter().find_map(chosen)?;
    if rank > HIGHEST_RANK || !store::sound(store) || (any.0 == IN_A_BULLETIN && !in_a_bulletin) {
        return None;
    }
    let place = place(store, text)?;
    let right = |store: &mut [u8]| Reference.file(store, text, rank);
    let faults = match (place.nil, right(&mut store.to_vec())) {
        (true, _) => NILS,
        (false, 0) => REPORTS,
        _ => REFUSED,
    };
    wrong(faults, store, (place.index, place.slot), &right)
}

/// Files a bulletin report by report, where a fault of filing is chosen.
pub fn bulletin(store: &mut [u8], text: &[u8], rank: u32, counts: &mut [u32; 2]) -> Option<u32> {
    [REPORTS, NILS, REFUSED].into_iter().find_map(chosen)?;
    let number = Reference.bulletin(&mut store.to_vec(), text, rank, counts);
    if number == 0 {
        for report in reports(text) {
            file(store, &report, rank, true).unwrap_or_else(|| Reference.file(store, &report, rank));
        }
    }
    Some(number)
}

/// Cells and day lines that are given while a settling is under way, or answered 14.
const CELL_GIVEN: usize = 160;
const DAY_GIVEN: usize = 161;
const ANSWERED_14: usize = 162;

/// What cell, or day, answers where it is refused 11 and a settling is under way; `again` asks a store in which the
/// station is settled.
pub fn unsettled(store: &[u8], station: u32, is_day: bool, again: impl FnOnce(&[u8]) -> u32) -> u32 {
    let index = store::find(store, station).expect("a station that is refused 11");
    let mut part = Part::read(store, index);
    if NOT_BEGUN(&part) {
        return 11;
    }
    if !fault(if is_day { DAY_GIVEN } else { CELL_GIVEN }) {
        return if fault(ANSWERED_14) { 14 } else { 11 };
    }
    part.drop_settling();
    part.settled = 1;
    let mut store = store.to_vec();
    part.write(&mut store, index);
    again(&store)
}

/// Faults that take an unsound store for sound: by settled numbers and, the first beside those of ranks, by copies of dd.
const NUMBER_10: usize = 167;
const LOW_BYTE: usize = 168;
const COPIES: [(usize, Taken); 5] = [
    (53, |copy| copy.settled < 2),
    (163, |copy| copy.number == 37),
    (164, |copy| copy.number == 101),
    (165, |copy| copy.filed == 0),
    (166, |copy| copy.slot == 8),
];

type Taken = fn(&CopyOfDd) -> bool;

/// A copy of dd, and what stands beside it.
struct CopyOfDd {
    number: u8,
    slot: usize,
    filed: u8,
    settled: u16,
}

/// The store with settled numbers and copies of dd mended that are taken for sound, where such a fault is chosen.
pub fn taken_for_sound(store: &[u8]) -> Option<Vec<u8>> {
    let by_copy = COPIES.into_iter().find(|&(number, _)| fault(number));
    if by_copy.is_none() && !fault(NUMBER_10) && !fault(LOW_BYTE) {
        return None;
    }
    let mut store = store.to_vec();
    let n = stations_for(store.len())?;
    for index in 0..n {
        let at = Record::Entry { index }.at(n) + SETTLED.at;
        let settled = u16::from_be_bytes([store[at], store[at + 1]]);
        if fault(NUMBER_10) && settled == 10 {
            store[at + 1] = 9;
        }
        if fault(LOW_BYTE) {
            store[at] = 0;
        }
        for slot in 0..9 {
            let at = Record::Head { index, slot }.at(n);
            let [number, filed] = [DD_COPY, FILED].map(|field| store[at + field.at]);
            if by_copy.is_some_and(|(_, sound)| sound(&CopyOfDd { number, slot, filed, settled })) {
                store[at + DD_COPY.at] = 0;
            }
        }
    }
    Some(store)
}

/// A sound store is refused 9.
pub fn taken_for_unsound(store: &[u8]) -> bool {
    if !(169..174).any(fault) || !store::sound(store) {
        return false;
    }
    let mut parts = (0..store::stations(store)).map(|index| Part::read(store, index));
    parts.any(|part| {
        let copies = |wrong: fn(&Head) -> bool| UNDER_WAY(&part) && part.heads.iter().any(wrong);
        fault(169) && copies(|head| head.dd_copy == 99)
            || fault(170) && copies(|head| head.dd_copy == 100)
            || fault(171) && copies(|head| head.dd_copy != head.dd)
            || fault(172) && copies(|head| head.filed == 0 && head.dd_copy != 100)
            || fault(173) && REPORTED(&part)
    })
}
