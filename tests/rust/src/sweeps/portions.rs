//! Sweeps of settling in portions (document 02, S-6): settled numbers with copies of dd, the calls in every order, and
//! each step by itself over cells made by hand.

use super::{bulletin, cell, checked, head, humid_triples, lend, opened, triples, two, whole_cell};
use super::{Take, STATION, STATIONS, TIMES, TWO};
use crate::generate::stores::Edits;
use crate::generate::{Call, Step};
use crate::reference;
use crate::reference::layout::{Record, DD, DD_COPY, ENTRY, FILED, HEAD, RANK, SETTLED};
use crate::reference::store::{Cell, CORRECTED, D, FILLED, HUMIDITY, M, MISSING, READ, T, W, X};

const STEP: Call = Call::Step { station: STATION };
const BEGIN: Call = Call::Begin { station: STATION };
const SETTLE: Call = Call::Settle { station: STATION };

/// The wind at one slot.
const LOOK: Call = Call::Cell { station: STATION, element: W as u32, slot: 1 };

/// A settled number for the station at an index in a store of n, and one copy of dd in all slots, 0 where no settling is
/// under way.
fn numbered(n: usize, index: usize, settled: u32, copy: u32) -> Edits {
    let copy = if (2..=9).contains(&settled) { copy } else { 0 };
    let copies = (0..9).flat_map(|slot| Record::Head { index, slot }.edit(n, DD_COPY, copy));
    Record::Entry { index }.edit(n, SETTLED, settled).into_iter().chain(copies).collect()
}

/// A step that is due by a settled number, over these cells and heads.
fn step_at(take: Take, settled: u32, edits: Edits) {
    take(Step::Damaged { edits: [numbered(1, 0, settled, 27), edits].concat(), call: STEP });
}

/// Every number that dd may be.
fn directions() -> impl Iterator<Item = u32> {
    (0..=36).chain([99, 100])
}

/// A day on which every step of settling changes a cell, filed at rank 0: calm with wind, wind without direction, D above
/// T, a T with its sign turned, one out of range, a slot without a report, and X below M.
fn eventful_day() -> Vec<u8> {
    let groups = [
        "60005 10060 20050 40132 333 20090",
        "62700 10062 20050 40132",
        "62704 10064 20070 40132",
        "62704 11066 20050 40132",
        "62704 10068 20050 40132 333 10080",
        "",
        "60000 10060 20050 40132",
        "62704 10490 20050 40132",
        "62704 10066 20050 40132",
    ];
    let mut store = opened([2024, 4, 11], 0);
    for (time, groups) in TIMES.into_iter().zip(groups).filter(|(_, groups)| !groups.is_empty()) {
        let text = format!("AAXX {time}1 40001 12360 {groups}=");
        reference::file(&mut store, text.as_bytes(), 0).expect("a good report");
    }
    store
}

/// Each settled number up to 11 and some whose low byte is one, with each byte for each slot's copy; by each call that
/// names the station.
pub fn numbers_and_copies(take: Take) {
    let numbers = || (0..=11).chain(255..=265).chain([65535]);
    for (slot, time) in TIMES.into_iter().enumerate() {
        take(Step::Lend(eventful_day()));
        let text = format!("AAXX {time}1 40001 12360 60000 10070 20050=");
        let file = Call::File { text: text.into(), rank: 0 };
        for (settled, copy) in numbers().flat_map(|number| (0..=255).map(move |copy| (number, copy))) {
            for call in [STEP, BEGIN, SETTLE, LOOK, Call::Day { station: STATION }, file.clone()] {
                let mut edits = numbered(1, 0, settled, 27);
                edits.extend(head(slot, DD_COPY, copy));
                edits.extend([head(slot, FILED, 0), head(slot, RANK, 0)].concat());
                take(Step::Damaged { edits, call });
            }
        }
    }
}

/// Two stations, each with each settled number up to 10; in one head a copy beside where soundness turns.
pub fn numbers_of_two(take: Take) {
    take(Step::Lend(two()));
    let heads = || Record::all(TWO).filter(|record| matches!(record, Record::Head { .. }));
    for (one, other) in (0..=10).flat_map(|one| (0..=10).map(move |other| (one, other))) {
        for (head, copy) in heads().flat_map(|head| [0, 1, 36, 37, 99, 100, 101].map(|copy| (head, copy))) {
            let numbers = [numbered(TWO, 0, one, 27), numbered(TWO, 1, other, 100)].concat();
            let edits = [numbers, head.edit(TWO, DD_COPY, copy)].concat();
            take(Step::Damaged { edits, call: Call::Step { station: STATIONS[1] } });
        }
    }
}

/// Every byte of a station's entry and of its heads, with every value, while a settling is under way.
pub fn bytes_under_way(take: Take) {
    let mut store = eventful_day();
    reference::begin(&mut store, STATION).expect("a station");
    let entry = Record::Entry { index: 0 }.at(1);
    let heads = Record::Head { index: 0, slot: 0 }.at(1);
    for at in (entry..entry + ENTRY).chain(heads..heads + 9 * HEAD) {
        take(Step::Lend(store.clone()));
        for byte in 0..=255 {
            take(Step::Damaged { edits: vec![(at, byte)], call: STEP });
        }
    }
}

/// The n-th call of a sequence: begin, step, settle, a report that no earlier one was, NIL, or a look at a cell.
fn nth_call(kind: usize, n: usize) -> Call {
    let file = |slot: usize, groups: &str, rank: usize| {
        let text = format!("AAXX {}1 40001 {groups}=", TIMES[slot]);
        Call::File { text: text.into(), rank: rank as u32 }
    };
    let reports = [
        (1, "12360 60005 10300 20310 40132"),
        (5, "12360 62700 10070 20050 49000"),
        (0, "12360 62704 10061 20051 40132 333 20010"),
        (1, "12360 60000 10063 20050 40132"),
        (7, "12360 69904 10069 29080 40132"),
        (1, "12360 63605 11061"),
    ];
    match kind {
        0 => BEGIN,
        1 => STEP,
        2 => SETTLE,
        3 => file(reports[n].0, reports[n].1, n + 1),
        4 => file(1, "NIL", n),
        _ => LOOK,
    }
}

/// Every order of so many of these calls on a store.
fn orders_of(take: Take, store: &[u8], calls: u32) {
    for mut sequence in 0..6_usize.pow(calls) {
        take(Step::Lend(store.to_vec()));
        for n in 0..calls as usize {
            take(Step::Call(nth_call(sequence % 6, n)));
            sequence /= 6;
        }
    }
}

/// Six calls in every order from a day that was filed; four from each settled number, over the cells of a day settled
/// before, with copies that are not the heads' dd.
pub fn orders(take: Take) {
    let mut store = eventful_day();
    orders_of(take, &store, 6);
    reference::settle(&mut store, STATION).expect("a station");
    for settled in 0..=9 {
        let mut store = store.clone();
        numbered(1, 0, settled, 0).into_iter().for_each(|(at, byte)| store[at] = byte);
        orders_of(take, &store, 4);
    }
}

/// At each settled number, a text for each slot that is free or filed at a rank, by file and by bulletin, and a step.
pub fn filings(take: Take) {
    lend(take);
    for (slot, time) in TIMES.into_iter().enumerate() {
        let texts = ["40001 12360 60004", "40001 NIL", "40002 12360 60004", "40001 12360", "40001 1236"]
            .map(|groups| format!("AAXX {time}1 {groups}=").into_bytes());
        for (settled, copy) in (0..=9).flat_map(|settled| [0, 27, 100].map(|copy| (settled, copy))) {
            for (filed, rank) in [(0, 0), (1, 0), (1, 3), (1, 24)] {
                for text in &texts {
                    for call in [Call::File { text: text.clone(), rank: 3 }, bulletin(text.clone())] {
                        let mut edits = numbered(1, 0, settled, copy);
                        edits.extend([head(slot, FILED, filed), head(slot, RANK, rank)].concat());
                        take(Step::Damaged { edits, call });
                        take(Step::Call(STEP));
                    }
                }
            }
        }
    }
}

/// The same value in all checked cells of slot 0, in turn read, corrected and filled, with each flag.
pub fn range(take: Take) {
    for (month, row) in [(3, 0), (4, 0), (9, 1), (10, 1)] {
        take(Step::Lend(opened([2024, month, 11], row)));
        for (turn, value) in (i16::MIN..=i16::MAX).enumerate() {
            let held = Cell { state: READ + (turn % 3) as u8, flag: (turn % 5) as u8, value };
            let edits = (0..9).flat_map(|element| whole_cell(checked(0, element), held)).collect();
            step_at(take, if turn % 2 == 0 { 2 } else { 6 }, edits);
        }
    }
}

/// Three checked cells of an element in a row, through time, then through fill.
pub fn time_and_fill(take: Take) {
    lend(take);
    let mut turn = 0;
    let mut through = |element: usize, three: [Cell; 3]| {
        turn += 1;
        let places = [(0, 0), (1, 1), (2, 2), (6, 0), (7, 1), (8, 2)];
        let cells = places.into_iter().flat_map(|(slot, i)| whole_cell(checked(slot, element), three[i]));
        step_at(take, if turn % 2 == 0 { 4 } else { 8 }, cells.collect());
        take(Step::Call(STEP));
    };
    for (turn, (element, three)) in triples().enumerate() {
        let states = [turn, turn / 3, turn / 9].map(|turn| READ + (turn % 3) as u8);
        let cell = |i: usize| match three[i] {
            Some(value) => Cell { state: states[i], flag: (turn % 5) as u8, value: value as i16 },
            None => Cell { flag: (turn % 5) as u8, ..Cell::MISSING },
        };
        through(element, [0, 1, 2].map(cell));
    }
    humid_triples().for_each(|three| through(D, three));
}

/// Every copy of dd with every dd of the head, and W missing, none and some.
pub fn internal(take: Take) {
    lend(take);
    for (turn, (copy, dd)) in directions().flat_map(|copy| directions().map(move |dd| (copy, dd))).enumerate()
    {
        for (settled, wind) in
            [3, 7].into_iter().flat_map(|n| [None, Some(-1), Some(0), Some(1)].map(|w| (n, w)))
        {
            let slot = turn % 9;
            let edits = [head(slot, DD, dd), head(slot, DD_COPY, copy), cell(checked(slot, W), wind)];
            step_at(take, settled, edits.concat());
        }
    }
}

/// A cell of each element, state and flag, with values at and beyond limits, through the step of each settled number; the
/// others of its element are read, missing, mended or, of D, humidities.
pub fn states(take: Take) {
    let values = [-32767, -401, -70, 0, 60, 481, 32767].map(|value| (READ..=FILLED).map(move |s| (s, value)));
    let there: Vec<(u8, i16)> = values.into_iter().flatten().chain([(MISSING, 0)]).collect();
    let humid = [1, 50, 100].map(|value| (HUMIDITY, value));
    let held = |state, value| Cell { state, flag: 0, value };
    let others = [held(READ, 70), Cell::MISSING, held(CORRECTED, -60), held(FILLED, 200), held(HUMIDITY, 70)];
    for element in 0..9 {
        lend(take);
        let kinds = if element == D { 5 } else { 4 };
        let own = there.iter().chain(if element == D { &humid[..] } else { &[] });
        for (&(state, value), slot) in own.flat_map(|own| [0, 3, 4, 8].map(|slot| (own, slot))) {
            for (other, flag) in
                others[..kinds].iter().flat_map(|other| (0..=4).map(move |flag| (other, flag)))
            {
                for settled in 2..=9 {
                    let mut edits: Edits = [(slot, T), (0, M), (4, X)]
                        .into_iter()
                        .zip([65, 10, 5])
                        .flat_map(|((slot, element), value)| cell(checked(slot, element), Some(value)))
                        .collect();
                    edits.extend((0..9).flat_map(|slot| whole_cell(checked(slot, element), *other)));
                    edits.extend(whole_cell(checked(slot, element), Cell { state, flag, value }));
                    step_at(take, settled, edits);
                }
            }
        }
    }
}
