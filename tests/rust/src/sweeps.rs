//! All of a small set each, where a generated run takes samples: every value of a code, every byte of a
//! store, every date, every short list of groups. The store is mostly that of 2024-04-11 and station 40001.

mod dry;
mod portions;
mod ranks;
mod ties;

use crate::generate::stores::{fresh, Edits, Opening};
use crate::generate::{no_entries, Call, Step};
use crate::reference;
use crate::reference::layout::{self, store_length, Field, Record, DD, FILED, TR};
use crate::reference::store::{self, Cell, Head};
use crate::reference::store::{C, D, FILLED, HUMIDITY, M, MISSING, ORDINARY, P, R, READ, T, W, X};
use crate::reference::vapour;

/// Steps, one after the other.
type Take<'a> = &'a mut dyn FnMut(Step);

type Sweep = fn(Take);

pub const SWEEPS: [(&str, Sweep); 51] = [
    ("each byte of a store, each value", bytes_of_a_store),
    ("each field of a store, beside where soundness turns", fields_of_a_store),
    ("each cell's state, flag and value together", cells_of_a_store),
    ("each date in a store", dates_of_a_store),
    ("lengths and n", lengths),
    ("dates", dates),
    ("YY, GG, iw", headings),
    ("temperature groups", temperatures),
    ("pressure groups", pressures),
    ("rain groups", rains),
    ("iRixhVV, Nddff, 00fff", indicators),
    ("each value through the range step", range),
    ("three values through the time and fill steps", neighbours),
    ("dd with W, D with T, X of slot 4 with M of slot 0", internal),
    ("rain by tR and what is missing", rain_totals),
    ("dew points", dew_points),
    ("day lines", day_lines),
    ("cells", cells),
    ("stations by the numbers in other places", other_numbers),
    ("short lists of groups", short_lists),
    ("one edit of a text", edits_of_texts),
    ("lengths of the vapour table", lengths_of_the_table),
    ("29UUU", humidity_groups),
    ("a humidity in each cell", humid_cells),
    ("humidities through the steps", humid_steps),
    ("each T with a humidity", humid_temperatures),
    ("day lines with humidities", humid_days),
    ("each head's filed, rank and last byte together", ranks::heads_of_a_store),
    ("each rank after each rank", ranks::pairs),
    ("NIL at each rank", ranks::nils),
    ("each rank with each refusal of a text", ranks::refused_texts),
    ("ranks above 24", ranks::above_24),
    ("bulletins at each rank", ranks::bulletins),
    ("each iR with a group 6 in each place", dry::reports),
    ("dry and wet reports, one over the other", dry::replaced),
    ("each RRR before a dry report", dry::showers),
    ("each iR and tR in a half of the rain", dry::halves),
    ("iR, tR and R in both halves", dry::four_slots),
    ("R in each state at and before a dry end", dry::states),
    ("each settled number with each copy of dd", portions::numbers_and_copies),
    ("settled numbers of two stations with copies of dd", portions::numbers_of_two),
    ("each byte of an entry and heads, under way", portions::bytes_under_way),
    ("settling in portions in each order", portions::orders),
    ("texts at each settled number", portions::filings),
    ("each value through range alone", portions::range),
    ("three values through time, then fill", portions::time_and_fill),
    ("each copy of dd with each dd through internal alone", portions::internal),
    ("each state and flag through each step alone", portions::states),
    ("T missing, low or high in each slot", ties::columns),
    ("the same T in all slots, in each state", ties::flat_days),
    ("two equal T of each state and flag", ties::pairs),
];

const STATION: u32 = 40001;

/// YYGG of each slot.
const TIMES: [&str; 9] = ["1106", "1109", "1112", "1115", "1118", "1121", "1200", "1203", "1206"];

/// The store's one station is settled.
fn settled() -> Edits {
    Record::Entry { index: 0 }.edit(1, layout::SETTLED, 1)
}

/// A number in a slot's head.
fn head(slot: usize, field: Field, number: u32) -> Edits {
    Record::Head { index: 0, slot }.edit(1, field, number)
}

fn raw(slot: usize, element: usize) -> Record {
    Record::Raw { index: 0, element, slot }
}

fn checked(slot: usize, element: usize) -> Record {
    Record::Checked { index: 0, element, slot }
}

/// A cell that is read, or missing.
fn cell(record: Record, value: Option<i32>) -> Edits {
    whole_cell(record, Cell::raw(value.map(|value| value as i16)))
}

fn whole_cell(record: Record, cell: Cell) -> Edits {
    (record.at(1)..).zip(cell.to_bytes()).collect()
}

fn opened(date: [u32; 3], row: u16) -> Vec<u8> {
    let mut store = vec![0; store_length(1)];
    let [year, month, day] = date;
    reference::open(&mut store, year, month, day, &[STATION], &[row]).expect("a good opening");
    store
}

fn lend(take: Take) {
    take(Step::Lend(opened([2024, 4, 11], 0)));
}

/// Files a text after slot 0 is made free.
fn file_anew(take: Take, text: Vec<u8>) {
    take(Step::Damaged { edits: head(0, FILED, 0), call: file(text) });
}

/// An ordinary report.
fn file(text: Vec<u8>) -> Call {
    Call::File { text, rank: ORDINARY }
}

/// A bulletin of ordinary reports.
fn bulletin(text: Vec<u8>) -> Call {
    Call::Bulletin { text, rank: ORDINARY }
}

/// Every string of so many of these characters.
fn strings(characters: &'static [u8], len: u32) -> impl Iterator<Item = String> {
    let base = characters.len();
    (0..base.pow(len)).map(move |mut number| {
        let mut string = String::new();
        for _ in 0..len {
            string.push(characters[number % base] as char);
            number /= base;
        }
        string
    })
}

const FIGURES: &[u8] = b"0123456789/";

fn bytes_of_a_store(take: Take) {
    let mut store = opened([2024, 4, 11], 0);
    let dew_point = b"AAXX 11061 40001 12360 62704 10103 20071 40132 60042 333 10120 20080=";
    let humidity = b"AAXX 11121 40001 12360 62704 10103 29080=";
    for (text, rank) in [(dew_point.as_slice(), 0), (humidity, 3)] {
        reference::file(&mut store, text, rank).expect("a good report");
    }
    reference::settle(&mut store, STATION).expect("a station");
    for at in 0..store.len() {
        take(Step::Lend(store.clone()));
        for byte in 0..=255 {
            take(Step::Damaged { edits: vec![(at, byte)], call: Call::Day { station: STATION } });
        }
    }
}

/// A fresh store of two stations, of which the second is asked for.
const TWO: usize = 2;
const STATIONS: [u32; TWO] = [10, 20];
const ASK_SECOND: Call = Call::Cell { station: STATIONS[1], element: 0, slot: 0 };

fn two() -> Vec<u8> {
    let mut store = vec![0; store_length(TWO)];
    reference::open(&mut store, 2024, 2, 29, &STATIONS, &[0, 1]).expect("a good opening");
    store
}

/// The number that a field of the store holds.
fn number_in(store: &[u8], record: Record, field: Field) -> u32 {
    let at = record.at(TWO) + field.at;
    store[at..at + field.width].iter().fold(0, |number, &byte| number << 8 | u32::from(byte))
}

/// The numbers where soundness turns, the one that stands there, the stations', bytes in the wrong order, the ends of
/// one, two and four bytes: each of these, and the numbers beside it. Heads also where all slots are filed, at any rank;
/// heads and entries also where both stations' settlings are under way.
fn fields_of_a_store(take: Take) {
    fields_of(take, &two(), |_| true);
    let mut begun = two();
    for station in STATIONS {
        reference::begin(&mut begun, station).expect("a station");
    }
    fields_of(take, &begun, |record| matches!(record, Record::Entry { .. } | Record::Head { .. }));
    let mut filed = two();
    for (index, slot) in (0..TWO).flat_map(|index| (0..9).map(move |slot| (index, slot))) {
        let head = Head { filed: 1, rank: 3 * slot as u8, ..Head::UNFILED };
        store::put_head(store::block_mut(&mut filed, index), slot, head);
    }
    fields_of(take, &filed, |record| matches!(record, Record::Head { .. }));
}

fn fields_of(take: Take, store: &[u8], wanted: fn(&Record) -> bool) {
    let records = Record::all(TWO).filter(wanted);
    for (record, field) in records.flat_map(|r| r.fields().iter().map(move |&field| (r, field))) {
        let right = number_in(store, record, field);
        let swapped = right.swap_bytes() >> (32 - 8 * field.width);
        let most = u32::MAX >> (32 - 8 * field.width);
        let turns = [right, swapped, most, 0, 1 << 8, 1 << 15, 1 << 16, 1 << 17, 1 << 31];
        let turns = turns.iter().chain(&STATIONS).chain(field.turns);
        take(Step::Lend(store.to_vec()));
        for turn in turns.filter(|&&turn| turn <= most) {
            for number in [turn.wrapping_sub(1) & most, *turn, turn.wrapping_add(1) & most] {
                take(Step::Damaged { edits: record.edit(TWO, field, number), call: ASK_SECOND });
            }
        }
    }
}

fn cells_of_a_store(take: Take) {
    let store = two();
    let is_cell = |record: &Record| matches!(record, Record::Raw { .. } | Record::Checked { .. });
    for record in Record::all(TWO).filter(is_cell) {
        take(Step::Lend(store.clone()));
        for state in [0, 1, 2, 3, 4, 255] {
            for flag in [0, 1, 4, 5, 255] {
                for value in [0, 1, i16::MAX, i16::MIN, -i16::MAX, -1] {
                    let bytes = Cell { state, flag, value }.to_bytes();
                    let edits = (record.at(TWO)..).zip(bytes).collect();
                    take(Step::Damaged { edits, call: ASK_SECOND });
                }
            }
        }
    }
}

fn dates_of_a_store(take: Take) {
    take(Step::Lend(two()));
    for (year, month) in (1999..=2100).flat_map(|year| (0..=13).map(move |month| (year, month))) {
        for day in 0..=32 {
            let date = [(layout::YEAR, year), (layout::MONTH, month), (layout::DAY, day)];
            let edits = date.into_iter().flat_map(|(field, n)| Record::Header.edit(TWO, field, n)).collect();
            take(Step::Damaged { edits, call: ASK_SECOND });
        }
    }
}

/// All as a fresh store of n stations has it, but for its length or its n; by each call, and opened.
fn lengths(take: Take) {
    let calls = |n: u32| {
        let text = b"AAXX 11061 00001 NIL=".to_vec();
        let stations: Vec<u32> = (1..=n).collect();
        let rows = vec![0; stations.len()];
        [
            Call::Cell { station: n, element: 0, slot: 0 },
            Call::Day { station: n },
            file(text.clone()),
            bulletin(text),
            Call::Settle { station: n },
            Call::Begin { station: n },
            Call::Step { station: n },
            Call::Open(Opening { year: 2024, month: 4, day: 11, stations, rows }),
        ]
    };
    for n in [0, 1, 2, 31, 32, 33, 34] {
        let store = fresh(n);
        let near = |length: usize| length.saturating_sub(1)..=length + 1;
        let lengths =
            [0, layout::HEADER, store.len(), store_length(n + 1), store_length(n.saturating_sub(1))];
        for length in lengths.into_iter().flat_map(near) {
            let mut buffer = store.clone();
            buffer.resize(length, 0);
            for call in calls(n as u32) {
                take(Step::Lend(buffer.clone()));
                take(Step::Call(call));
            }
        }
        for other in (0..=34).chain([255, 256, 256 * n as u32, 65535]) {
            take(Step::Lend(store.clone()));
            let edits = Record::Header.edit(n, layout::N, other);
            take(Step::Damaged { edits, call: Call::Day { station: 1 } });
        }
    }
}

fn dates(take: Take) {
    let open =
        |year, month, day| Call::Open(Opening { year, month, day, stations: vec![STATION], rows: vec![0] });
    let nil = |day: u32, hour: u32| file(format!("AAXX {day:02}{hour:02}1 40001 NIL=").into());
    lend(take);
    for year in 1999..=2100 {
        for month in 0..=13 {
            for day in 0..=32 {
                take(Step::Call(open(year, month, day)));
                if day >= 28 || day == 1 {
                    for next in [1, 28, 29, 30, 31] {
                        take(Step::Call(nil(next, 3)));
                        take(Step::Call(nil(next, 9)));
                    }
                }
            }
        }
    }
}

fn headings(take: Take) {
    lend(take);
    for number in 0..100_000 {
        let text = format!("AAXX {number:05} 40001 NIL=").into_bytes();
        take(Step::Call(file(text.clone())));
        if number % 7 == 0 {
            take(Step::Call(bulletin(text)));
        }
    }
}

fn temperatures(take: Take) {
    lend(take);
    for s in strings(FIGURES, 4) {
        file_anew(take, format!("AAXX 11061 40001 ///// ///// 1{s} 2{s} 333 1{s} 2{s}=").into());
    }
}

fn pressures(take: Take) {
    lend(take);
    for s in strings(FIGURES, 4) {
        file_anew(take, format!("AAXX 11061 40001 ///// ///// 4{s}=").into());
    }
}

fn rains(take: Take) {
    lend(take);
    for s in strings(FIGURES, 4) {
        file_anew(take, format!("AAXX 11061 40001 ///// ///// 6{s}=").into());
        file_anew(take, format!("AAXX 11061 40001 ///// ///// 333 6{s} 60012=").into());
    }
}

fn indicators(take: Take) {
    lend(take);
    for s in strings(FIGURES, 3) {
        let (first, two) = s.split_at(1);
        file_anew(take, format!("AAXX 11061 40001 {first}//{two} {s}04=").into());
        for iw in [0, 1, 3, 4] {
            file_anew(take, format!("AAXX 1106{iw} 40001 ///// 001{two}=").into());
            file_anew(take, format!("AAXX 1106{iw} 40001 ///// 00199 00{s}=").into());
        }
    }
}

/// The same value in all elements of slot 0.
fn range(take: Take) {
    for (month, row) in [(3, 0), (4, 0), (9, 1), (10, 1)] {
        take(Step::Lend(opened([2024, month, 11], row)));
        for value in -32768..=32767 {
            let edits = (0..9).flat_map(|element| cell(raw(0, element), Some(value))).collect();
            take(Step::Damaged { edits, call: Call::Settle { station: STATION } });
        }
    }
}

/// Every three of these in a row.
fn threes<A: Copy>(items: Vec<A>) -> impl Iterator<Item = [A; 3]> {
    let n = items.len();
    (0..n.pow(3)).map(move |number| [number / n / n, number / n % n, number % n].map(|at| items[at]))
}

/// An element and three values of it round the limits of time and fill, some missing.
fn triples() -> impl Iterator<Item = (usize, [Option<i32>; 3])> {
    let steps = [-201, -151, -150, -101, -100, -99, -51, -50, -49, -1, 0, 1, 2, 50, 99, 100, 101, 202];
    let middles = [(T, 0), (T, 60), (D, 0), (P, 10000), (W, 200), (C, 4)];
    middles.into_iter().flat_map(move |(element, middle)| {
        let values = steps.map(|step| Some(middle + step)).into_iter().chain([None]);
        threes(values.collect()).map(move |three| (element, three))
    })
}

/// Three raw cells of an element in a row, in slots 0 to 2 and 6 to 8.
fn in_a_row(element: usize, three: [Cell; 3]) -> Edits {
    let places = [(0, 0), (1, 1), (2, 2), (6, 0), (7, 1), (8, 2)];
    places.into_iter().flat_map(|(slot, i)| whole_cell(raw(slot, element), three[i])).collect()
}

fn neighbours(take: Take) {
    lend(take);
    for (element, three) in triples() {
        let edits = in_a_row(element, three.map(|value| Cell::raw(value.map(|value| value as i16))));
        take(Step::Damaged { edits, call: Call::Settle { station: STATION } });
    }
}

fn internal(take: Take) {
    lend(take);
    for dd in 0..=100 {
        for value in [-1, 0, 1, 2, 750, 751] {
            let mut edits = cell(raw(0, W), Some(value));
            edits.extend(head(0, DD, dd));
            take(Step::Damaged { edits, call: Call::Settle { station: STATION } });
        }
    }
    for (t, slot) in (-151..=251).step_by(3).flat_map(|t| (0..9).map(move |slot| (t, slot))) {
        for d in t - 2..=t + 2 {
            let mut edits = cell(raw(slot, T), Some(t));
            edits.extend(cell(raw(slot, D), Some(d)));
            take(Step::Damaged { edits, call: Call::Settle { station: STATION } });
        }
        lend(take);
    }
    for x in -60..=60 {
        for m in [-51, -50, -1, 0, 1, 49, 50] {
            for slots in [(4, 0), (0, 4), (3, 0), (4, 1)] {
                let mut edits = cell(raw(slots.0, X), Some(x));
                edits.extend(cell(raw(slots.1, M), Some(m)));
                take(Step::Damaged { edits, call: Call::Settle { station: STATION } });
            }
            lend(take);
        }
    }
}

/// tR of slots 2, 4, 6 and 8, and which R are there.
fn rain_totals(take: Take) {
    lend(take);
    for times in strings(b"0123456789", 4) {
        for present in 0..16 {
            let mut edits = settled();
            for (i, time) in times.bytes().enumerate() {
                let slot = 2 * i + 2;
                edits.extend(head(slot, TR, (time - b'0').into()));
                edits.extend(cell(checked(slot, R), (present >> i & 1 == 1).then_some(1 << (3 * i))));
            }
            take(Step::Damaged { edits, call: Call::Day { station: STATION } });
        }
    }
}

/// The same D in all slots, then one that differs: every dew point that a sound store can hold.
fn dew_points(take: Take) {
    lend(take);
    for value in -32767..=32767 {
        for other in [value, 0] {
            let mut edits = settled();
            edits.extend((0..9).flat_map(|slot| cell(checked(slot, D), Some(value))));
            edits.extend(cell(checked(7, D), Some(other)));
            take(Step::Damaged { edits, call: Call::Day { station: STATION } });
        }
    }
}

/// A sheet on which every cell is read: one cell of it missing, corrected or filled, with values up to the ends of
/// 16 bits; two temperatures alike; then all cells alike. Rain is that of 24 hours, and that of two halves.
fn day_lines(take: Take) {
    lend(take);
    let mut day = |changes: Edits| {
        for (middle, last) in [(0, 4), (2, 2)] {
            let mut edits = [settled(), head(4, TR, middle), head(8, TR, last)].concat();
            for (slot, element) in (0..81).map(|i| (i / 9, i % 9)) {
                let value = 20 * element + (11 * slot + 5 * element) % 37 - 28;
                edits.extend(cell(checked(slot as usize, element as usize), Some(value)));
            }
            edits.extend(&changes);
            take(Step::Damaged { edits, call: Call::Day { station: STATION } });
        }
    };
    let all = || (0..81).map(|i| checked(i / 9, i % 9));
    for record in all() {
        day(cell(record, None));
        for (state, value) in (1..4).flat_map(|s| [-32767, -501, -28, 0, 8, 501, 32767].map(|v| (s, v))) {
            day(whole_cell(record, Cell { state, flag: 0, value }));
        }
    }
    for (a, b) in (0..81).map(|i| (i / 9, i % 9)) {
        for value in [-100, 100] {
            day([cell(checked(a, T), Some(value)), cell(checked(b, T), Some(value))].concat());
        }
    }
    day(all().flat_map(|record| cell(record, None)).collect());
    for (state, value) in (1..4).flat_map(|s| [-32767, -1, 0, 1, 400, 32767].map(|v| (s, v))) {
        day(all().flat_map(|record| whole_cell(record, Cell { state, flag: 0, value })).collect());
    }
}

/// Each element and slot with each state and flag, and each value somewhere.
fn cells(take: Take) {
    lend(take);
    let mut look = |element: usize, slot: usize, state: u8, flag: u8, value: i16| {
        let mut edits = whole_cell(checked(slot, element), Cell { state, flag, value });
        edits.extend(settled());
        let (element, slot) = (element as u32, slot as u32);
        take(Step::Damaged { edits, call: Call::Cell { station: STATION, element, slot } });
    };
    for element in 0..9 {
        for slot in 0..9 {
            for state in 0..5 {
                for flag in 0..6 {
                    look(element, slot, state, flag, 0);
                    look(element, slot, state, flag, -100 - (9 * slot + element) as i16);
                }
            }
        }
    }
    for value in i16::MIN..=i16::MAX {
        let place = value as u16 as usize;
        look(place % 9, place / 9 % 9, 1, 0, value);
    }
}

/// A station's number is looked for in the list alone: those that any four bytes of the store make are absent.
fn other_numbers(take: Take) {
    let mut store = opened([2024, 4, 11], 0);
    // Heads and cells that hold numbers beyond the station's, and are sound.
    let block = store::block_mut(&mut store, 0);
    let head = Head { filed: 1, ir: 1, tr: 2, dd: 3, rank: 4, dd_copy: 0 };
    (0..9).for_each(|slot| store::put_head(block, slot, head));
    let cell = |slot: usize, e: usize| Cell { state: 1, flag: 0, value: 256 + (9 * slot + e) as i16 };
    let sheet = std::array::from_fn(|slot| std::array::from_fn(|element| cell(slot, element)));
    store::put_raw(block, &sheet);
    store::put_checked(block, &sheet);
    take(Step::Lend(store.clone()));
    for number in store.windows(4).map(|four| u32::from_be_bytes([four[0], four[1], four[2], four[3]])) {
        let cell = Call::Cell { station: number, element: 0, slot: 0 };
        let others = [Call::Begin { station: number }, Call::Step { station: number }];
        for call in [Call::Settle { station: number }, cell].into_iter().chain(others) {
            take(Step::Call(call));
        }
    }
}

/// Up to five groups from the start, and up to four after Nddff.
fn short_lists(take: Take) {
    const FIRST: [&str; 11] =
        ["AAXX", "11061", "40001", "00000", "NIL", "333", "22200", "1234/", "BBXX", "1234", "123456"];
    const LATER: [&str; 22] = [
        "AAXX", "NIL", "222", "22200", "333", "444", "555", "00120", "00///", "01234", "/0000", "10123",
        "11045", "20071", "30000", "55123", "5/512", "60012", "6990/", "7////", "80000", "91112",
    ];
    lend(take);
    for groups in lists(&FIRST, 5) {
        file_anew(take, format!("{}=", groups.join(" ")).into());
    }
    for groups in lists(&LATER, 3) {
        file_anew(take, format!("AAXX 11061 40001 12360 62799 {}=", groups.join(" ")).into());
        file_anew(take, format!("AAXX 11061 40001 12360 62704 333 55300 {}=", groups.join(" ")).into());
        file_anew(take, format!("AAXX 11061 40001 12360 62704 10001 {}=", groups.join(" ")).into());
    }
}

/// Every list of at most so many of the words.
fn lists<'a>(words: &'a [&'a str], most: u32) -> impl Iterator<Item = Vec<&'a str>> {
    (0..=most).flat_map(move |len| {
        (0..words.len().pow(len)).map(move |mut number| {
            let mut list = Vec::new();
            for _ in 0..len {
                list.push(words[number % words.len()]);
                number /= words.len();
            }
            list
        })
    })
}

/// A report and a bulletin with a byte replaced, put in or left out, and cut short.
fn edits_of_texts(take: Take) {
    let report = b"\nAAXX 11061 40001 12360 62799 00120 10103 22212 /////\r333 10120 55300 60012 70000 60042 444 555 =";
    let reports = b"\rAAXX\n 11061 40001 12360 62704= 40001 NIL=\r\n";
    for (text, call) in [(report.as_slice(), file as fn(_) -> _), (reports, bulletin)] {
        lend(take);
        let mut make = |text: Vec<u8>| take(Step::Damaged { edits: head(0, FILED, 0), call: call(text) });
        for at in 0..=text.len() {
            let (before, after) = text.split_at(at);
            make(before.to_vec());
            make(after.to_vec());
            make([before, after.get(1..).unwrap_or(b"")].concat());
            for byte in 0..=255 {
                make([before, &[byte], after].concat());
                make([before, &[byte], after.get(1..).unwrap_or(b"")].concat());
            }
        }
    }
    for len in (505..=520).chain(16_376..=16_392) {
        let mut text = vec![b' '; len];
        text[..18].copy_from_slice(b"AAXX 11061 40001 N");
        text.splice(17..20, *b"NIL");
        text[len - 1] = b'=';
        take(Step::Call(file(text.clone())));
        take(Step::Call(bulletin(text)));
    }
}

/// Numbers that the table does not have, then the table itself.
fn lengths_of_the_table(take: Take) {
    for len in 0..=2100 {
        take(Step::Call(Call::VapourTable { entries: no_entries(len) }));
    }
    let mut entries = vec![0; vapour::LENGTH];
    vapour::fill(&mut entries).expect("the table's length");
    take(Step::Call(Call::VapourTable { entries }));
}

/// As group 2 of section 1 and of section 3.
fn humidity_groups(take: Take) {
    lend(take);
    for uuu in strings(FIGURES, 3) {
        file_anew(take, format!("AAXX 11061 40001 ///// ///// 29{uuu}=").into());
        file_anew(take, format!("AAXX 11061 40001 ///// ///// 333 29{uuu}=").into());
    }
}

/// Sound in D's alone, with some of these values and flags; each is looked at.
fn humid_cells(take: Take) {
    for (i, element) in (0..162).map(|i| (i, i % 9)) {
        let slot = i / 9 % 9;
        let record = if i < 81 { raw(slot, element) } else { checked(slot, element) };
        lend(take);
        for value in [-1, 0, 1, 50, 100, 101] {
            for flag in 0..=5 {
                let mut edits = whole_cell(record, Cell { state: HUMIDITY, flag, value });
                edits.extend(settled());
                let call = Call::Cell { station: STATION, element: element as u32, slot: slot as u32 };
                take(Step::Damaged { edits, call });
            }
        }
    }
}

/// Three of D's cells: dew points, humidities or missing.
fn humid_triples() -> impl Iterator<Item = [Cell; 3]> {
    let dew_points = [-151, -101, -100, -99, -51, -50, -1, 0, 1, 49, 51, 100, 101, 149, 151, 200, 201, 202];
    let cells = (dew_points.map(|value| Cell::raw(Some(value))).into_iter())
        .chain([1, 50, 100].map(Cell::raw_humidity))
        .chain([Cell::MISSING]);
    threes(cells.collect())
}

/// Three of D's raw cells in a row; then a humidity with each T beside it.
fn humid_steps(take: Take) {
    lend(take);
    for three in humid_triples() {
        take(Step::Damaged { edits: in_a_row(D, three), call: Call::Settle { station: STATION } });
    }
    for t in -160..=490 {
        for percent in [1, 50, 100] {
            let mut edits = whole_cell(raw(4, D), Cell::raw_humidity(percent));
            edits.extend(cell(raw(4, T), Some(t)));
            take(Step::Damaged { edits, call: Call::Settle { station: STATION } });
        }
    }
}

/// The same humidity and the same T in all slots: every T that a sound store can hold, in turn read, corrected and
/// filled, with 1, 50 and 100 percent; those of the table, and one beside each end, with every humidity.
fn humid_temperatures(take: Take) {
    lend(take);
    let mut day = |t: i16, percent: i16| {
        let state = READ + (t as u16 % 3) as u8;
        let mut edits = settled();
        for slot in 0..9 {
            edits.extend(whole_cell(checked(slot, T), Cell { state, flag: 0, value: t }));
            edits.extend(whole_cell(checked(slot, D), Cell::raw_humidity(percent)));
        }
        take(Step::Damaged { edits, call: Call::Day { station: STATION } });
    };
    for t in -i16::MAX..=i16::MAX {
        [1, 50, 100].into_iter().for_each(|percent| day(t, percent));
    }
    for t in -501..=501 {
        (1..=100).for_each(|percent| day(t, percent));
    }
}

/// Dew points in all slots but one or two, which hold humidities of each flag, where T is missing, read, corrected or
/// filled, at the ends of the table and beside them; the dew points in turn read, corrected and filled.
fn humid_days(take: Take) {
    lend(take);
    let values = [-501, -500, 0, 215, 500, 501];
    let there = (READ..=FILLED).flat_map(|state| values.map(|value| (state, value)));
    let temperatures: Vec<(u8, i16)> = there.chain([(MISSING, 0)]).collect();
    let mut day = |slots: [usize; 2], t: Cell, dew: u8, flag: u8| {
        let mut edits = settled();
        for slot in 0..9 {
            let humid = slots.contains(&slot);
            let read = Cell { state: READ, flag: 0, value: 100 + slot as i16 };
            let dew_point = Cell { state: dew, flag: 0, value: 60 + slot as i16 };
            let humidity = Cell { state: HUMIDITY, flag, value: 11 * slot as i16 + 1 };
            edits.extend(whole_cell(checked(slot, T), if humid { t } else { read }));
            edits.extend(whole_cell(checked(slot, D), if humid { humidity } else { dew_point }));
        }
        take(Step::Damaged { edits, call: Call::Day { station: STATION } });
    };
    for slots in (0..81).map(|i| [i / 9, i % 9]) {
        for &(state, value) in &temperatures {
            for (dew, flag) in (READ..=FILLED).flat_map(|dew| (0..=4).map(move |flag| (dew, flag))) {
                day(slots, Cell { state, flag, value }, dew, flag);
            }
        }
    }
}
