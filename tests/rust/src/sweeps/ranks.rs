//! Sweeps of the ranks of reports (document 02, S-3): slots filed at each rank, and calls at each rank.

use super::{lend, settled, two, Take, ASK_SECOND, STATION, STATIONS, TIMES, TWO};
use crate::generate::stores::Edits;
use crate::generate::{Call, Step};
use crate::reference::layout::{Record, DD_COPY, FILED, RANK, SETTLED};
use crate::reference::store::{HIGHEST_RANK, P, T};

/// Those that a filing call may give, and the first that it may not.
fn ranks() -> impl Iterator<Item = u32> {
    0..=HIGHEST_RANK + 1
}

/// A slot that is unfiled, and one filed at each rank.
fn slots() -> impl Iterator<Item = Option<u32>> {
    [None].into_iter().chain((0..=HIGHEST_RANK).map(Some))
}

/// Slot 0 of the station at an index, in a store of n.
fn slot_0(n: usize, index: usize, rank: Option<u32>) -> Edits {
    let head = Record::Head { index, slot: 0 };
    [head.edit(n, FILED, rank.is_some().into()), head.edit(n, RANK, rank.unwrap_or(0))].concat()
}

/// A call on the settled station, its slot 0 unfiled or filed at a rank.
fn meet(take: Take, slot: Option<u32>, call: Call) {
    take(Step::Damaged { edits: [settled(), slot_0(1, 0, slot)].concat(), call });
}

pub fn heads_of_a_store(take: Take) {
    let store = two();
    for head in Record::all(TWO).filter(|record| matches!(record, Record::Head { .. })) {
        take(Step::Lend(store.clone()));
        for (filed, last) in (0..3).flat_map(|filed| [0, 1, 255].map(|last| (filed, last))) {
            for rank in 0..=255 {
                let fields = [(FILED, filed), (RANK, rank), (DD_COPY, last)];
                let edits = fields.into_iter().flat_map(|(field, n)| head.edit(TWO, field, n)).collect();
                take(Step::Damaged { edits, call: ASK_SECOND });
            }
        }
    }
}

/// In every slot: a report with every value, settled and read; then one that differs in all, or has no value, read;
/// settled and read.
pub fn pairs(take: Take) {
    let file = |text: &str, rank| Call::File { text: text.into(), rank };
    let settle = [Call::Settle { station: STATION }];
    for (slot, time) in (0..).zip(TIMES) {
        let full = format!("AAXX {time}1 40001 12360 62704 10103 20071 40132 60042 333 10120 20080=");
        let others = [
            format!("AAXX {time}4 40001 /1456 81312 11012 29080 69901 333 10095="),
            format!("AAXX {time}1 40001 ///// /////="),
        ];
        let [t, p] = [T, P].map(|e| Call::Cell { station: STATION, element: e as u32, slot });
        let day = [t, p, Call::Day { station: STATION }];
        for (one, two) in ranks().flat_map(|one| ranks().map(move |two| (one, two))) {
            for other in &others {
                let (first, second) = ([file(&full, one)], [file(other, two)]);
                let calls: [&[Call]; 7] = [&first, &settle, &day, &second, &day, &settle, &day];
                lend(take);
                calls.concat().into_iter().for_each(|call| take(Step::Call(call)));
            }
        }
    }
}

pub fn nils(take: Take) {
    lend(take);
    for (slot, rank) in slots().flat_map(|slot| ranks().map(move |rank| (slot, rank))) {
        let text = b"AAXX 11061 40001 NIL=".to_vec();
        meet(take, slot, Call::File { text: text.clone(), rank });
        meet(take, slot, Call::Bulletin { text, rank });
    }
}

/// Texts that fail a check, or none, in the order of the checks; then an unsound store.
pub fn refused_texts(take: Take) {
    let long = format!("AAXX 11061 40001 NIL{}=", " ".repeat(492));
    let texts = [
        "",
        "AAXX 11061 40001 NIL",
        "AAXX 11061 40001 NIL==",
        &long,
        "aaxx 11061 40001 NIL=",
        "=",
        "AAXX 11061 40001 12360 NIL=",
        "AAXX 11062 40001 NIL=",
        "AAXX 11061 00000 12360 62704=",
        "AAXX 11061=",
        "AAXX 11061 40001 12360 62704 20071 10103=",
        "AAXX 11061 40002 NIL=",
        "AAXX 11061 40002 12360 62704=",
        "AAXX 11071 40001 NIL=",
        "AAXX 11071 40001 12360 62704=",
        "AAXX 11061 40001 12360 62704 10103=",
    ];
    lend(take);
    for (text, slot) in texts.into_iter().flat_map(|text| slots().map(move |slot| (text, slot))) {
        for rank in ranks().chain([u32::MAX]) {
            meet(take, slot, Call::File { text: text.into(), rank });
        }
    }
    let copy = Record::Head { index: 0, slot: 8 }.edit(1, DD_COPY, 1);
    for (text, rank) in texts.into_iter().flat_map(|text| ranks().map(move |rank| (text, rank))) {
        for call in [Call::File { text: text.into(), rank }, Call::Bulletin { text: text.into(), rank }] {
            take(Step::Damaged { edits: copy.clone(), call });
        }
    }
}

/// Up to 300, some whose low byte is a rank, and the largest.
pub fn above_24(take: Take) {
    let low_bytes = [1 << 16, 1 << 24, 1 << 31, u32::MAX - 0xff]
        .map(|high| (0..=HIGHEST_RANK).map(move |low| high + low));
    let ranks: Vec<u32> =
        (HIGHEST_RANK + 1..=300).chain(low_bytes.into_iter().flatten()).chain([u32::MAX]).collect();
    lend(take);
    for (slot, &rank) in slots().flat_map(|slot| ranks.iter().map(move |rank| (slot, rank))) {
        let text = b"AAXX 11061 40001 12360 62704 10103=".to_vec();
        meet(take, slot, Call::File { text: text.clone(), rank });
        meet(take, slot, Call::Bulletin { text, rank });
    }
}

/// Two stations, the second's slot at a rank as far from 24 as the first's from 0; NIL, one report twice, one of no station.
/// Also bulletins that are refused whole, and a tail.
pub fn bulletins(take: Take) {
    let reports = "00010 12360 62704 10103=00020 11460 80000 29080=00010 NIL=00010 12361 62705=00030 NIL=";
    let good = format!("AAXX 29061 {reports}");
    let long = format!("{good}{}", " ".repeat(16385 - good.len()));
    let texts = [&good, "", &long, "AAXX", "AAXX 29062 00010 NIL=", "AAXX 29061 00010 12360 62704"];
    take(Step::Lend(two()));
    for (slot, rank) in slots().flat_map(|slot| ranks().map(move |rank| (slot, rank))) {
        for text in texts {
            let second = slot.map(|rank| HIGHEST_RANK - rank);
            let mut edits = [slot_0(TWO, 0, slot), slot_0(TWO, 1, second)].concat();
            for index in 0..TWO {
                edits.extend(Record::Entry { index }.edit(TWO, SETTLED, 1));
            }
            take(Step::Damaged { edits, call: Call::Bulletin { text: text.into(), rank } });
            take(Step::Call(Call::Day { station: STATIONS[0] }));
        }
    }
}
