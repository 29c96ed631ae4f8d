//! Sweeps of dry stations (document 02, S-5): every iR with a group 6 in every place, and the halves of the day's rain by
//! iR, tR and R.

use super::{bulletin, cell, checked, file, head, lend, raw, settled, whole_cell};
use super::{Take, FIGURES, STATION, TIMES};
use crate::generate::stores::Edits;
use crate::generate::{Call, Step};
use crate::reference::layout::{FILED, IR, TR};
use crate::reference::store::{Cell, DRY, FILLED, R, READ};

/// iR, tR and R of a slot.
type Rain = (u8, u8, Option<i32>);

/// A slot that ends a half in which there was no rain.
const DRY_END: Rain = (DRY, 2, Some(0));

/// iR and tR in a slot's head.
fn rain_head(slot: usize, (ir, tr, _): Rain) -> Edits {
    [head(slot, IR, ir.into()), head(slot, TR, tr.into())].concat()
}

/// Slots 2, 4, 6 and 8 as reports leave them.
fn filed(slots: [Rain; 4]) -> Edits {
    let edits = |(slot, rain): (usize, Rain)| [rain_head(slot, rain), cell(raw(slot, R), rain.2)].concat();
    [2, 4, 6, 8].into_iter().zip(slots).flat_map(edits).collect()
}

/// The same in a settled station, of which the day line is made.
fn day_of(take: Take, slots: [Rain; 4]) {
    let edits =
        |(slot, rain): (usize, Rain)| [rain_head(slot, rain), cell(checked(slot, R), rain.2)].concat();
    let edits = settled().into_iter().chain([2, 4, 6, 8].into_iter().zip(slots).flat_map(edits)).collect();
    take(Step::Damaged { edits, call: Call::Day { station: STATION } });
}

/// The station settled, the R of a slot and the day line.
fn read(take: Take, slot: usize) {
    let element = R as u32;
    let cell = Call::Cell { station: STATION, element, slot: slot as u32 };
    for call in [Call::Settle { station: STATION }, cell, Call::Day { station: STATION }] {
        take(Step::Call(call));
    }
}

/// What stands after Nddff: no group 6, and each kind of it in each place.
fn later_groups() -> Vec<String> {
    let kinds = ["60031", "69902", "69901", "60054", "6////", "60001", "6///1", "6003/"];
    let places = [
        ["", ""],
        ["333 ", ""],
        ["333 55300 ", ""],
        ["333 55300 ", " 70000"],
        ["333 55300 70000 ", ""],
        ["222// ", ""],
        ["444 ", ""],
        ["555 ", ""],
        ["6//// 333 ", ""],
    ];
    let groups =
        places.iter().flat_map(|[before, after]| kinds.map(|kind| format!(" {before}{kind}{after}")));
    groups.chain([String::new(), " 333".to_string()]).collect()
}

/// Each iR in each slot, with each of these, by file and by bulletin; the other slots give a total, their halves dry or
/// not.
pub fn reports(take: Take) {
    let (showers, rain) = ([(1, 1, Some(10)), (1, 1, Some(20))], [(1, 2, Some(300)), (1, 2, Some(400))]);
    let groups = later_groups();
    for (slot, time) in TIMES.into_iter().enumerate() {
        lend(take);
        for (&ir, groups) in FIGURES.iter().flat_map(|ir| groups.iter().map(move |groups| (ir, groups))) {
            let text = format!("AAXX {time}1 40001 {}//// /////{groups}=", ir as char).into_bytes();
            for ends in [rain, [DRY_END; 2]] {
                for call in [file(text.clone()), bulletin(text.clone())] {
                    let mut edits = filed([showers[0], ends[0], showers[1], ends[1]]);
                    edits.extend(head(slot, FILED, 0));
                    take(Step::Damaged { edits, call });
                    read(take, slot);
                }
            }
        }
    }
}

/// In each slot, a report that is dry, wet or neither, settled and read; then another at a higher rank.
pub fn replaced(take: Take) {
    let reports = ["32360 62704", "12360 62704 60031", "32360 62704 6////", "12360 62704"];
    for (slot, time) in TIMES.into_iter().enumerate() {
        for (one, two) in reports.iter().flat_map(|one| reports.map(move |two| (one, two))) {
            lend(take);
            for (rank, groups) in [(0, *one), (1, two)] {
                let text = format!("AAXX {time}1 40001 {groups}=").into();
                let edits = filed([(1, 1, Some(10)), DRY_END, (1, 1, Some(20)), DRY_END]);
                let edits = if rank == 0 { edits } else { Edits::new() };
                take(Step::Damaged { edits, call: Call::File { text, rank } });
                read(take, slot);
            }
        }
    }
}

/// Every RRR over six hours at slot 2 or 6, then a dry report at slot 4 or 8; the other half is dry.
pub fn showers(take: Take) {
    let slots = [(DRY, 1, Some(0)), DRY_END, (DRY, 1, Some(0)), DRY_END];
    lend(take);
    for (end, rrr) in [4, 8].into_iter().flat_map(|end| (0..1000).map(move |rrr| (end, rrr))) {
        let shower = format!("AAXX {}1 40001 12360 62704 6{rrr:03}1=", TIMES[end - 2]);
        let dry = format!("AAXX {}1 40001 32360 62704=", TIMES[end]);
        let edits = [filed(slots), head(end - 2, FILED, 0), head(end, FILED, 0)].concat();
        take(Step::Damaged { edits, call: file(shower.into()) });
        take(Step::Call(file(dry.into())));
        read(take, end - 2);
    }
}

/// Every iR and tR, and R missing, 0 and this.
fn rains(r: i32) -> impl Iterator<Item = Rain> {
    let indicators = (0..6).flat_map(|ir| (0..10).map(move |tr| (ir, tr)));
    indicators.flat_map(move |(ir, tr)| [None, Some(0), Some(r)].map(|r| (ir, tr, r)))
}

/// All of these in both slots of a half; the other one absent, there, dry with a shower, and 24 hours over a dry one.
pub fn halves(take: Take) {
    let others = [
        [(5, 0, None), (5, 0, None)],
        [(1, 1, Some(100)), (1, 2, Some(200))],
        [(1, 1, Some(100)), DRY_END],
        [(1, 1, Some(100)), (DRY, 4, Some(0))],
    ];
    lend(take);
    for (before, end) in rains(7).flat_map(|before| rains(50).map(move |end| (before, end))) {
        for other in others {
            day_of(take, [before, end, other[0], other[1]]);
            // 24 hours are those of slot 8.
            if other[1].1 != 4 {
                day_of(take, [other[0], other[1], before, end]);
            }
        }
    }
}

/// iR 1 and 3, tR 1, 2 and one that no half or, at its end, 24 hours need, and R missing, 0 and more, in all four slots.
pub fn four_slots(take: Take) {
    let slot = |hours: [u8; 3], r: i32| {
        let indicators = [1, DRY].into_iter().flat_map(move |ir| hours.map(move |tr| (ir, tr)));
        indicators.flat_map(move |(ir, tr)| [None, Some(0), Some(r)].map(|r| (ir, tr, r)))
    };
    lend(take);
    for (a, b) in slot([0, 1, 2], 1).flat_map(|a| slot([1, 2, 4], 20).map(move |b| (a, b))) {
        for (c, d) in slot([0, 1, 2], 300).flat_map(|c| slot([1, 2, 4], 4000).map(move |d| (c, d))) {
            day_of(take, [a, b, c, d]);
        }
    }
}

/// R in each state with each flag, at a dry end and six hours before it, the other half dry.
pub fn states(take: Take) {
    let cells = |values: &[i16]| {
        let there = values.iter().flat_map(|&value| (READ..=FILLED).map(move |state| (state, value)));
        let all =
            there.chain([(0, 0)]).flat_map(|(state, value)| (0..5).map(move |flag| (state, flag, value)));
        all.map(|(state, flag, value)| Cell { state, flag, value }).collect::<Vec<_>>()
    };
    let (before, end) = (cells(&[-32767, 0, 1, 32767]), cells(&[-1, 0, 1]));
    lend(take);
    for (before, end) in before.iter().flat_map(|before| end.iter().map(move |end| (before, end))) {
        for last in [4, 8] {
            let mut edits = settled();
            for end in [4, 8] {
                edits.extend([rain_head(end - 2, (1, 1, None)), rain_head(end, DRY_END)].concat());
                edits.extend([end - 2, end].into_iter().flat_map(|slot| cell(checked(slot, R), Some(0))));
            }
            edits.extend(whole_cell(checked(last - 2, R), *before));
            edits.extend(whole_cell(checked(last, R), *end));
            take(Step::Damaged { edits, call: Call::Day { station: STATION } });
        }
    }
}
