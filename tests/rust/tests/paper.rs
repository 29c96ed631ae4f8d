//! The reference on the values and examples that the papers print.

use reading::calls::Reference;
use reading::dayline::DayLines;
use reading::generate::rng::Rng;
use reading::generate::stores::{hand_made, Opening};
use reading::generate::{episode, no_entries, Call, Step};
use reading::reference::calendar::Date;
use reading::reference::layout::{self, block_at, entry_at, store_length, Field, Record};
use reading::reference::store::{Head, Settling};
use reading::reference::{self, report, settle, store, values, vapour, Cell, Mean, Tally};

fn opened(stations: &[u32]) -> Vec<u8> {
    let mut store = vec![0xaa; store_length(stations.len())];
    reference::open(&mut store, 2024, 4, 11, stations, &vec![0; stations.len()]).unwrap();
    store
}

/// The refusal's number, or 0.
fn file_at(store: &mut [u8], text: &str, rank: u32) -> u32 {
    reference::file(store, text.as_bytes(), rank).map_or_else(|refusal| refusal.number(), |()| 0)
}

/// An ordinary report.
fn file(store: &mut [u8], text: &str) -> u32 {
    file_at(store, text, 0)
}

/// A settled store whose slots 0, 1, .. have these groups after Nddff.
fn settled(reports: &[&str]) -> Vec<u8> {
    let mut store = opened(&[1]);
    for (slot, groups) in reports.iter().enumerate() {
        let (day, hour) = if slot < 6 { (11, 6 + 3 * slot) } else { (12, 3 * (slot - 6)) };
        assert_eq!(file(&mut store, &format!("AAXX {day}{hour:02}1 00001 42999 00000 {groups}=")), 0);
    }
    reference::settle(&mut store, 1).unwrap();
    store
}

fn temperature(store: &[u8], slot: u32) -> Cell {
    reference::cell(store, 1, 0, slot).unwrap()
}

fn dew_point(store: &[u8], slot: u32) -> Cell {
    reference::cell(store, 1, 1, slot).unwrap()
}

#[test]
fn proof_table() {
    assert_eq!((values::knots(45), values::knots(99)), (232, 509));
    assert_eq!(values::visibility(55), None);
    assert_eq!((values::visibility(56), values::visibility(89)), (Some(60), Some(700)));
    assert_eq!((values::rain_amount(989), values::rain_amount(990)), (Some(9890), Some(0)));
    assert_eq!((values::pressure(b"40132"), values::pressure(b"48500")), (Some(10132), None));
    assert_eq!((vapour::pressure(0), vapour::pressure(100)), (Some(612), Some(1229)));
    assert_eq!(settle::middle(-5, -4), -4);
    assert_eq!(Date::new(2024, 2, 28).unwrap().next_day(), 29);

    let mended = settled(&["10060", "11070", "10080"]);
    assert_eq!(temperature(&mended, 1), Cell { state: 2, flag: 3, value: 70 });
    let kept = settled(&["10060", "10161", "10061"]);
    assert_eq!(temperature(&kept, 1), Cell { state: 1, flag: 0, value: 161 });
    let hot = settled(&["10480", "10481"]);
    assert_eq!(temperature(&hot, 0), Cell { state: 1, flag: 4, value: 480 });
    assert_eq!(temperature(&hot, 1), Cell { state: 0, flag: 1, value: 0 });
}

fn humidity(percent: i16) -> Cell {
    Cell { state: 4, flag: 0, value: percent }
}

#[test]
fn a_humidity_is_read() {
    let raw = |groups: &str| store::raw_sheet(store::block(&settled(&[groups]), 0))[0];
    for (group, percent) in [("29001", 1), ("29050", 50), ("29099", 99), ("29100", 100)] {
        assert_eq!(raw(group)[store::D], humidity(percent), "{group}");
    }
    for group in ["29000", "29101", "29110", "29999", "29/50", "290/0", "2905/", "29///", "28050", "2/050"] {
        assert_eq!(raw(group)[store::D], Cell::MISSING, "{group}");
    }
    assert_eq!(raw("20050")[store::D], Cell { state: 1, flag: 0, value: 50 });
    assert_eq!(raw("333 29050"), raw(""));
    assert_eq!(raw("19050"), raw(""));
}

#[test]
fn a_humidity_is_passed_over() {
    let read = |value| Cell { state: 1, flag: 0, value };
    // Above T, T missing.
    let alone = settled(&["11020 29090", "29090"]);
    assert_eq!([0, 1].map(|slot| dew_point(&alone, slot)), [humidity(90), humidity(90)]);
    // Far from both dew points beside it.
    let between = settled(&["10250 20240", "10250 29010", "10250 20240"]);
    assert_eq!([0, 1, 2].map(|slot| dew_point(&between, slot)), [read(240), humidity(10), read(240)]);
    // A dew point far from it and from the other one; the same with a dew point in its place.
    let beside = settled(&["10200 20000", "10200 20150", "10200 29010"]);
    assert_eq!(dew_point(&beside, 1), read(150));
    let plain = settled(&["10200 20000", "10200 20150", "10200 20010"]);
    assert_eq!(dew_point(&plain, 1), Cell { state: 3, flag: 3, value: 5 });
    // Missing beside it, and between two dew points.
    let missing =
        settled(&["10200 20000", "10200", "10200 29010", "10200", "10200 20020", "10200", "10200 20031"]);
    let left: Vec<Cell> = (1..6).map(|slot| dew_point(&missing, slot)).collect();
    let filled = Cell { state: 3, flag: 0, value: 26 };
    assert_eq!(left, [Cell::MISSING, humidity(10), Cell::MISSING, read(20), filled]);
}

/// T's, D's and vapour's mean, and the counts.
fn humid_day(store: &[u8]) -> ([Mean; 3], [u32; 4]) {
    let line = reference::day(store, 1).unwrap();
    ([line.means[0], line.means[1], line.means[5]], line.counts)
}

#[test]
fn the_day_line_of_a_humidity() {
    use Mean::{Absent, Mended, Read};
    // At 10.0 °C: 1229 over water, 615 with half of it (614.5), 12 with a hundredth of it (12.29).
    let mut reports = ["10100 29050"; 9];
    assert_eq!(humid_day(&settled(&reports)), ([Read(100.0), Absent, Read(615.0)], [36, 0, 0, 45]));
    assert_eq!(humid_day(&settled(&["10100 29001"; 8])).0[2], Read(12.0));
    assert_eq!(humid_day(&settled(&["10100 29100"; 8])).0[2], Read(1229.0));
    // T filled; T missing.
    reports[3] = "29050";
    assert_eq!(humid_day(&settled(&reports)), ([Mended(100.0), Absent, Mended(615.0)], [35, 0, 1, 45]));
    reports[4] = "29050";
    assert_eq!(humid_day(&settled(&reports)), ([Absent, Absent, Absent], [34, 0, 0, 47]));
    // Among dew points, then in slot 8 alone.
    reports = ["10100 20100"; 9];
    reports[7] = "10100 29050";
    assert_eq!(humid_day(&settled(&reports)).0, [Read(100.0), Absent, Read((7 * 1229 + 615) as f64 / 8.0)]);
    reports[7] = "10100 20100";
    reports[8] = "10100 29050";
    assert_eq!(humid_day(&settled(&reports)), ([Read(100.0), Read(100.0), Read(1229.0)], [36, 0, 0, 45]));
}

/// The T that was mended, 7.0 °C for −7.0, gives the vapour pressure.
#[test]
fn a_humidity_over_a_corrected_t() {
    let mut reports = ["10080 29100"; 8];
    (reports[0], reports[1]) = ("10060 29100", "11070 29100");
    let store = settled(&reports);
    assert_eq!(temperature(&store, 1), Cell { state: 2, flag: 3, value: 70 });
    let sum: i32 = [60, 70, 80, 80, 80, 80, 80, 80].into_iter().filter_map(vapour::pressure).sum();
    assert_eq!(humid_day(&store).0[2], Mean::Mended(f64::from(sum) / 8.0));
}

/// By hand: T at the ends of the table and beyond. The flags of both cells add nothing.
#[test]
fn a_humidity_over_any_t() {
    let mut store = opened(&[1]);
    store::set_settling(&mut store, 0, Settling::Settled);
    for (t, pressure) in [(-32767, None), (-501, None), (-500, Some(3)), (500, Some(6210)), (501, None)] {
        let mut sheet = [[Cell::MISSING; 9]; 9];
        for cells in &mut sheet {
            cells[store::T] = Cell { state: 1, flag: 4, value: t };
            cells[store::D] = Cell { state: 4, flag: 3, value: 50 };
        }
        store::put_checked(store::block_mut(&mut store, 0), &sheet);
        let mean = pressure.map_or(Mean::Absent, |number| Mean::Read(f64::from(number)));
        assert_eq!(humid_day(&store), ([Mean::Read(t.into()), Mean::Absent, mean], [18, 0, 0, 63]), "{t}");
        assert_eq!(dew_point(&store, 8), Cell { state: 4, flag: 3, value: 50 });
    }
}

/// State 4 in D's cells alone, 1 to 100, a raw one with flag 0.
#[test]
fn where_a_humidity_is_sound() {
    let fresh = opened(&[10, 20]);
    for (element, slot) in (0..81).map(|i| (i % 9, i / 9)) {
        for (record, flags) in [
            (Record::Raw { index: 1, element, slot }, 0..=0),
            (Record::Checked { index: 1, element, slot }, 0..=4),
        ] {
            for (flag, value) in (0..=5).flat_map(|flag| [-32768, -1, 0, 1, 100, 101, 257].map(|v| (flag, v)))
            {
                let mut store = fresh.clone();
                let cell = Cell { state: 4, flag, value };
                (record.at(2)..).zip(cell.to_bytes()).for_each(|(at, byte)| store[at] = byte);
                let sound = element == store::D && flags.contains(&flag) && (1..=100).contains(&value);
                assert_eq!(store::sound(&store), sound, "{record:?} {cell:?}");
            }
        }
    }
}

fn vapour_table() -> Vec<u16> {
    let mut entries = no_entries(1001);
    assert_eq!(vapour::fill(&mut entries), Ok(()));
    entries
}

#[test]
fn the_vapour_table() {
    let entries = vapour_table();
    assert_eq!((entries[500], entries[600]), (612, 1229));
    assert_eq!((entries[0], entries[1000]), (6, 12419));
    assert!(entries.is_sorted());
    for (t, &entry) in (-500..).zip(&entries) {
        assert_eq!(vapour::pressure(t), Some(entry.into()), "{t}");
    }
    for t in [-32767, -501, 501, 32767] {
        assert_eq!(vapour::pressure(t), None, "{t}");
    }
}

/// "Keep a whole entry every sixteen places and, between these, the one-byte difference of each entry from the one
/// before it": 63 whole entries, at −500, −484, .. 492, and 938 differences, each 0 to 62.
#[test]
fn the_vapour_table_as_it_is_kept() {
    assert_eq!((vapour::WHOLE.len(), vapour::DIFFERENCES.len()), (63, 938));
    let (mut whole, mut differences) = (vapour::WHOLE.iter(), vapour::DIFFERENCES.iter());
    let mut before = 0;
    for (t, entry) in (-500..).zip(vapour_table()) {
        if (-500..=492).step_by(16).any(|other| other == t) {
            assert_eq!(whole.next(), Some(&entry), "{t}");
        } else {
            let difference = differences.next().map(|&difference| u16::from(difference));
            assert_eq!(difference, Some(entry - before), "{t}");
        }
        before = entry;
    }
    assert_eq!((whole.len(), differences.len()), (0, 0));
    let differences = vapour::DIFFERENCES.iter();
    assert_eq!((differences.clone().min(), differences.max()), (Some(&0), Some(&62)));
}

#[test]
fn another_length_is_left_as_it_was() {
    let entries = vapour_table();
    for len in (0..=2100).filter(|&len| len != 1001) {
        let lent = no_entries(len);
        assert!(lent.iter().all(|number| !entries.contains(number)));
        let mut slice = lent.clone();
        assert_eq!(vapour::fill(&mut slice), Err(1001), "{len}");
        assert_eq!(slice, lent, "{len}");
    }
}

/// An entry of the vapour table in 63 bits, or nothing where a step on the way passes them.
fn entry_in_63_bits(t: i64) -> Option<i64> {
    let s = 100_000_000_i64;
    let q = t.abs().checked_mul(1767)?.checked_mul(s)? / (100 * (t + 2435));
    let (mut term, mut z) = (s, s);
    for k in 1..=30 {
        term = term.checked_mul(q)? / s.checked_mul(k)?;
        z = z.checked_add(term)?;
    }
    let (over, under) = if t >= 0 { (z, s) } else { (s, z) };
    Some(over.checked_mul(1224)?.checked_add(under)? / under.checked_mul(2)?)
}

#[test]
fn the_recurrence_stays_within_63_bits() {
    for (t, entry) in (-500..).zip(vapour_table()) {
        assert_eq!(entry_in_63_bits(t), Some(entry.into()), "{t}");
    }
}

/// What the program `vapour_table` is held to: the entries, one a line, and nothing else.
#[test]
fn the_printed_table() {
    let lines: String = vapour_table().iter().map(|entry| format!("{entry}\n")).collect();
    assert!(lines == include_str!("../../../crates/vapour_table/stdout"));
}

#[test]
fn examples_at_the_gate() {
    let store = &mut opened(&[40001]);
    assert_eq!(file(store, "AAXX"), 1);
    assert_eq!(file(store, "aaxx="), 2);
    assert_eq!(file(store, "="), 3);
    assert_eq!(file(store, "AAXX 11062 40001 NIL="), 4);
    assert_eq!(file(store, "AAXX 11061="), 5);
    assert_eq!(reference::settle(store, 40002).unwrap_err().number(), 6);
    assert_eq!(file(store, "AAXX 11071 40001 12360 62704="), 7);
    let report = "AAXX 11061 40001 12360 62704 10103 20071 40132 60042=";
    assert_eq!(file(store, report), 0);
    assert_eq!(file(store, report), 8);
    assert_eq!(file(&mut [], report), 9);
    assert_eq!(reference::open(store, 2024, 2, 30, &[40001], &[0]).unwrap_err().number(), 10);
    assert_eq!(reference::day(store, 40001).unwrap_err().number(), 11);
    assert_eq!(reference::cell(store, 40001, 0, 9).unwrap_err().number(), 12);
}

#[test]
fn bulletins() {
    let refused = |text: &[u8]| reference::bulletin(&mut opened(&[40001]), text, 0).unwrap_err().number();
    let tally = |text: &str| {
        let Tally { accepted, refused } =
            reference::bulletin(&mut opened(&[40001]), text.as_bytes(), 0).unwrap();
        (accepted, refused)
    };
    assert_eq!(reference::bulletin(&mut [], b"", 0).unwrap_err().number(), 9);
    assert_eq!((refused(b""), refused(&[b' '; 16385]), refused(&[b' '; 16384])), (1, 1, 3));
    assert_eq!(
        (refused(b"AAXX"), refused(b"AAXX=11061"), refused(b"AAXX 1106=1"), refused(b"aaxx 11061")),
        (3, 3, 3, 3)
    );
    assert_eq!((refused(b"AAXX 110611"), refused(b"AAXX 1106/"), refused(b"AAXX 11062")), (3, 3, 4));
    assert_eq!(
        (tally("AAXX 11061"), tally("AAXX 11061="), tally("AAXX 11061 \r\n")),
        ((0, 0), (0, 1), (0, 0))
    );
    assert_eq!(tally("\nAAXX\r11071 40001 NIL=40001 NIL= 40001"), (0, 3));
    assert_eq!(tally("AAXX 11061 40001  NIL =40001 12360 62704=40001 12360 62704==x"), (2, 3));
}

/// For slot 0: two reports that differ in all that they leave, and NIL.
const FIRST: &str = "AAXX 11061 00001 12360 62704 10103 20071 40132 60042 333 10120 20080=";
const SECOND: &str = "AAXX 11064 00001 /1456 81312 11012 29080 69901 333 10095=";
const NIL: &str = "AAXX 11061 00001 NIL=";

/// A store whose slot 0 has the first report, at this rank.
fn filed_at(rank: u32) -> Vec<u8> {
    let mut store = opened(&[1]);
    assert_eq!(file_at(&mut store, FIRST, rank), 0);
    store
}

/// "The slot head grows by a rank byte and a zero byte, so a block has 702 bytes and a store 16 + 710n."
#[test]
fn lengths_with_ranks() {
    assert_eq!(layout::BLOCK, 702);
    for n in 1..=32 {
        assert_eq!(store_length(n), 16 + 710 * n);
    }
    let head = |store: &[u8]| store::head(store::block(store, 0), 0);
    assert_eq!(head(&opened(&[1])), Head { filed: 0, ir: 5, tr: 0, dd: 100, rank: 0, dd_copy: 0 });
    for rank in 0..=24 {
        let filed = Head { filed: 1, ir: 1, tr: 2, dd: 27, rank, dd_copy: 0 };
        assert_eq!(head(&filed_at(rank.into())), filed);
    }
}

/// "A higher rank replaces the whole slot, head and raw cells, and clears settled. An equal rank is filed already."
/// Letters may be skipped; an unfiled slot takes any rank up to 24.
#[test]
fn each_rank_after_each() {
    for (one, other) in (0..=24).flat_map(|one| (0..=25).map(move |other| (one, other))) {
        let mut store = filed_at(one);
        reference::settle(&mut store, 1).unwrap();
        let (before, line) = (store.clone(), reference::day(&store, 1).unwrap());
        let number = file_at(&mut store, SECOND, other);
        if other <= one || other == 25 {
            assert_eq!(number, if other == one { 8 } else { 13 }, "{one} {other}");
            assert_eq!(store, before, "{one} {other}");
            assert_eq!(reference::day(&store, 1), Ok(line));
            continue;
        }
        assert_eq!(number, 0, "{one} {other}");
        // Head and raw cells as the report alone leaves them; the checked cells stay.
        let mut alone = opened(&[1]);
        assert_eq!(file_at(&mut alone, SECOND, other), 0);
        let checked = store::checked_sheet(store::block(&before, 0));
        store::put_checked(store::block_mut(&mut alone, 0), &checked);
        assert_eq!(store, alone, "{one} {other}");
        assert_eq!(reference::day(&store, 1).unwrap_err().number(), 11);
    }
}

/// "NIL changes nothing at any rank up to 24 and is not compared with the slot's."
#[test]
fn nil_at_each_rank() {
    let filed = (0..=24).map(filed_at);
    for mut store in filed.chain([opened(&[1])]) {
        reference::settle(&mut store, 1).unwrap();
        let before = store.clone();
        for rank in (0..=26).chain([255, 256, u32::MAX]) {
            assert_eq!(file_at(&mut store, NIL, rank), if rank > 24 { 13 } else { 0 }, "{rank}");
            assert_eq!(store, before);
        }
    }
}

/// "Above 24 is tested right after 9, below the slot's just before 8."
#[test]
fn ranks_in_the_order_of_tests() {
    let texts = [
        (1, "AAXX"),
        (1, ""),
        (2, "aaxx="),
        (3, "="),
        (4, "AAXX 11062 00001 NIL="),
        (5, "AAXX 11061="),
        (6, "AAXX 11061 00002 12360 62704="),
        (7, "AAXX 11071 00001 12360 62704="),
    ];
    let mut store = filed_at(3);
    let before = store.clone();
    for (number, text) in texts {
        for rank in 0..=24 {
            assert_eq!(file_at(&mut store, text, rank), number, "{text} {rank}");
        }
        for rank in [25, 256, 1 << 16, u32::MAX] {
            assert_eq!(file_at(&mut store, text, rank), 13, "{text} {rank}");
            assert_eq!(file_at(&mut [], text, rank), 9, "{text} {rank}");
        }
    }
    assert_eq!([0, 2, 3].map(|rank| file_at(&mut store, SECOND, rank)), [13, 13, 8]);
    // 256 and 2^16 + 4 would be 0 and 4 in a byte.
    assert_eq!([25, 256, (1 << 16) + 4, u32::MAX].map(|rank| file_at(&mut store, SECOND, rank)), [13; 4]);
    assert_eq!(store, before);
}

/// "Bulletins take one rank for all their reports"; above 24 they are refused whole, right after 9.
#[test]
fn bulletins_at_a_rank() {
    let number = |store: &mut [u8], text: &str, rank: u32| {
        reference::bulletin(store, text.as_bytes(), rank).unwrap_err().number()
    };
    for text in ["", "AAXX", "AAXX 11062", "AAXX 11061 00001 NIL="] {
        assert_eq!(number(&mut opened(&[1]), text, 25), 13, "{text}");
        assert_eq!(number(&mut [], text, u32::MAX), 9, "{text}");
    }
    let numbers = ["", "AAXX", "AAXX 11062"].map(|text| number(&mut opened(&[1]), text, 24));
    assert_eq!(numbers, [1, 3, 4]);
    // Station 1 has rank 3 in its slot, station 2 none.
    let text = "AAXX 11061 00001 12360 62704=00002 12360 62704=00001 NIL=";
    for (rank, accepted, of_first) in [(0, 2, 3), (2, 2, 3), (3, 2, 3), (4, 3, 4), (24, 3, 24)] {
        let mut store = opened(&[1, 2]);
        assert_eq!(file_at(&mut store, FIRST, 3), 0);
        let tally = reference::bulletin(&mut store, text.as_bytes(), rank).unwrap();
        assert_eq!(tally, Tally { accepted, refused: 3 - accepted }, "{rank}");
        let ranks = [0, 1].map(|index| u32::from(store::head(store::block(&store, index), 0).rank));
        assert_eq!(ranks, [of_first, rank]);
        // The same again: only NIL is accepted.
        let tally = reference::bulletin(&mut store, text.as_bytes(), rank).unwrap();
        assert_eq!(tally, Tally { accepted: 1, refused: 2 }, "{rank}");
    }
}

/// Two runs with the same calls for a station, ranks included, answer them alike, whatever comes for another. A text names
/// its station at any rank.
#[test]
fn runs_with_ranks() {
    let calls = [
        (FIRST, 2),
        (SECOND, 25),
        (SECOND, 1),
        (NIL, 0),
        (SECOND, 5),
        (FIRST, 5),
        (NIL, u32::MAX),
        (FIRST, 24),
    ];
    let run = |stations: &[u32], others: &[(&str, u32)]| {
        let mut store = opened(stations);
        let mut answers = Vec::new();
        for (text, rank) in calls {
            for (text, rank) in others {
                file_at(&mut store, text, *rank);
            }
            answers.push(file_at(&mut store, text, rank));
        }
        let n = stations.len();
        let entry = store[entry_at(0)..entry_at(1)].to_vec();
        (answers, entry, store[block_at(n, 0)..block_at(n, 1)].to_vec())
    };
    let alone = run(&[1], &[]);
    assert_eq!(alone.0, [0, 13, 13, 0, 0, 8, 13, 0]);
    let second = FIRST.replace("00001", "00002");
    for rank in [0, 3, 24, 25, u32::MAX] {
        assert_eq!(run(&[1, 2], &[(&second, rank), (&second, 1)]), alone);
    }
}

/// `dayline` files at rank 0: the same report again is refused.
#[test]
fn the_printed_day_knows_no_rank() {
    let mut lines = DayLines::default();
    lines.feed(format!("2024 4 11 1 0\n{FIRST}{FIRST}{SECOND}\n").as_bytes());
    assert!(lines.finish().ends_with("refused 2\n"));
}

/// YYGG of each slot of 2024-04-11.
const TIMES: [&str; 9] = ["1106", "1109", "1112", "1115", "1118", "1121", "1200", "1203", "1206"];

/// A store whose slots have these groups from iRixhVV on, filed one by one or in bulletins.
fn with_rain(reports: &[(usize, &str)], in_bulletins: bool) -> Vec<u8> {
    let mut store = opened(&[1]);
    for (slot, groups) in reports {
        let text = format!("AAXX {}1 00001 {groups}=", TIMES[*slot]);
        if in_bulletins {
            let tally = reference::bulletin(&mut store, text.as_bytes(), 0).unwrap();
            assert_eq!(tally, Tally { accepted: 1, refused: 0 }, "{text}");
        } else {
            assert_eq!(file(&mut store, &text), 0, "{text}");
        }
    }
    store
}

/// iR, tR and the raw R that one report leaves, by file and by bulletin alike.
fn rain_of(slot: usize, groups: &str) -> (u8, u8, Cell) {
    let stores = [false, true].map(|in_bulletins| with_rain(&[(slot, groups)], in_bulletins));
    assert_eq!(stores[0], stores[1], "{groups}");
    let block = store::block(&stores[0], 0);
    let head = store::head(block, slot);
    (head.ir, head.tr, store::raw_sheet(block)[slot][store::R])
}

fn read_cell(value: i16) -> Cell {
    Cell { state: 1, flag: 0, value }
}

/// "Where R is absent from the report and iR is 3, R reads as 0, with tR 2 at slots 0, 4 and 8 and tR 1 at slots 2 and 6;
/// at other slots it stays missing."
#[test]
fn where_a_report_is_dry() {
    let hours = [2, 0, 1, 0, 2, 0, 1, 0, 2];
    for (slot, tr) in hours.into_iter().enumerate() {
        for (ir, digit) in [(0, '0'), (1, '1'), (2, '2'), (4, '4'), (5, '5'), (5, '9'), (5, '/')] {
            assert_eq!(rain_of(slot, &format!("{digit}2360 62704")), (ir, 0, Cell::MISSING), "{slot}");
        }
        let dry = if tr == 0 { Cell::MISSING } else { read_cell(0) };
        assert_eq!(rain_of(slot, "32360 62704"), (3, tr, dry), "{slot}");
        assert_eq!(rain_of(slot, "3//// ///// 10103 333 10120 70000"), (3, tr, dry), "{slot}");
    }
}

/// "A group 6 that is present wins over iR, even if its value is missing", in section 1 or, where none is there, in
/// section 3.
#[test]
fn a_group_6_wins_over_ir() {
    let missing = ["6////", "6///1", "6///2", "60001", "60002", "6000/", "60/02", "6/902", "699/2"];
    for slot in 0..9 {
        for group in missing {
            for place in ["", "333 ", "333 55300 80000 ", "6//// 333 "] {
                let groups = format!("32360 62704 {place}{group}");
                assert_eq!(rain_of(slot, &groups), (3, 0, Cell::MISSING), "{slot} {groups}");
            }
            let groups = format!("32360 62704 {group} 333 60032");
            assert_eq!(rain_of(slot, &groups), (3, 0, Cell::MISSING), "{slot} {groups}");
        }
        let there = [("60031", 1, 30), ("69902", 2, 0), ("69904", 4, 0), ("69911", 1, 1), ("6003/", 0, 30)];
        for (group, tr, tenths) in there {
            for place in ["", "333 ", "333 55300 80000 "] {
                let groups = format!("32360 62704 {place}{group}");
                assert_eq!(rain_of(slot, &groups), (3, tr, read_cell(tenths)), "{slot} {groups}");
            }
        }
    }
}

/// A 6 that a 55 run skips, and one in section 2, 4 or 5, is no R of the report. A dry report leaves the same bytes as one
/// that sends 990 and the slot's tR.
#[test]
fn a_6_that_is_no_rain() {
    for (slot, sent) in [(0, "69902"), (2, "69901"), (4, "69902"), (6, "69901"), (8, "69902")] {
        let said = with_rain(&[(slot, &format!("32360 62704 {sent}"))], false);
        let others = ["", "333 55300 60052", "333 55300 0//// /0000 60052 70000", "333 55/// 55300 60052"];
        for groups in others.into_iter().chain(["222// 60052", "444 60052", "555 60052", "333 444 6////"]) {
            assert_eq!(with_rain(&[(slot, &format!("32360 62704 {groups}"))], false), said, "{groups}");
        }
    }
}

/// The day's rain after these reports.
fn total(reports: &[(usize, &str)]) -> Option<i32> {
    let mut store = with_rain(reports, false);
    reference::settle(&mut store, 1).unwrap();
    reference::day(&store, 1).unwrap().rain
}

const IS_DRY: &str = "32360 62704";

/// "Its days come out without a total": now the total is 0 where both halves end in a dry slot.
#[test]
fn the_total_of_a_dry_day() {
    assert_eq!(total(&[4, 8].map(|slot| (slot, IS_DRY))), Some(0));
    assert_eq!(total(&[0, 1, 2, 3, 4, 5, 6, 7, 8].map(|slot| (slot, IS_DRY))), Some(0));
    assert_eq!(total(&[0, 2, 6, 8].map(|slot| (slot, IS_DRY))), None);
    assert_eq!(total(&[(4, IS_DRY), (8, "12360 62704 60032")]), Some(30));
    // Slot 8 alone over 6 hours, or without a value.
    assert_eq!(total(&[(2, IS_DRY), (4, IS_DRY), (6, IS_DRY), (8, "12360 62704 60031")]), Some(30));
    assert_eq!(total(&[(4, IS_DRY), (8, "32360 62704 6////")]), None);
    let mut store = with_rain(&[(4, IS_DRY)], false);
    reference::settle(&mut store, 1).unwrap();
    assert_eq!(reference::cell(&store, 1, 6, 4), Ok(read_cell(0)));
}

/// "A half that ends in a slot with iR 3, R 0 and tR 2 is the R of the slot six hours before where that slot has tR 1, so
/// that a shower reported at noon is not lost."
#[test]
fn a_shower_is_not_lost() {
    for (before, end, other) in [(2, 4, 8), (6, 8, 4)] {
        let day = |noon: &str, last: &str| total(&[(before, noon), (end, last), (other, IS_DRY)]);
        for last in [IS_DRY, "32360 62704 69902", "32360 62704 333 69902"] {
            assert_eq!(day("12360 62704 60031", last), Some(30), "{last}");
            // Its own iR does not matter.
            for ir in ['0', '2', '3', '4', '/'] {
                assert_eq!(day(&format!("{ir}2360 62704 333 69951"), last), Some(5), "{last}");
            }
            // Not tR 1 there; R missing, which leaves tR 0; R discarded; at the limit; nothing filed.
            assert_eq!(day("12360 62704 60032", last), Some(0), "{last}");
            assert_eq!(day("12360 62704 6003/", last), Some(0), "{last}");
            assert_eq!(day("12360 62704 6///1", last), Some(0), "{last}");
            assert_eq!(day("12360 62704 65011", last), None, "{last}");
            assert_eq!(day("12360 62704 65001", last), Some(5000), "{last}");
            assert_eq!(total(&[(end, last), (other, IS_DRY)]), Some(0), "{last}");
        }
        // Not iR 3, R not 0, or R discarded: as before.
        assert_eq!(day("12360 62704 60031", "12360 62704 69902"), Some(0));
        assert_eq!(day("12360 62704 60031", "32360 62704 60022"), Some(20));
        assert_eq!(day("12360 62704 60031", "32360 62704 65012"), None);
        // tR 1 at both ends: the sum, as before.
        assert_eq!(day("12360 62704 60031", "32360 62704 69901"), Some(30));
        assert_eq!(day("12360 62704 60031", "32360 62704 60011"), Some(40));
        // A dry slot six hours before.
        assert_eq!(day(IS_DRY, "12360 62704 60011"), Some(10));
        assert_eq!(day(IS_DRY, IS_DRY), Some(0));
    }
    // Three hours before, and the night before, do not matter.
    let noise = ["12360 62704 60031"; 4];
    assert_eq!(total(&[(0, noise[0]), (3, noise[1]), (4, IS_DRY), (7, noise[2]), (8, IS_DRY)]), Some(0));
}

/// "R of slot 8 if its tR is 4" still comes first.
#[test]
fn a_dry_day_of_24_hours() {
    let (shower, rain) = ("12360 62704 60031", "12360 62704 60074");
    assert_eq!(total(&[(2, shower), (4, IS_DRY), (6, shower), (8, rain)]), Some(70));
    assert_eq!(total(&[(2, shower), (4, IS_DRY), (6, shower), (8, "32360 62704 69904")]), Some(0));
    assert_eq!(total(&[(2, shower), (4, IS_DRY), (6, shower), (8, "32360 62704 65014")]), None);
    assert_eq!(total(&[(2, shower), (4, IS_DRY), (6, shower), (8, IS_DRY)]), Some(60));
}

/// By hand: the head's iR and tR and the checked R decide, wherever they came from. Neither filed nor the raw R matters,
/// nor R's state and flag.
#[test]
fn the_halves_of_any_store() {
    let made = |before: (u8, Cell), end: (u8, u8, Cell)| {
        let mut store = opened(&[1]);
        store::set_settling(&mut store, 0, Settling::Settled);
        let block = store::block_mut(&mut store, 0);
        let mut sheet = [[Cell::MISSING; 9]; 9];
        for (slot, (ir, tr, cell)) in [(2, (5, before.0, before.1)), (4, end), (8, (0, 2, read_cell(1)))] {
            store::put_head(block, slot, Head { ir, tr, ..Head::UNFILED });
            sheet[slot][store::R] = cell;
        }
        store::put_checked(block, &sheet);
        reference::day(&store, 1).unwrap().rain
    };
    let shower = (1, Cell { state: 3, flag: 2, value: -7 });
    for (state, flag) in (1..=3).flat_map(|state| (0..=4).map(move |flag| (state, flag))) {
        let end = |value| Cell { state, flag, value };
        assert_eq!(made(shower, (3, 2, end(0))), Some(-6));
        assert_eq!(made(shower, (3, 2, end(-1))), Some(0));
        assert_eq!(made((1, Cell { state: 0, flag, value: 0 }), (3, 2, end(0))), None);
        for ir in [0, 1, 2, 4, 5] {
            assert_eq!(made(shower, (ir, 2, end(0))), Some(1), "{ir}");
        }
        for tr in [0, 3, 4, 5, 6, 7, 8, 9] {
            assert_eq!(made(shower, (3, tr, end(0))), None, "{tr}");
        }
    }
    for tr in [0, 2, 3, 4, 5, 6, 7, 8, 9] {
        assert_eq!(made((tr, shower.1), (3, 2, read_cell(0))), Some(1), "{tr}");
    }
    assert_eq!(made(shower, (3, 2, Cell::MISSING)), None);
}

/// A dry report of a higher rank takes the place of rain, and rain that of a dry one.
#[test]
fn a_dry_report_amended() {
    for (first, second, tr, tenths) in
        [(IS_DRY, "12360 62704 60042", 2, 40), ("12360 62704 60041", IS_DRY, 2, 0)]
    {
        let mut store = with_rain(&[(4, first)], false);
        assert_eq!(file_at(&mut store, &format!("AAXX 11181 00001 {second}="), 1), 0);
        let block = store::block(&store, 0);
        assert_eq!(store::head(block, 4).tr, tr);
        assert_eq!(store::raw_sheet(block)[4][store::R], read_cell(tenths));
    }
}

/// A dry station's day, with a shower at noon in the second line's.
#[test]
fn the_printed_day_of_a_dry_station() {
    let mut lines = DayLines::default();
    lines.feed(b"2024 4 11 40001 0 40002 0\n");
    for (station, noon) in [(40001, "32360 62704"), (40002, "12360 62704 60031")] {
        lines.feed(format!("AAXX 11121 {station} {noon}=\n").as_bytes());
        for time in ["1118", "1206"] {
            lines.feed(format!("AAXX {time}1 {station} 32360 62704=\n").as_bytes());
        }
    }
    assert_eq!(lines.finish(), "40001 0 - - 12 0 1 68\n40002 30 - - 12 0 1 68\nrefused 0\n");
}

/// Slots 0 to 4 of a day on which each step changes a cell: calm with wind, wind 0 with a direction, T with its sign
/// turned, D above T, T out of range.
const EVENTFUL: [&str; 5] = [
    "12360 60005 10060 20050",
    "12360 62700 11070",
    "12360 62704 10080 20090",
    "12360 62704 10490",
    "12360 62704 10084",
];

fn eventful() -> Vec<u8> {
    let mut store = opened(&[1, 2]);
    for (time, groups) in TIMES.iter().zip(EVENTFUL) {
        assert_eq!(file(&mut store, &format!("AAXX {time}1 00001 {groups}=")), 0);
    }
    store
}

/// A report for slot 0 that differs in all that settling looks at, and one for a free slot.
const AMENDED: &str = "AAXX 11061 00001 12360 62700 10300 20310=";
const LATE: &str = "AAXX 12061 00001 12360 60005 10300 20310=";

fn begin(store: &mut [u8], station: u32) -> u32 {
    reference::begin(store, station).map_or_else(|refusal| refusal.number(), |()| 0)
}

fn step(store: &mut [u8], station: u32) -> u32 {
    reference::step(store, station).map_or_else(|refusal| refusal.number(), |()| 0)
}

/// The first station's settled number, its copies of dd, and T, D and W of its first five slots' checked cells.
fn progress(store: &[u8]) -> (u16, [u8; 9], [[Cell; 5]; 3]) {
    let block = store::block(store, 0);
    let sheet = store::checked_sheet(block);
    let column = |element: usize| std::array::from_fn(|slot| sheet[slot][element]);
    let copies = std::array::from_fn(|slot| store::head(block, slot).dd_copy);
    (store::settling(store, 0).number(), copies, [store::T, store::D, store::W].map(column))
}

/// "Begin copies S's raw cells to its checked cells and each slot's dd to the last head byte, which internal reads and which
/// is 0 again after fill; four step calls then do range, internal, time and fill, one each."
#[test]
fn four_steps() {
    let mut store = eventful();
    let (raw, heads) =
        (store::raw_sheet(store::block(&store, 0)), store[block_at(2, 0)..][..layout::RAW].to_vec());
    let cell = |state, flag, value| Cell { state, flag, value };
    let none = Cell::MISSING;
    let mut t = [60, -70, 80, 490, 84].map(read_cell);
    let mut d = [read_cell(50), none, read_cell(90), none, none];
    let mut w = [50, 0, 40, 40, 40].map(read_cell);
    let copies = [0, 27, 27, 27, 27, 100, 100, 100, 100];
    assert_eq!(begin(&mut store, 1), 0);
    assert_eq!(progress(&store), (2, copies, [t, d, w]));
    assert_eq!(store::checked_sheet(store::block(&store, 0)), raw);
    // Lowland warm: −70 is below min1, 490 above max2.
    (t[1], t[3]) = (cell(1, 4, -70), cell(0, 1, 0));
    assert_eq!(step(&mut store, 1), 0);
    assert_eq!(progress(&store), (3, copies, [t, d, w]));
    (w[0].flag, w[1].flag, d[2]) = (4, 4, cell(0, 2, 0));
    assert_eq!(step(&mut store, 1), 0);
    assert_eq!(progress(&store), (4, copies, [t, d, w]));
    t[1] = cell(2, 3, 70);
    assert_eq!(step(&mut store, 1), 0);
    assert_eq!(progress(&store), (5, copies, [t, d, w]));
    // floor((80 + 84 + 1) / 2).
    t[3] = cell(3, 1, 82);
    assert_eq!(step(&mut store, 1), 0);
    assert_eq!(progress(&store), (1, [0; 9], [t, d, w]));
    assert_eq!(store[block_at(2, 0)..][..layout::RAW], heads);
    let mut settled = eventful();
    reference::settle(&mut settled, 1).unwrap();
    assert_eq!(store, settled);
}

/// "Reports for S may be filed in between. They go to head and raw cells and do not touch the settling. When the fourth step
/// ends, the checked cells are those of the raw cells and dd at begin, and S is settled exactly if no report for S but NIL
/// was accepted since."
#[test]
fn a_report_between_steps() {
    let mut alone = eventful();
    reference::settle(&mut alone, 1).unwrap();
    for (made, report) in (0..4).flat_map(|made| [AMENDED, LATE].map(|report| (made, report))) {
        for by_bulletin in [false, true] {
            let mut store = eventful();
            assert_eq!(begin(&mut store, 1), 0);
            (0..made).for_each(|_| assert_eq!(step(&mut store, 1), 0));
            let before = progress(&store);
            if by_bulletin {
                let tally = reference::bulletin(&mut store, report.as_bytes(), 1).unwrap();
                assert_eq!(tally, Tally { accepted: 1, refused: 0 });
            } else {
                assert_eq!(file_at(&mut store, report, 1), 0);
            }
            // 2 to 5 become 6 to 9; copies and checked cells stay, head and raw cells are the report's.
            assert_eq!(progress(&store), (before.0 + 4, before.1, before.2), "{made} {report}");
            let mut filed = eventful();
            assert_eq!(file_at(&mut filed, report, 1), 0);
            // Another one changes no number.
            assert_eq!(file_at(&mut store, report, 2), 0);
            assert_eq!(file_at(&mut filed, report, 2), 0);
            assert_eq!(progress(&store).0, before.0 + 4);
            (made..4).for_each(|_| assert_eq!(step(&mut store, 1), 0));
            assert_eq!(reference::day(&store, 1).unwrap_err().number(), 11);
            assert_eq!(progress(&store), (0, [0; 9], progress(&alone).2), "{made} {report}");
            // But for the checked cells it is the store with the reports alone.
            let checked = store::checked_sheet(store::block(&alone, 0));
            store::put_checked(store::block_mut(&mut filed, 0), &checked);
            assert_eq!(store, filed, "{made} {report}");
        }
    }
}

/// NIL, refused reports and another station's do not touch a settling under way, nor whether it settles.
#[test]
fn what_is_no_report_between_steps() {
    let others = [
        (NIL, 0, 0),
        (NIL, 24, 0),
        (NIL, 25, 13),
        (AMENDED, 0, 8),
        (LATE, 25, 13),
        ("AAXX 11071 00001 12360 62704=", 0, 7),
        ("AAXX 11061 00001 12360=", 0, 5),
    ];
    for made in 0..4 {
        let mut store = eventful();
        assert_eq!(begin(&mut store, 1), 0);
        (0..made).for_each(|_| assert_eq!(step(&mut store, 1), 0));
        let before = store.clone();
        for (text, rank, number) in others {
            assert_eq!(file_at(&mut store, text, rank), number, "{text} {rank}");
            assert_eq!(store, before);
        }
        let second = AMENDED.replace("00001", "00002");
        assert_eq!(file(&mut store, &second), 0);
        assert_eq!(begin(&mut store, 2), 0);
        assert_eq!(progress(&store), progress(&before));
        (made..4).for_each(|_| assert_eq!(step(&mut store, 1), 0));
        let number = |index: usize| store::settling(&store, index).number();
        assert_eq!([number(0), number(1)], [1, 2]);
    }
}

/// "Beginning again restarts. The one-call settle equals begin and four steps, and drops a settling under way." A cell and a
/// day line are there at settled number 1 alone.
#[test]
fn begun_again_and_dropped() {
    for (made, reported) in (0..4).flat_map(|made| [false, true].map(|reported| (made, reported))) {
        let mut store = eventful();
        assert_eq!(begin(&mut store, 1), 0);
        if reported {
            assert_eq!(file_at(&mut store, AMENDED, 1), 0);
        }
        (0..made).for_each(|_| assert_eq!(step(&mut store, 1), 0));
        assert_eq!(progress(&store).0, 2 + made + if reported { 4 } else { 0 });
        assert_eq!(reference::cell(&store, 1, 0, 0).unwrap_err().number(), 11);
        assert_eq!(reference::cell(&store, 1, 9, 0).unwrap_err().number(), 12);
        assert_eq!(reference::day(&store, 1).unwrap_err().number(), 11);
        let mut filed = eventful();
        if reported {
            assert_eq!(file_at(&mut filed, AMENDED, 1), 0);
        }
        let (mut again, mut settled) = (store.clone(), store);
        assert_eq!([begin(&mut again, 1), begin(&mut filed, 1)], [0, 0]);
        assert_eq!(again, filed);
        (0..4).for_each(|_| assert_eq!(step(&mut again, 1), 0));
        reference::settle(&mut settled, 1).unwrap();
        assert_eq!(settled, again);
        assert_eq!(step(&mut settled, 1), 14);
        assert!(reference::day(&settled, 1).is_ok());
        // Settled before, and begun: no longer.
        assert_eq!(begin(&mut settled, 1), 0);
        assert_eq!(reference::day(&settled, 1).unwrap_err().number(), 11);
    }
}

/// "Refused: 14, a step with no settling under way, tested after 9 and 6."
#[test]
fn refused_steps() {
    let mut store = eventful();
    assert_eq!([step(&mut store, 1), step(&mut store, 3)], [14, 6]);
    assert_eq!([step(&mut [], 1), begin(&mut [], 1)], [9, 9]);
    assert_eq!(begin(&mut store, 3), 6);
    assert_eq!(begin(&mut store, 2), 0);
    assert_eq!([step(&mut store, 1), step(&mut store, 3)], [14, 6]);
    assert_eq!(store::settling(&store, 0), Settling::Unsettled);
    (0..4).for_each(|_| assert_eq!(step(&mut store, 2), 0));
    let before = store.clone();
    assert_eq!(step(&mut store, 2), 14);
    assert_eq!(store, before);
}

/// On sound stores of every kind, at every settled number.
#[test]
fn settle_is_begin_and_four_steps() {
    let rng = &mut Rng::new(6);
    let mut numbers = [0; 10];
    for _ in 0..300 {
        let opening = Opening::good(rng);
        let store = hand_made(rng, &opening);
        for (index, &station) in opening.stations.iter().enumerate() {
            numbers[store::settling(&store, index).number() as usize] += 1;
            let (mut one, mut five) = (store.clone(), store.clone());
            reference::settle(&mut one, station).unwrap();
            assert_eq!(begin(&mut five, station), 0);
            (0..4).for_each(|_| assert_eq!(step(&mut five, station), 0));
            assert!(one == five, "{opening:?} {station}");
        }
    }
    assert!(numbers.iter().all(|&times| times > 0), "{numbers:?}");
}

/// "In a sound buffer it holds a dd, 0 to 36, 99 or 100, while a settling is under way, else 0": in every slot, filed or not,
/// whatever the head's dd is, and by the station's own settled number.
#[test]
fn where_a_copy_of_dd_is_sound() {
    let fresh = eventful();
    for (settled, slot) in (0..=10).flat_map(|settled| (0..9).map(move |slot| (settled, slot))) {
        for copy in 0..=255 {
            let mut store = fresh.clone();
            let edits = [
                Record::Entry { index: 0 }.edit(2, layout::SETTLED, settled),
                Record::Entry { index: 1 }.edit(2, layout::SETTLED, 2),
                Record::Head { index: 0, slot }.edit(2, layout::DD_COPY, copy),
            ];
            edits.concat().into_iter().for_each(|(at, byte)| store[at] = byte);
            let sound = match settled {
                0 | 1 => copy == 0,
                2..=9 => matches!(copy, 0..=36 | 99 | 100),
                _ => false,
            };
            assert_eq!(store::sound(&store), sound, "{settled} {slot} {copy}");
        }
    }
}

/// By hand: T and D of three slots, and the flags of W, after the step that is due. The copies of dd are 0, 1, 36, 99 and
/// 100, with W 10 and four times 0, filled with flag 1.
fn stepped(settled: u16, cells: [[Cell; 3]; 2]) -> (Vec<Cell>, Vec<Cell>, [u8; 5]) {
    let mut store = opened(&[1]);
    store::set_settling(&mut store, 0, Settling::from_number(settled).unwrap());
    let block = store::block_mut(&mut store, 0);
    store::put_dd_copies(block, [0, 1, 36, 99, 100, 0, 0, 0, 0]);
    let mut sheet = [[Cell::MISSING; 9]; 9];
    for slot in 0..3 {
        (sheet[slot][store::T], sheet[slot][store::D]) = (cells[0][slot], cells[1][slot]);
    }
    for (slot, value) in (0..5).zip([10, 0, 0, 0, 0]) {
        sheet[slot][store::W] = Cell { state: 3, flag: 1, value };
    }
    store::put_checked(block, &sheet);
    assert_eq!(step(&mut store, 1), 0);
    let (number, _, [t, d, w]) = progress(&store);
    assert_eq!(number, [3, 4, 5, 1, 7, 8, 9, 0][settled as usize - 2]);
    (t[..3].to_vec(), d[..3].to_vec(), w.map(|cell| cell.flag))
}

/// A step works on the checked cells that are there: those of states 2 and 3 are present, one of state 4 is passed over, and
/// internal reads the copy of dd.
#[test]
fn steps_over_any_cells() {
    let cell = |state, flag, value| Cell { state, flag, value };
    let t = [cell(2, 0, 100), cell(3, 2, 481), cell(2, 3, 381)];
    let d = [cell(4, 0, 100), cell(3, 4, 301), cell(4, 2, 1)];
    for settled in [2, 6] {
        let (range_t, range_d, wind) = stepped(settled, [t, d]);
        assert_eq!(range_t, [t[0], cell(0, 1, 0), cell(2, 4, 381)]);
        assert_eq!((range_d, wind), (d.to_vec(), [1; 5]));
    }
    for settled in [3, 7] {
        let humid = [cell(4, 0, 100), cell(2, 1, 482), cell(3, 0, 380)];
        let (_, internal_d, wind) = stepped(settled, [t, humid]);
        assert_eq!(internal_d, [humid[0], cell(0, 2, 0), humid[2]]);
        assert_eq!(wind, [4, 4, 4, 1, 1]);
    }
    for settled in [4, 8] {
        let turned = [cell(3, 0, 60), cell(2, 1, -70), cell(2, 4, 80)];
        let (time_t, time_d, _) = stepped(settled, [turned, d]);
        assert_eq!(time_t, [turned[0], cell(2, 3, 70), turned[2]]);
        assert_eq!(time_d, d);
    }
    for settled in [5, 9] {
        let hole = [cell(3, 0, 60), cell(0, 2, 0), cell(2, 4, 81)];
        let (fill_t, fill_d, _) = stepped(settled, [hole, [cell(3, 0, 60), cell(0, 2, 0), cell(4, 0, 81)]]);
        assert_eq!(fill_t[1], cell(3, 2, 71));
        assert_eq!(fill_d[1], cell(0, 2, 0));
    }
}

/// Two runs with the same calls for a station answer them alike and leave the same records, whatever is begun, stepped and
/// filed for another meanwhile.
#[test]
fn runs_in_portions() {
    let run = |stations: &[u32], others: usize| {
        let mut store = opened(stations);
        let mut answers = Vec::new();
        let calls = "sbfssnsssdbssfbsssbssssd".chars().enumerate();
        for (turn, call) in calls {
            for other in 0..others {
                match (turn + other) % 3 {
                    0 => begin(&mut store, 2),
                    1 => step(&mut store, 2),
                    _ => file_at(&mut store, &AMENDED.replace("00001", "00002"), (turn % 25) as u32),
                };
            }
            answers.push(match call {
                'b' => begin(&mut store, 1),
                's' => step(&mut store, 1),
                'f' => file_at(&mut store, AMENDED, turn as u32),
                'n' => file(&mut store, NIL),
                _ => reference::day(&store, 1).map_or_else(|refusal| refusal.number(), |_| 0),
            });
        }
        let n = stations.len();
        let entry = store[entry_at(0)..entry_at(1)].to_vec();
        (answers, entry, store[block_at(n, 0)..block_at(n, 1)].to_vec())
    };
    let alone = run(&[1], 0);
    assert_eq!(alone.0[..10], [14, 0, 0, 0, 0, 0, 0, 0, 14, 11]);
    assert_eq!(alone.0[10..], [0; 14]);
    for others in 1..=5 {
        assert_eq!(run(&[1, 2], others), alone, "{others}");
    }
}

/// A settled store made by hand, with these as T's checked cells.
fn with_temperatures(cells: [Cell; 9]) -> Vec<u8> {
    let mut store = opened(&[1]);
    store::set_settling(&mut store, 0, Settling::Settled);
    let mut sheet = [[Cell::MISSING; 9]; 9];
    for (slot, cell) in cells.into_iter().enumerate() {
        sheet[slot][store::T] = cell;
    }
    store::put_checked(store::block_mut(&mut store, 0), &sheet);
    store
}

/// The warmest and the coldest slot.
fn extremes(store: &[u8]) -> [Option<u8>; 2] {
    let line = reference::day(store, 1).unwrap();
    [line.warmest, line.coldest]
}

/// The same of nine temperatures that were read.
fn extremes_of(temperatures: [i16; 9]) -> [Option<u8>; 2] {
    extremes(&with_temperatures(temperatures.map(read_cell)))
}

/// "Among equal temperatures the warmest slot is now the latest. The coldest slot keeps the earliest." Slot 8 does not count,
/// be it equal, hotter or colder.
#[test]
fn the_warmest_is_the_latest() {
    for t in [-32767, -101, -1, 0, 1, 103, 32767] {
        assert_eq!(extremes_of([t; 9]), [Some(7), Some(0)], "{t}");
    }
    for last in [-400, -20, 0, 30, 400] {
        assert_eq!(extremes_of([30, -20, 0, 30, 0, -20, 0, 0, last]), [Some(3), Some(1)], "{last}");
        assert_eq!(extremes_of([30, 0, -20, -20, 0, 0, 0, 30, last]), [Some(7), Some(2)], "{last}");
        assert_eq!(extremes_of([-20, 30, 30, 30, 0, 0, 0, -20, last]), [Some(3), Some(0)], "{last}");
        assert_eq!(extremes_of([-20, 30, 0, 30, 30, 0, 0, 0, last]), [Some(4), Some(0)], "{last}");
        assert_eq!(extremes_of([-20, 0, 0, 0, 0, 0, 0, 30, last]), [Some(7), Some(0)], "{last}");
    }
    // Every two slots that share the highest, or the lowest, T.
    for (a, b) in (0..8).flat_map(|b| (0..b).map(move |a| (a, b))) {
        let two = |t: i16| std::array::from_fn(|slot| if slot == a || slot == b { t } else { slot as i16 });
        assert_eq!(extremes_of(two(50))[0], Some(b as u8), "{a} {b}");
        assert_eq!(extremes_of(two(-50))[1], Some(a as u8), "{a} {b}");
    }
}

/// A T that was corrected or filled is as good as one that was read, whatever the flags; a missing one is none.
#[test]
fn ties_of_mended_cells() {
    let states = (1..=3).flat_map(|a| (1..=3).flat_map(move |b| (0..=4).map(move |flag| (a, b, flag))));
    for (a, b, flag) in states {
        for (t, others) in [(100, 99), (-100, -99), (0, -1), (0, 1)] {
            let mut cells = [read_cell(others); 9];
            (cells[2], cells[5]) =
                (Cell { state: a, flag, value: t }, Cell { state: b, flag: 4 - flag, value: t });
            cells[3] = Cell { flag, ..Cell::MISSING };
            let right = if t > others { [Some(5), Some(0)] } else { [Some(7), Some(2)] };
            assert_eq!(extremes(&with_temperatures(cells)), right, "{a} {b} {flag} {t}");
        }
    }
}

/// One T of slots 0 to 7 is both; absent without any.
#[test]
fn one_temperature_or_none() {
    for last in [Cell::MISSING, read_cell(-1), read_cell(0), read_cell(1)] {
        let mut cells = [Cell::MISSING; 9];
        cells[8] = last;
        assert_eq!(extremes(&with_temperatures(cells)), [None, None]);
        for slot in 0..8 {
            let mut cells = cells;
            cells[slot] = read_cell(0);
            assert_eq!(extremes(&with_temperatures(cells)), [Some(slot as u8); 2], "{slot}");
        }
    }
}

/// Ties that settling makes: slot 4 is corrected to 7.0 °C; slots 1 and 7 are filled; 48.1 °C at slot 7 is discarded.
#[test]
fn ties_of_settled_reports() {
    let turned = ["10070", "10055", "10065", "10070", "11070", "10065", "10060", "10055", "10080"];
    assert_eq!(temperature(&settled(&turned), 4), Cell { state: 2, flag: 3, value: 70 });
    assert_eq!(extremes(&settled(&turned)), [Some(4), Some(1)]);
    let gaps = settled(&["10050", "", "10050", "10040", "10040", "10040", "10050", "", "10050"]);
    assert_eq!(temperature(&gaps, 7), Cell { state: 3, flag: 0, value: 50 });
    assert_eq!(extremes(&gaps), [Some(7), Some(3)]);
    let hot = settled(&["10190", "10190", "10200", "10190", "10190", "10200", "10190", "10481"]);
    assert_eq!(extremes(&hot), [Some(5), Some(0)]);
}

#[test]
fn checks_in_order() {
    let number = |text: &[u8]| report::read(text).err().map_or(0, |refusal| refusal.number());
    // 3 in the last group comes before 4 and 5 in the earlier ones.
    assert_eq!(number(b"AAXX 11062 00000 333 333 1="), 3);
    assert_eq!(number(b"AAXX 11062 00000 333 333="), 4);
    assert_eq!(number(b"AAXX 11061 00001 333 333="), 5);
    assert_eq!(number(b"AAXX 11061 00001 12360 62799 00120 222// 00120 333 444 555="), 0);
    assert_eq!(number(b"AAXX 11061 00001 12360 62798 00120="), 5);
}

#[test]
fn means() {
    let eight = ["10060 20055"; 6];
    let store = &mut settled(&eight);
    assert_eq!(reference::day(store, 1).unwrap().means[0], Mean::Absent);
    for text in ["12001", "12061"] {
        assert_eq!(file(store, &format!("AAXX {text} 00001 42999 00000 10061=")), 0);
    }
    assert_eq!(reference::day(store, 1).unwrap_err().number(), 11);
    reference::settle(store, 1).unwrap();
    // Slot 7 is filled with floor((61 + 61 + 1) / 2).
    assert_eq!(temperature(store, 7), Cell { state: 3, flag: 0, value: 61 });
    assert_eq!(reference::day(store, 1).unwrap().means[0], Mean::Mended(60.25));
}

#[test]
fn the_printed_day() {
    let input = b"2024 4 11 40001 0\nAAXX 11061 40001 12360 62704 10103 20071 40132 60042=\n";
    // The pieces in which the input comes make no difference.
    for size in [1, 7, input.len()] {
        let mut lines = DayLines::default();
        input.chunks(size).for_each(|piece| lines.feed(piece));
        assert_eq!(lines.finish(), "40001 - 0 0 7 0 0 74\nrefused 0\n");
    }
}

/// The same with a humidity, which counts as read, and with 29000, which is missing.
#[test]
fn the_printed_day_with_29uuu() {
    for (group, counts) in [("29080", "7 0 0 74"), ("29000", "6 0 0 75")] {
        let mut lines = DayLines::default();
        lines.feed(b"2024 4 11 40001 0\n");
        lines.feed(format!("AAXX 11061 40001 12360 62704 10103 {group} 40132 60042=\n").as_bytes());
        assert_eq!(lines.finish(), format!("40001 - 0 0 {counts}\nrefused 0\n"));
    }
}

/// "The store": for each field what it may hold, and what makes the store unsound.
#[test]
fn what_is_sound() {
    let fresh = opened(&[10, 20]);
    let sound_with = |record: Record, numbers: &[(Field, i32)]| {
        let mut store = fresh.clone();
        for &(field, number) in numbers {
            record.edit(2, field, number as u32).into_iter().for_each(|(at, byte)| store[at] = byte);
        }
        store::sound(&store)
    };
    let check = |record: Record, field: Field, sound: &[i32], unsound: &[i32]| {
        for (numbers, verdict) in [(sound, true), (unsound, false)] {
            for &number in numbers {
                assert_eq!(
                    sound_with(record, &[(field, number)]),
                    verdict,
                    "{record:?} {} {number}",
                    field.name
                );
            }
        }
    };
    let [list, blocks, block] = [entry_at(0), block_at(2, 0), layout::BLOCK].map(|number| number as i32);
    check(Record::Header, layout::N, &[2], &[0, 1, 3, 32, 33, 512]);
    check(Record::Header, layout::LIST_OFFSET, &[list], &[0, list - 1, list + 1, list << 8]);
    check(Record::Header, layout::BLOCK_OFFSET, &[blocks], &[0, blocks - 1, blocks + 1, blocks << 8]);
    check(Record::Header, layout::BLOCK_LENGTH, &[block], &[0, block - 1, block + 1]);
    check(Record::Header, layout::YEAR, &[2000, 2024, 2099], &[0, 1999, 2100, 65535]);
    check(Record::Header, layout::MONTH, &[1, 4, 12], &[0, 13, 256 + 4]);
    check(Record::Header, layout::DAY, &[1, 30], &[0, 31, 256 + 1]);
    check(Record::Header, layout::ZERO, &[0], &[1, 256, 65535]);
    check(Record::Entry { index: 0 }, layout::NUMBER, &[1, 19], &[0, 20, 21, 65536 + 1]);
    check(Record::Entry { index: 1 }, layout::NUMBER, &[11, 65535, 65536, 99999], &[0, 9, 10, 100000, -1]);
    for index in [0, 1] {
        let entry = Record::Entry { index };
        check(entry, layout::ROW, &[0, 1], &[2, 256, 65535]);
        check(entry, layout::SETTLED, &[0, 1, 2, 5, 6, 9], &[10, 255, 256, 257, 258, 65535]);
        for slot in [0, 8] {
            let head = Record::Head { index, slot };
            check(head, layout::FILED, &[0, 1], &[2, 255]);
            check(head, layout::IR, &[0, 4, 5], &[6, 255]);
            check(head, layout::TR, &[0, 1, 9], &[10, 255]);
            check(head, layout::DD, &[0, 1, 36, 99, 100], &[37, 98, 101, 255]);
            check(head, layout::DD_COPY, &[0], &[1, 36, 99, 100, 255]);
            for (filed, ranks) in [(0, 0..=0), (1, 0..=24)] {
                for rank in 0..=255 {
                    let numbers = [(layout::FILED, filed), (layout::RANK, rank)];
                    assert_eq!(sound_with(head, &numbers), ranks.contains(&rank), "{head:?} {filed} {rank}");
                }
            }
            let (raw, checked) =
                (Record::Raw { index, element: slot, slot }, Record::Checked { index, element: slot, slot });
            for (cell, states, flags) in [(raw, 0..=1, 0..=0), (checked, 0..=3, 0..=4)] {
                for (state, flag) in (0..=4).flat_map(|state| [0, 1, 4, 5].map(|flag| (state, flag))) {
                    for value in [0, 1, -1, 32767, -32767, -32768] {
                        let numbers = [(layout::STATE, state), (layout::FLAG, flag), (layout::VALUE, value)];
                        let sound = states.contains(&state) && flags.contains(&flag);
                        let sound = sound && value != -32768 && (state != 0 || value == 0);
                        assert_eq!(sound_with(cell, &numbers), sound, "{cell:?} {state} {flag} {value}");
                    }
                }
            }
        }
    }
    assert!((0..fresh.len()).all(|length| !store::sound(&fresh[..length])));
    assert!(!store::sound(&[&fresh[..], &[0]].concat()));
}

#[test]
fn a_refusal_changes_no_byte() {
    let mut store = Vec::new();
    let mut refused = 0;
    for seed in 0..500 {
        for step in episode(seed) {
            let call = match step {
                Step::Lend(buffer) => {
                    store = buffer;
                    continue;
                }
                Step::Call(call) => call,
                Step::Damaged { edits, call } => {
                    edits.iter().for_each(|&(at, byte)| store[at] = byte);
                    call
                }
            };
            let before = store.clone();
            let answer = call.make(&Reference, &mut store);
            if let Call::VapourTable { entries } = &call {
                assert_eq!((answer.number == 0, &store), (entries.len() == 1001, &before), "{call}");
                assert!(answer.number == 0 || answer.entries == *entries, "{call}");
                continue;
            }
            let sound = store::sound(&store);
            if answer.number != 0 {
                assert_eq!(store, before, "{call}");
                refused += 1;
            } else {
                assert!(sound, "{call}");
            }
            assert_eq!(answer.number == 9, !sound && call.name() != "open", "{call}");
        }
    }
    assert!(refused > 1000);
}
