//! The transcripts, on the reference and, where there is one, on the engine.

use reading::calls::{Calls, Reference};
use reading::reference::layout::{store_length, Record, DD_COPY, SETTLED};
use reading::reference::store::{self, Cell, Settling, Step, W};
use reading::reference::{report, settle, values};
use reading::transcript::texts::{self, Heading};
use reading::transcript::{cells, check, compared_lines};

const TRANSCRIPTS: [[&str; 2]; 2] = [
    [include_str!("../data/transcripts/reports.in"), include_str!("../data/transcripts/reports.out")],
    [include_str!("../data/transcripts/stores.in"), include_str!("../data/transcripts/stores.out")],
];

/// Texts and what each says.
const TEXTS: &[u8] = include_bytes!("../data/transcripts/texts.in");
const SAID: &str = include_str!("../data/transcripts/texts.out");

/// Cells through the checks.
const CELLS: [&str; 2] =
    [include_str!("../data/transcripts/cells.in"), include_str!("../data/transcripts/cells.out")];

fn no_difference((printed, differences): (usize, Vec<String>)) {
    assert!(
        differences.is_empty(),
        "{} of {printed} lines differ\n{}",
        differences.len(),
        differences.join("\n")
    );
    assert!(printed > 0);
}

fn as_expected(calls: &dyn Calls) {
    for [lines, expected] in TRANSCRIPTS {
        no_difference(check(calls, lines, expected));
    }
    no_difference(texts::check(calls, TEXTS, SAID));
    no_difference(cells::check(calls, CELLS[0], CELLS[1]));
}

#[test]
fn on_the_reference() {
    as_expected(&Reference);
}

#[test]
#[cfg(feature = "engine")]
fn on_the_engine() {
    as_expected(&reading::fence::Fenced::new(&reading::Engine));
}

/// What the reading itself reads of each text, with no store: also the hours that no slot has and those of NILs, of which
/// the calls show less.
#[test]
fn texts_as_read() {
    no_difference(compared_lines(&texts::printed(TEXTS, read), SAID));
}

fn read(text: &[u8]) -> String {
    let report = match report::read(text) {
        Ok(report) => report,
        Err(refusal) => return refusal.number().to_string(),
    };
    let heading = Heading { station: report.station, day: report.yy, hour: report.gg };
    let Some(observation) = report.observation else { return format!("NIL {heading}") };
    let sent = observation.section1[6].or(observation.section3[6]).is_some();
    // At slot 1 the R of a dry station stays absent.
    let (head, cells) = values::slot(1, report.iw, &observation, 0);
    texts::whole(heading, &head, sent, &cells)
}

/// The step internal for a direction of 37, which is in no sound store: a report's 37 becomes 100 before it.
#[test]
fn a_wind_of_37() {
    let mut held = 0;
    for line in CELLS[1].lines().filter(|line| line.starts_with("wind 37 ")) {
        let numbers: Vec<i16> = line.split(' ').skip(2).map(|word| word.parse().unwrap()).collect();
        let cell = |at: usize| Cell {
            state: numbers[at] as u8,
            flag: numbers[at + 1] as u8,
            value: numbers[at + 2],
        };
        let mut store = vec![0; store_length(1)];
        assert_eq!(Reference.open(&mut store, 2024, 1, 15, &[40001], &[0]), 0);
        let mut sheet = store::checked_sheet(store::block(&store, 0));
        sheet[0][W] = cell(0);
        store::put_checked(store::block_mut(&mut store, 0), &sheet);
        let due = Settling::UnderWay { due: Step::Internal, reported: false };
        let edits = [
            Record::Entry { index: 0 }.edit(1, SETTLED, due.number().into()),
            Record::Head { index: 0, slot: 0 }.edit(1, DD_COPY, 37),
        ];
        edits.concat().into_iter().for_each(|(at, byte)| store[at] = byte);
        assert_eq!(settle::step(&mut store, 0), Ok(()));
        assert_eq!(store::checked_cell(store::block(&store, 0), W, 0), cell(3), "{line}");
        held += 1;
    }
    assert_eq!(held, 5);
}

/// Another answer, another buffer, a line too many and one too few are told of.
#[test]
fn differences_are_told() {
    let differing = |expected: &str| check(&Reference, "lend 3 bytes\nday 1", expected).1.len();
    assert_eq!(differing("lend 3 bytes\nday 1 -> 9, store as it was"), 0);
    assert_eq!(differing("lend 3 bytes\nday 1 -> 6, store as it was"), 1);
    assert_eq!(differing("lend 3 bytes\nday 1 -> 9, bytes changed 1, from 0 to 0"), 1);
    assert_eq!(differing("lend 3 bytes"), 1);
    assert_eq!(differing("lend 3 bytes\nday 1 -> 9, store as it was\nday 1 -> 9, store as it was"), 1);
}
