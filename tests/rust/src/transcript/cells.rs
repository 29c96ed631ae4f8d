//! Cells through the checks (`data/transcripts/cells.in` and `cells.out`). A value is a number, or `-` for a missing one,
//! and a cell is printed as its state, flag and value. A line is one of
//!
//! ```text
//! limit T lowland cold V V V   three values of an element, each before and after the step range, in a climate row and season
//! pair A B                     A as T and B as D, and D after the step internal; then 1 where that step, of A as X of slot 4
//!                              and B as M of slot 0, gives both flag 4, and 0 where it leaves them
//! wind DD W                    a report's wind direction, 100 for `//`, and W before and after the step internal
//! column V V V V V V V V V     four lines: the column as begin leaves it; after the step time as T, which mends, and as D and
//!                              P, which do not; after the step fill as T, D, P and W
//! # a comment                  of which nothing is printed
//! ```

use super::compared_lines;
use crate::calls::Calls;
use crate::reference::layout::{store_length, Record, SETTLED};
use crate::reference::store::{self, Cell, Sheet, Step, D, ELEMENTS, M, P, T, W, X};

/// What the calls make of the cells, compared with what is expected.
pub fn check(calls: &dyn Calls, lines: &str, expected: &str) -> (usize, Vec<String>) {
    compared_lines(&printed(calls, lines), expected)
}

/// What is printed for the lines.
pub fn printed(calls: &dyn Calls, lines: &str) -> Vec<String> {
    lines.lines().filter(|line| !line.starts_with('#')).flat_map(|line| line_of(calls, line)).collect()
}

fn line_of(calls: &dyn Calls, line: &str) -> Vec<String> {
    let words: Vec<&str> = line.split(' ').collect();
    match words[..] {
        ["limit", element, row, season, ref three @ ..] => {
            vec![limit(calls, element, row, season, &values(three))]
        }
        ["pair", a, b] => vec![pair(calls, value(a), value(b))],
        ["wind", dd, w] => vec![wind(calls, dd.parse().expect("a direction"), value(w))],
        ["column", ref nine @ ..] => column(calls, &values(nine)),
        _ => panic!("no such line: {line}"),
    }
}

fn limit(calls: &dyn Calls, element: &str, row: &str, season: &str, three: &[Cell]) -> String {
    let element = ELEMENTS.iter().position(|&letter| element.as_bytes() == [letter]).expect("an element");
    let case = Case {
        row: ["lowland", "hill"].iter().position(|&name| name == row).expect("a row") as u16,
        month: [("cold", 1), ("warm", 7)].iter().find(|(name, _)| *name == season).expect("a season").1,
        ..Case::new(Step::Range)
    };
    let (before, after) = case.stepped(calls, |sheet| put(sheet, element, three));
    let cells = (0..three.len()).flat_map(|slot| [before[slot][element], after[slot][element]]);
    format!("limit{}", shown(cells))
}

fn pair(calls: &dyn Calls, a: Cell, b: Cell) -> String {
    let (before, after) = Case::new(Step::Internal).stepped(calls, |sheet| {
        (sheet[4][T], sheet[4][D]) = (a, b);
        (sheet[4][X], sheet[0][M]) = (a, b);
    });
    let suspect = |cell: Cell| Cell { flag: 4, ..cell };
    let below = match (after[4][X], after[0][M]) {
        (x, m) if (x, m) == (a, b) => "0".to_string(),
        (x, m) if (x, m) == (suspect(a), suspect(b)) => "1".to_string(),
        other => format!("{other:?}"),
    };
    format!("pair{} {below}", shown([before[4][T], before[4][D], after[4][D]]))
}

/// The direction comes by a report, since a store holds none that is not 0 to 36, 99 or 100.
fn wind(calls: &dyn Calls, dd: u8, w: Cell) -> String {
    let case = Case { dd, ..Case::new(Step::Internal) };
    let (before, after) = case.stepped(calls, |sheet| sheet[0][W] = w);
    format!("wind {dd}{}", shown([before[0][W], after[0][W]]))
}

fn column(calls: &dyn Calls, nine: &[Cell]) -> Vec<String> {
    let stepped =
        |due| Case::new(due).stepped(calls, |sheet| [T, D, P, W].iter().for_each(|&e| put(sheet, e, nine)));
    let ((before, timed), (same, filled)) = (stepped(Step::Time), stepped(Step::Fill));
    assert_eq!(before, same);
    vec![
        columns(&before, &[T, D, P, W]),
        columns(&timed, &[T]),
        columns(&timed, &[D, P]),
        columns(&filled, &[T, D, P, W]),
    ]
}

/// The line of the columns of some elements: one where they are alike, else all.
fn columns(sheet: &Sheet, elements: &[usize]) -> String {
    let mut lines: Vec<String> = elements
        .iter()
        .map(|&element| format!("column{}", shown(sheet.iter().map(|cells| cells[element]))))
        .collect();
    lines.dedup();
    lines.join("; ")
}

/// A station whose cells are put by hand, and the step that it is to make.
struct Case {
    month: u32,
    row: u16,
    /// Of slot 0.
    dd: u8,
    due: Step,
}

impl Case {
    fn new(due: Step) -> Case {
        Case { month: 1, row: 0, dd: 100, due }
    }

    /// The checked cells before and after the step. They are put as raw ones and copied by begin; then the step is made the
    /// due one.
    fn stepped(&self, calls: &dyn Calls, put: impl Fn(&mut Sheet)) -> (Sheet, Sheet) {
        const STATION: u32 = 40001;
        let mut store = vec![7; store_length(1)];
        assert_eq!(calls.open(&mut store, 2024, self.month, 15, &[STATION], &[self.row]), 0);
        let dd = if self.dd == 100 { "//".to_string() } else { format!("{:02}", self.dd) };
        let text = format!("AAXX 15061 {STATION} 1//// /{dd}//=");
        assert_eq!(calls.file(&mut store, text.as_bytes(), 0), 0);
        let mut sheet = store::raw_sheet(store::block(&store, 0));
        put(&mut sheet);
        store::put_raw(store::block_mut(&mut store, 0), &sheet);
        assert_eq!(calls.begin(&mut store, STATION), 0);
        let before = store::checked_sheet(store::block(&store, 0));
        let due = store::Settling::UnderWay { due: self.due, reported: false };
        let edits = Record::Entry { index: 0 }.edit(1, SETTLED, due.number().into());
        edits.into_iter().for_each(|(at, byte)| store[at] = byte);
        assert_eq!(calls.step(&mut store, STATION), 0);
        (before, store::checked_sheet(store::block(&store, 0)))
    }
}

fn put(sheet: &mut Sheet, element: usize, cells: &[Cell]) {
    for (slot, &cell) in cells.iter().enumerate() {
        sheet[slot][element] = cell;
    }
}

fn values(words: &[&str]) -> Vec<Cell> {
    words.iter().map(|word| value(word)).collect()
}

/// A raw cell.
fn value(word: &str) -> Cell {
    Cell::raw((word != "-").then(|| word.parse().expect("a value")))
}

/// Cells, with a space before each.
fn shown(cells: impl IntoIterator<Item = Cell>) -> String {
    cells.into_iter().map(|Cell { state, flag, value }| format!(" {state} {flag} {value}")).collect()
}
