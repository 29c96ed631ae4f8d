//! Texts, one a line, and what each says (`data/transcripts/texts.in` and `texts.out`). In a line `~` stands for LF and
//! `^` for CR; one that begins with `#` is a heading, and is printed as it is. Of a text is printed
//!
//! ```text
//! 3                                                   the number of its refusal, 1 to 5
//! NIL 40001 11 06                                     station, day, hour
//! 40001 11 06 1 2 27 103 71 10132 40 6 100 40 - -     the same, then iR, tR, dd and T, D, P, W, C, V, R, X, M
//! ```
//!
//! with `-` for a missing value, `-` for tR where no group 6 was sent, and in D's place a humidity as `71%`.
//!
//! The calls show that of stores in which a text is filed (`said`).

use super::compared_lines;
use crate::calls::Calls;
use crate::reference::calendar::Date;
use crate::reference::layout::store_length;
use crate::reference::report::is_blank;
use crate::reference::store::{self, Cell, Head, HUMIDITY, R, READ};
use std::fmt;

/// A report's station, day and hour.
#[derive(Clone, Copy)]
pub struct Heading {
    pub station: u32,
    pub day: u8,
    pub hour: u8,
}

impl fmt::Display for Heading {
    fn fmt(&self, f: &mut fmt::Formatter) -> fmt::Result {
        write!(f, "{:05} {:02} {:02}", self.station, self.day, self.hour)
    }
}

/// What the calls show of the texts, compared with what is expected.
pub fn check(calls: &dyn Calls, lines: &[u8], expected: &str) -> (usize, Vec<String>) {
    compared_lines(&printed(lines, |text| said(calls, text)), expected)
}

/// What is printed for the lines, line by line, where `say` gives what a text says.
pub fn printed(lines: &[u8], say: impl Fn(&[u8]) -> String) -> Vec<String> {
    let line = |line: &[u8]| match line {
        [b'#', ..] => String::from_utf8_lossy(line).into_owned(),
        _ => say(&line.iter().map(|&byte| meant(byte)).collect::<Vec<u8>>()),
    };
    lines.strip_suffix(b"\n").unwrap_or(lines).split(|&byte| byte == b'\n').map(line).collect()
}

fn meant(byte: u8) -> u8 {
    match byte {
        b'~' => b'\n',
        b'^' => b'\r',
        _ => byte,
    }
}

/// The line of a report that is no NIL. `sent` is whether it has a group 6 that counts.
pub fn whole(heading: Heading, head: &Head, sent: bool, cells: &[Cell; 9]) -> String {
    let duration = match (sent, head.tr) {
        (false, 0) => "-".to_string(),
        (_, duration) => duration.to_string(),
    };
    let cells: Vec<String> = cells.iter().map(value).collect();
    format!("{heading} {} {duration} {} {}", head.ir, head.dd, cells.join(" "))
}

/// A raw cell. One that no report leaves is printed in full.
fn value(cell: &Cell) -> String {
    match *cell {
        Cell::MISSING => "-".to_string(),
        Cell { state: READ, flag: 0, value } => value.to_string(),
        Cell { state: HUMIDITY, flag: 0, value } => format!("{value}%"),
        other => format!("{other:?}"),
    }
}

/// What a text says, by what the calls do to stores. Its heading is taken from its digits, and holds where exactly those
/// stores take the text that have its station and, at a slot, its day and hour. The values are read where the text is
/// filed with `09` in the place of its hour: at that slot a dry station's R is absent, as in the report. Whether a group 6
/// was sent shows at 06 UTC with `3` for iR: without one R is 0 and tR 2 there. In each slot that the text goes to as it
/// is, the same has to stand, but for a dry station's R.
pub fn said(calls: &dyn Calls, text: &[u8]) -> String {
    let heading = heading(text).unwrap_or(Heading { station: 40001, day: 11, hour: 6 });
    let mut taken = Vec::new();
    for date in dates() {
        let slot = date.slot(heading.day, heading.hour);
        match (filed(calls, date, heading.station, text), slot) {
            (Err(number @ 1..=5), _) => return number.to_string(),
            (Ok(found), Some(slot)) => taken.push((slot, found)),
            (Err(7), None) => {}
            (answer, _) => return format!("{answer:?} on {date:?}"),
        }
        for other in [heading.station - 1, heading.station + 1] {
            if (1..=99999).contains(&other) && filed(calls, date, other, text) != Err(6) {
                return format!("not refused 6 by a store of {other}");
            }
        }
    }
    let date = day_of_january(heading.day);
    let at_nine = match filed(calls, date, heading.station, &with(text, &[HOUR_09])) {
        Ok(None) if taken.iter().all(|(_, found)| found.is_none()) => return format!("NIL {heading}"),
        Ok(Some(found)) if found.slot == 1 => found,
        answer => return format!("{answer:?} at 09 UTC"),
    };
    let under_3 = Found { head: Head { ir: 3, ..at_nine.head }, ..at_nine };
    let at_six = filed(calls, date, heading.station, &with(text, &[HOUR_06, DRY]));
    let sent = [true, false].into_iter().find(|&sent| at_six == Ok(Some(under_3.at(0, sent))));
    let Some(sent) = sent else { return format!("{at_six:?} at 06 UTC with iR 3") };
    for (slot, found) in taken {
        let expected = at_nine.at(slot, sent);
        if found != Some(expected) {
            return format!("{found:?}, not {expected:?}");
        }
    }
    whole(heading, &at_nine.head, sent, &at_nine.cells)
}

/// The one slot of a store that is filed.
#[derive(Clone, Copy, Debug, PartialEq, Eq)]
struct Found {
    slot: usize,
    head: Head,
    /// The raw ones.
    cells: [Cell; 9],
}

impl Found {
    /// What the report leaves at another hour. Without a group 6 and with iR 3 its R is 0, for the twelve hours to slots 0,
    /// 4 and 8, and for the six to 2 and 6.
    fn at(&self, slot: usize, sent: bool) -> Found {
        let mut found = Found { slot, ..*self };
        if !sent && self.head.ir == 3 && slot % 2 == 0 {
            found.head.tr = if slot % 4 == 0 { 2 } else { 1 };
            found.cells[R] = Cell::raw(Some(0));
        }
        found
    }
}

/// A text filed at rank 0 in a fresh store of one station: its refusal, or the slot; no slot where the store stays as it
/// was.
fn filed(calls: &dyn Calls, date: Date, station: u32, text: &[u8]) -> Result<Option<Found>, u32> {
    let mut store = vec![7; store_length(1)];
    let Date { year, month, day } = date;
    assert_eq!(calls.open(&mut store, year.into(), month.into(), day.into(), &[station], &[0]), 0);
    let fresh = store.clone();
    match calls.file(&mut store, text, 0) {
        0 => {}
        number => {
            assert!(store == fresh, "a store changed with refusal {number}: {}", text.escape_ascii());
            return Err(number);
        }
    }
    let block = store::block(&store, 0);
    let slots: Vec<usize> = (0..9).filter(|&slot| store::head(block, slot).filed == 1).collect();
    match slots[..] {
        [] => assert!(store == fresh, "a store changed with no slot filed: {}", text.escape_ascii()),
        [slot] => {
            let (head, cells) = (store::head(block, slot), store::raw_sheet(block)[slot]);
            return Ok(Some(Found { slot, head, cells }));
        }
        _ => panic!("slots filed by one report: {slots:?}"),
    }
    Ok(None)
}

/// The days on which a store is tried, January 2024 and the day before: each day of a month is D once and D+1 once.
fn dates() -> impl Iterator<Item = Date> {
    [Date { year: 2023, month: 12, day: 31 }].into_iter().chain((1..=31).map(day_of_january))
}

fn day_of_january(day: u8) -> Date {
    Date { year: 2024, month: 1, day }
}

/// A place in a text, the group and the byte in it, and what to put there.
type Edit = (usize, usize, &'static [u8]);

const HOUR_06: Edit = (1, 2, b"06");
const HOUR_09: Edit = (1, 2, b"09");
/// iR 3.
const DRY: Edit = (3, 0, b"3");

/// The text with the edits that it has a place for.
fn with(text: &[u8], edits: &[Edit]) -> Vec<u8> {
    let mut text = text.to_vec();
    for &(group, at, bytes) in edits {
        let start = starts(&text).nth(group).unwrap_or(text.len());
        if let Some(place) = text.get_mut(start + at..start + at + bytes.len()) {
            place.copy_from_slice(bytes);
        }
    }
    text
}

/// Where the groups of a text begin.
fn starts(text: &[u8]) -> impl Iterator<Item = usize> + '_ {
    (0..text.len()).filter(|&at| !is_blank(text[at]) && (at == 0 || is_blank(text[at - 1])))
}

/// Station, day and hour, as the second and the third group have them, where a store can have them.
fn heading(text: &[u8]) -> Option<Heading> {
    let number = |group: usize, from: usize, to: usize| -> Option<u32> {
        let at = starts(text).nth(group)?;
        std::str::from_utf8(text.get(at + from..at + to)?).ok()?.parse().ok()
    };
    let (station, day, hour) = (number(2, 0, 5)?, number(1, 0, 2)?, number(1, 2, 4)?);
    let has_store = (1..=99999).contains(&station) && (1..=31).contains(&day);
    has_store.then_some(Heading { station, day: day as u8, hour: hour as u8 })
}
