//! Transcripts: calls on one buffer, one a line, to be read beside the paper (`data/transcripts`: `NAME.in` the lines,
//! `NAME.out` what is printed). A line is words with one space between them:
//!
//! ```text
//! lend 2 stations                  the lines that follow are lent as many bytes of the buffer as a store of two stations
//!                                  has; `less 1`, `more 1`; `lend 3 bytes`
//! open 2024 4 11 40001 0 40002 1   the date; for each station its number and row (the last row may be left out)
//! file 0 TEXT                      the rank; all that follows the second space
//! settle 40001, begin 40001, step 40001
//! cell 40001 0 0                   station, element, slot
//! element 40001 0                  the nine cells of an element
//! day 40001
//! put head 40001 3 tR 10           a field of what is lent is changed, by its name (`reference::layout`)
//! # a comment
//! ```
//!
//! Each is printed with the call's answer and with what the call did to the buffer. A cell is its state, flag and value. A
//! day line: the means of T, D, P, W, C and vapour pressure (`-` absent, read or mended, in eighths), the rain, the warmest
//! and the coldest slot, and the counts of cells read, corrected, filled and missing.
//!
//! Two more have lines of another form: texts and what each says (`texts`), and cells through the checks (`cells`).

pub mod cells;
pub mod texts;

use crate::calls::Calls;
use crate::generate::stores::Opening;
use crate::generate::{Answer, Call};
use crate::reference::layout::{stations_for, store_length, Field, Record, NUMBER};
use crate::script::{buffer_length, record};

/// Room for one station more than a store may have.
const SIZE: usize = store_length(33);

/// What is printed for the lines, line by line.
pub fn transcript(calls: &dyn Calls, lines: &str) -> Vec<String> {
    let mut buffer = vec![7; SIZE];
    let mut lent = 0;
    let mut print = |line: &str| {
        let (word, arguments) = line.split_once(' ').unwrap_or((line, ""));
        match word {
            "#" => return line.to_string(),
            "lend" => {
                lent = buffer_length(&mut arguments.as_bytes().split(|&byte| byte == b' '));
                return line.to_string();
            }
            _ => {}
        }
        let before = buffer.clone();
        let answer = answer(calls, &mut buffer[..lent], word, arguments);
        format!("{line} ->{answer}, {}", compared(&before, &buffer))
    };
    lines.lines().map(&mut print).collect()
}

/// The transcript of the lines, compared with what is expected.
pub fn check(calls: &dyn Calls, lines: &str, expected: &str) -> (usize, Vec<String>) {
    compared_lines(&transcript(calls, lines), expected)
}

/// How many lines are printed, and those that differ from what is expected.
pub fn compared_lines(printed: &[String], expected: &str) -> (usize, Vec<String>) {
    let mut expected = expected.lines();
    let mut differences = Vec::new();
    for (i, line) in printed.iter().enumerate() {
        let wanted = expected.next().unwrap_or("no such line");
        if line != wanted {
            differences.push(format!("line {}: {line}\n  expected: {wanted}", i + 1));
        }
    }
    differences.extend(expected.map(|line| format!("after the last line\n  expected: {line}")));
    (printed.len().max(differences.len()), differences)
}

fn answer(calls: &dyn Calls, store: &mut [u8], word: &str, arguments: &str) -> String {
    let mut make = |call: Call| shown(&call, &call.make(calls, store));
    match (word, &numbers(arguments)[..]) {
        ("file", _) => {
            let (rank, text) = arguments.split_once(' ').unwrap_or((arguments, ""));
            make(Call::File { text: text.into(), rank: numbers(rank)[0] })
        }
        ("put", _) => {
            put(store, arguments);
            String::new()
        }
        ("open", &[year, month, day, ref pairs @ ..]) => {
            let stations = pairs.iter().step_by(2).copied().collect();
            let rows = pairs.iter().skip(1).step_by(2).map(|&row| row as u16).collect();
            make(Call::Open(Opening { year, month, day, stations, rows }))
        }
        ("settle", &[station]) => make(Call::Settle { station }),
        ("begin", &[station]) => make(Call::Begin { station }),
        ("step", &[station]) => make(Call::Step { station }),
        ("cell", &[station, element, slot]) => make(Call::Cell { station, element, slot }),
        ("element", &[station, element]) => {
            let cells: Vec<String> = (0..9).map(|slot| make(Call::Cell { station, element, slot })).collect();
            cells.join(";")
        }
        ("day", &[station]) => make(Call::Day { station }),
        _ => panic!("no such line: {word} {arguments}"),
    }
}

/// The numbers up to the first word that is none.
fn numbers(words: &str) -> Vec<u32> {
    words.split_whitespace().map_while(|word| word.parse().ok()).collect()
}

/// Changes a field of a buffer as long as a store, by its name: to a number, or by `more` or `less` from the one there.
fn put(store: &mut [u8], arguments: &str) {
    let n = stations_for(store.len()).expect("a store's length");
    let held = |store: &[u8], record: Record, field: Field| {
        let at = record.at(n) + field.at;
        store[at..at + field.width].iter().fold(0, |number: u32, &byte| number << 8 | u32::from(byte))
    };
    let stations: Vec<u32> = (0..n).map(|index| held(store, Record::Entry { index }, NUMBER)).collect();
    let words = &mut arguments.split(' ').map(str::as_bytes);
    let record = words.next().and_then(|kind| record(&stations, kind, words)).expect("a record");
    let name = words.next().expect("a field's name");
    let field = *record.fields().iter().find(|field| field.name.as_bytes() == name).expect("a field");
    let words: Vec<&str> = words.map(|word| std::str::from_utf8(word).unwrap()).collect();
    let number = match words[..] {
        ["more", by] => held(store, record, field).wrapping_add(by.parse().expect("a number")),
        ["less", by] => held(store, record, field).wrapping_sub(by.parse().expect("a number")),
        [number] => number.parse().expect("a number"),
        _ => panic!("no number: {arguments}"),
    };
    record.edit(n, field, number).into_iter().for_each(|(at, byte)| store[at] = byte);
}

/// An answer, with a space before it.
fn shown(call: &Call, answer: &Answer) -> String {
    let Answer { number, cell: [state, flag, value], .. } = answer;
    match call {
        _ if *number != 0 => format!(" {number}"),
        Call::Cell { .. } => format!(" {state} {flag} {value}"),
        Call::Day { .. } => {
            let mean = |mended, sum| format!("{} {sum}/8", if mended { "mended" } else { "read" });
            format!(" {}", answer.line(mean))
        }
        _ => " accepted".to_string(),
    }
}

fn compared(before: &[u8], buffer: &[u8]) -> String {
    let changed: Vec<usize> = (0..SIZE).filter(|&i| before[i] != buffer[i]).collect();
    match (changed.first(), changed.last()) {
        (Some(first), Some(last)) => format!("bytes changed {}, from {first} to {last}", changed.len()),
        _ => "store as it was".to_string(),
    }
}
