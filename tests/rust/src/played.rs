//! Calls written down with the answers expected (`data/calls-NN.txt`, worked out apart from the engine and from this
//! reading), played line by line.
//!
//! ```text
//! CALL > ANSWER CRC        CRC: the CRC-32 of the whole store after the step, in hex
//!
//! new LEN BYTE             a buffer of LEN bytes, each BYTE   > -
//! poke AT BYTE             one byte set                       > -
//! write AT HEX             bytes set                          > -
//! open Y M D (S ROW)*                                         > ok
//! file HEX RANK            a text in hex, `-` the empty one   > ok
//! bulletin HEX RANK                                           > counts ACCEPTED REFUSED
//! settle S, begin S, step S                                   > ok
//! cell S ELEMENT SLOT                                         > cell STATE FLAG VALUE
//! day S                                                       > day T D P W C E RAIN WARMEST COLDEST and four counts
//! ```
//!
//! A refused call has `refused N`. A mean is `-`, or `r:` (read) or `m:` (mended) with the eightfold sum.

use crate::calls::Calls;
use crate::generate::stores::Opening;
use crate::generate::{Answer, Call};

/// Plays the lines on an empty buffer: how many there are, and those that differ, each with what was answered.
pub fn play(calls: &dyn Calls, lines: &str) -> (usize, Vec<String>) {
    let mut store = Vec::new();
    let mut differences = Vec::new();
    for (i, line) in lines.lines().enumerate() {
        let (call, expected) = line.split_once(" > ").unwrap_or((line, ""));
        let answered = match step(calls, &mut store, call) {
            Some(answer) => format!("{answer} {:08x}", crc32(&store)),
            None => "no such call".to_string(),
        };
        if answered != expected {
            differences.push(format!("line {}: {line}\n  answered: {answered}", i + 1));
        }
    }
    (lines.lines().count(), differences)
}

/// Makes one step and gives its answer; nothing where the line has another form.
fn step(calls: &dyn Calls, store: &mut Vec<u8>, line: &str) -> Option<String> {
    let (word, arguments) = line.split_once(' ')?;
    let words: Vec<&str> = arguments.split(' ').collect();
    match (word, &words[..]) {
        ("new", [len, byte]) => *store = vec![byte.parse().ok()?; len.parse().ok()?],
        ("poke", [at, byte]) => *store.get_mut(at.parse::<usize>().ok()?)? = byte.parse().ok()?,
        ("write", [at, bytes]) => {
            let (at, bytes) = (at.parse::<usize>().ok()?, text(bytes)?);
            store.get_mut(at..at + bytes.len())?.copy_from_slice(&bytes);
        }
        _ => {
            let call = call(word, &words)?;
            return Some(shown(&call, &call.make(calls, store)));
        }
    }
    Some("-".to_string())
}

fn call(word: &str, words: &[&str]) -> Option<Call> {
    let numbers = || words.iter().map(|word| word.parse().ok()).collect::<Option<Vec<u32>>>();
    Some(match (word, words) {
        ("open", _) => Call::Open(opening(&numbers()?)?),
        ("file", [hex, rank]) => Call::File { text: text(hex)?, rank: rank.parse().ok()? },
        ("bulletin", [hex, rank]) => Call::Bulletin { text: text(hex)?, rank: rank.parse().ok()? },
        ("settle", [_]) => Call::Settle { station: numbers()?[0] },
        ("begin", [_]) => Call::Begin { station: numbers()?[0] },
        ("step", [_]) => Call::Step { station: numbers()?[0] },
        ("cell", [_, _, _]) => {
            let numbers = numbers()?;
            Call::Cell { station: numbers[0], element: numbers[1], slot: numbers[2] }
        }
        ("day", [_]) => Call::Day { station: numbers()?[0] },
        _ => return None,
    })
}

fn opening(numbers: &[u32]) -> Option<Opening> {
    let (&[year, month, day], pairs) = numbers.split_first_chunk::<3>()?;
    let stations = pairs.iter().step_by(2).copied().collect();
    let rows = pairs.iter().skip(1).step_by(2).map(|&row| row as u16).collect();
    Some(Opening { year, month, day, stations, rows })
}

/// Bytes in hex, `-` for none.
fn text(hex: &str) -> Option<Vec<u8>> {
    if hex == "-" {
        return Some(Vec::new());
    }
    let byte = |two: &[u8]| u8::from_str_radix(std::str::from_utf8(two).ok()?, 16).ok();
    (hex.len() % 2 == 0).then(|| hex.as_bytes().chunks(2).map(byte).collect())?
}

/// An answer in the form of a line.
fn shown(call: &Call, answer: &Answer) -> String {
    let Answer { number, cell, counts, .. } = answer;
    match call {
        _ if *number != 0 => format!("refused {number}"),
        Call::Cell { .. } => format!("cell {} {} {}", cell[0], cell[1], cell[2]),
        Call::Bulletin { .. } => format!("counts {} {}", counts[0], counts[1]),
        Call::Day { .. } => {
            let mean = |mended, sum| format!("{}:{sum}", if mended { "m" } else { "r" });
            format!("day {}", answer.line(mean))
        }
        _ => "ok".to_string(),
    }
}

/// CRC-32 as zip and Ethernet have it.
pub fn crc32(bytes: &[u8]) -> u32 {
    !bytes.iter().fold(u32::MAX, |crc, &byte| {
        (0..8).fold(crc ^ u32::from(byte), |crc, _| crc >> 1 ^ if crc & 1 == 1 { 0xedb8_8320 } else { 0 })
    })
}
