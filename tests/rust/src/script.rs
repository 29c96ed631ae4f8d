//! Calls written as lines of text: inputs that are kept to be made again, and those of the fuzzer.
//!
//! The first letter of a line says what it is, the first two where two words share it; a line that is none of these is
//! passed over.
//!
//! ```text
//! lend N stations          a buffer as long as a store of N, to work on from now on, none of its bytes 0
//! lend N stations less M   the same with M bytes less, or `more M`
//! lend N bytes             the same, of N bytes
//! made SEED                the same, a sound store of the last good opening with anything in it
//! edit RECORD FIELD NUMBER ..   fields set before the next call, and put back where it is refused 9
//! edit byte AT BYTE ..     bytes, in the same way
//! open Y M D S,.. R,..     date, stations, rows
//! file RANK TEXT
//! bulletin RANK TEXT
//! grow N                   the next text has N bytes, by spaces before its last byte
//! settle S
//! begin S
//! step S
//! cell S ELEMENT SLOT
//! day S
//! table N                  the vapour table, to a slice of N numbers of which it has none
//! ```
//!
//! In a text `~` stands for a line feed and `#` for eight groups. A record of a store of the last good opening, and
//! its fields, are named so:
//!
//! ```text
//! header                   n list blocks length year month day zero
//! entry S                  number row settled
//! head S SLOT              filed iR tR dd rank copy
//! raw S ELEMENT SLOT       state flag value       ELEMENT is one of T D P W C V R X M
//! checked S ELEMENT SLOT   state flag value
//! ```

use crate::generate::rng::Rng;
use crate::generate::stores::{hand_made, Edits, Opening};
use crate::generate::{no_entries, Call, Step};
use crate::reference::layout::{store_length, Record};
use crate::reference::store::ELEMENTS;

/// What one script may ask for, so that each is quick.
const MOST_CALLS: usize = 100;
const LONGEST_BUFFER: usize = store_length(34);
const LONGEST_TEXT: usize = 17_000;
const MOST_TABLES: usize = 8;
const LONGEST_TABLE: usize = 3_000;

/// The steps of a script.
pub fn steps(script: &[u8]) -> Vec<Step> {
    let mut reader = Reader::default();
    for line in script.split(|&byte| byte == b'\n') {
        if reader.calls == MOST_CALLS {
            break;
        }
        reader.line(line);
    }
    reader.steps
}

#[derive(Default)]
struct Reader {
    steps: Vec<Step>,
    calls: usize,
    /// How many of them are of the vapour table, the slowest one.
    tables: usize,
    /// The length of the buffer in use.
    len: usize,
    edits: Edits,
    /// The length that the next text grows to.
    grown: usize,
    opening: Option<Opening>,
}

impl Reader {
    fn line(&mut self, line: &[u8]) {
        let mut parts = line.splitn(2, |&byte| byte == b' ');
        let (word, rest) = (parts.next().unwrap_or(b""), parts.next().unwrap_or(b""));
        let words = &mut rest.split(|&byte| byte == b' ').filter(|word| !word.is_empty());
        let mut next = || number(words.next().unwrap_or(b""));
        match word {
            [b'l', ..] => self.lend(vec![0xa5; buffer_length(words)]),
            [b'm', ..] => {
                if let Some(opening) = &self.opening {
                    self.lend(hand_made(&mut Rng::new(next().into()), opening));
                }
            }
            [b'e', ..] => {
                let edits = self.edits_of(words).unwrap_or_default();
                self.edits.extend(edits.into_iter().filter(|&(at, _)| at < self.len));
            }
            [b'o', ..] => {
                let (year, month, day) = (next(), next(), next());
                let stations = list(words.next().unwrap_or(b""));
                let rows = list(words.next().unwrap_or(b"")).into_iter().map(|row| row as u16).collect();
                self.open(Opening { year, month, day, stations, rows });
            }
            [b'g', ..] => self.grown = LONGEST_TEXT.min(next() as usize),
            [b'b', b'e', ..] => self.call(Call::Begin { station: next() }),
            [b'f', ..] | [b'b', ..] => {
                let (rank, text) = self.ranked(rest);
                let file = word[0] == b'f';
                self.call(if file { Call::File { text, rank } } else { Call::Bulletin { text, rank } });
            }
            [b's', b't', ..] => self.call(Call::Step { station: next() }),
            [b's', ..] => self.call(Call::Settle { station: next() }),
            [b'c', ..] => self.call(Call::Cell { station: next(), element: next(), slot: next() }),
            [b'd', ..] => self.call(Call::Day { station: next() }),
            [b't', ..] => self.table(next() as usize),
            _ => {}
        }
    }

    fn lend(&mut self, buffer: Vec<u8>) {
        self.len = buffer.len();
        self.edits.clear();
        self.steps.push(Step::Lend(buffer));
    }

    /// What an `edit` line sets; nothing where a name is none.
    fn edits_of<'a>(&self, words: &mut impl Iterator<Item = &'a [u8]>) -> Option<Edits> {
        let kind = words.next()?;
        if kind == b"byte" {
            let at = number(words.next()?) as usize;
            return Some((at..self.len).zip(words.map(|word| number(word) as u8)).collect());
        }
        let stations = self.opening.as_ref().map_or(&[] as &[u32], |opening| &opening.stations);
        let record = record(stations, kind, words)?;
        let mut edits = Edits::new();
        while let (Some(name), Some(value)) = (words.next(), words.next()) {
            let field = record.fields().iter().find(|field| field.name.as_bytes() == name)?;
            edits.extend(record.edit(stations.len(), *field, signed(value)));
        }
        Some(edits)
    }

    fn open(&mut self, opening: Opening) {
        if opening.is_good() {
            self.opening = Some(opening.clone());
        }
        self.call(Call::Open(opening));
    }

    fn table(&mut self, len: usize) {
        if self.tables < MOST_TABLES {
            self.tables += 1;
            self.call(Call::VapourTable { entries: no_entries(len.min(LONGEST_TABLE)) });
        }
    }

    /// The rank and the text of a filing line.
    fn ranked(&mut self, rest: &[u8]) -> (u32, Vec<u8>) {
        let mut parts = rest.splitn(2, |&byte| byte == b' ');
        let rank = number(parts.next().unwrap_or(b""));
        (rank, self.text(parts.next().unwrap_or(b"")))
    }

    fn text(&mut self, written: &[u8]) -> Vec<u8> {
        let mut text = Vec::new();
        for &byte in written {
            match byte {
                b'~' => text.push(b'\n'),
                b'#' => text.extend(b" 80000".repeat(8)),
                _ => text.push(byte),
            }
        }
        text.truncate(LONGEST_TEXT);
        let grown = std::mem::take(&mut self.grown);
        let end = text.len().saturating_sub(1);
        let spaces = grown.saturating_sub(text.len());
        text.splice(end..end, std::iter::repeat_n(b' ', spaces));
        text
    }

    fn call(&mut self, call: Call) {
        self.calls += 1;
        let edits = std::mem::take(&mut self.edits);
        self.steps.push(if edits.is_empty() { Step::Call(call) } else { Step::Damaged { edits, call } });
    }
}

/// The length that a `lend` line asks for.
pub fn buffer_length<'a>(words: &mut impl Iterator<Item = &'a [u8]>) -> usize {
    let mut next = || words.next().unwrap_or(b"");
    let n = number(next()) as usize;
    let length = if next().starts_with(b"station") { store_length(n.min(99)) } else { n };
    let (word, bytes) = (next(), number(next()) as usize);
    let length = match word {
        b"less" => length.saturating_sub(bytes),
        b"more" => length.saturating_add(bytes),
        _ => length,
    };
    length.min(LONGEST_BUFFER)
}

/// The record that an `edit` line names, in a store of these stations.
pub fn record<'a>(
    stations: &[u32],
    kind: &[u8],
    words: &mut impl Iterator<Item = &'a [u8]>,
) -> Option<Record> {
    if kind == b"header" {
        return Some(Record::Header);
    }
    let station = number(words.next()?);
    let index = stations.iter().position(|&other| other == station)?;
    Some(match kind {
        b"entry" => Record::Entry { index },
        b"head" => Record::Head { index, slot: slot(words.next()?)? },
        b"raw" => Record::Raw { index, element: element(words.next()?)?, slot: slot(words.next()?)? },
        b"checked" => Record::Checked { index, element: element(words.next()?)?, slot: slot(words.next()?)? },
        _ => return None,
    })
}

fn element(word: &[u8]) -> Option<usize> {
    ELEMENTS.iter().position(|&letter| word == [letter])
}

fn slot(word: &[u8]) -> Option<usize> {
    Some(number(word) as usize).filter(|&slot| slot < 9)
}

/// A number that may have a minus before it, as the bits of a field.
fn signed(word: &[u8]) -> u32 {
    word.strip_prefix(b"-").map_or_else(|| number(word), |size| number(size).wrapping_neg())
}

/// A decimal number; what is none, or too large, is the largest.
fn number(word: &[u8]) -> u32 {
    let digits = std::str::from_utf8(word).unwrap_or("");
    digits.parse().unwrap_or(if word.is_empty() { 0 } else { u32::MAX })
}

/// Numbers parted by commas.
fn list(word: &[u8]) -> Vec<u32> {
    let words = word.split(|&byte| byte == b',').filter(|word| !word.is_empty());
    words.map(number).take(40).collect()
}
