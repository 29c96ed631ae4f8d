//! "Bulletins".

use super::gate::Refusal;
use super::report::{self, groups, is_blank, is_five_digits, Time};

/// How many reports of a bulletin were accepted and refused.
#[derive(Clone, Copy, Debug, Default, PartialEq, Eq)]
pub struct Tally {
    pub accepted: u32,
    pub refused: u32,
}

const LONGEST: usize = 16384;

/// Files the reports of a bulletin, in order and all at one rank, in a sound store.
pub fn file_all(store: &mut [u8], text: &[u8], rank: u8) -> Result<Tally, Refusal> {
    if text.is_empty() || text.len() > LONGEST {
        return Err(Refusal::Length);
    }
    let (time, mut rest) = heading(text)?;
    let mut tally = Tally::default();
    while let Some(end) = rest.iter().position(|&byte| byte == b'=') {
        match file_piece(store, time, &rest[..end], rank) {
            Ok(()) => tally.accepted += 1,
            Err(_) => tally.refused += 1,
        }
        rest = &rest[end + 1..];
    }
    if !rest.iter().all(|&byte| is_blank(byte)) {
        tally.refused += 1;
    }
    Ok(tally)
}

/// The group YYGGiw, and what follows it.
fn heading(text: &[u8]) -> Result<(&[u8], &[u8]), Refusal> {
    let (first, rest) = next_group(text);
    let (time, rest) = next_group(rest);
    if first != b"AAXX" || !is_five_digits(time) {
        return Err(Refusal::Shape);
    }
    Time::read(time).ok_or(Refusal::Heading)?;
    Ok((time, rest))
}

/// The next group, which a blank, `=` or the end closes, and what follows it.
fn next_group(text: &[u8]) -> (&[u8], &[u8]) {
    let start = text.iter().position(|&byte| !is_blank(byte)).unwrap_or(text.len());
    let text = &text[start..];
    let end = text.iter().position(|&byte| is_blank(byte) || byte == b'=').unwrap_or(text.len());
    text.split_at(end)
}

/// Files one report: its groups behind the heading, one space between groups and none before `=`.
fn file_piece(store: &mut [u8], time: &[u8], piece: &[u8], rank: u8) -> Result<(), Refusal> {
    let mut whole = Whole { bytes: [0; 512], len: 0 };
    whole.push(b"AAXX ")?;
    whole.push(time)?;
    for group in groups(piece) {
        whole.push(b" ")?;
        whole.push(group)?;
    }
    whole.push(b"=")?;
    report::file(store, &whole.bytes[..whole.len], rank)
}

/// A rebuilt report; longer than 512 bytes it is refused 1.
struct Whole {
    bytes: [u8; 512],
    len: usize,
}

impl Whole {
    fn push(&mut self, part: &[u8]) -> Result<(), Refusal> {
        let room = self.bytes.get_mut(self.len..self.len + part.len()).ok_or(Refusal::Length)?;
        room.copy_from_slice(part);
        self.len += part.len();
        Ok(())
    }
}
