//! "A report": checks 1 to 5 in order, then filing at a rank (document 02, S-3).

use super::gate::Refusal;
use super::store::{self, Cell, Head, HIGHEST_RANK};
use super::values;
use std::cmp::Ordering;

/// A group of five characters, digits or `/`.
pub type Group<'a> = &'a [u8; 5];

/// A report that passes checks 1 to 5.
pub struct Report<'a> {
    pub yy: u8,
    pub gg: u8,
    pub iw: u8,
    pub station: u32,
    /// None where the report is NIL.
    pub observation: Option<Observation<'a>>,
}

impl Report<'_> {
    /// The station's index in a sound store, and the slot: checks 6 and 7.
    pub fn place(&self, store: &[u8]) -> Result<(usize, usize), Refusal> {
        let index = store::find(store, self.station)?;
        let slot = store::date(store).slot(self.yy, self.gg).ok_or(Refusal::NoSlot)?;
        Ok((index, slot))
    }
}

/// The groups that a value is read from.
pub struct Observation<'a> {
    /// iRixhVV
    pub visibility: Group<'a>,
    /// Nddff
    pub wind: Group<'a>,
    /// 00fff
    pub strong_wind: Option<Group<'a>>,
    /// Of section 1, by first digit.
    pub section1: [Option<Group<'a>>; 10],
    /// Of section 3, by first digit: the first 1, 2 and 6.
    pub section3: [Option<Group<'a>>; 10],
}

pub fn is_blank(byte: u8) -> bool {
    matches!(byte, b' ' | b'\r' | b'\n')
}

/// The groups of a text: what stands between blanks.
pub fn groups(text: &[u8]) -> impl Iterator<Item = &[u8]> {
    text.split(|&byte| is_blank(byte)).filter(|group| !group.is_empty())
}

/// The rank that a call gives, not above 24.
pub fn rank(number: u32) -> Result<u8, Refusal> {
    if number > HIGHEST_RANK {
        return Err(Refusal::Rank);
    }
    Ok(number as u8)
}

/// Files a report in a sound store: checks 1 to 7, the rank against the slot's, then the slot's head and raw cells.
pub fn file(store: &mut [u8], text: &[u8], rank: u8) -> Result<(), Refusal> {
    let report = read(text)?;
    let (index, slot) = report.place(store)?;
    let Some(observation) = report.observation else { return Ok(()) };
    let block = store::block_mut(store, index);
    let before = store::head(block, slot);
    check_rank(before, rank)?;
    let (head, cells): (Head, [Cell; 9]) = values::slot(slot, report.iw, &observation, rank);
    // "They go to head and raw cells and do not touch the settling" (document 02, S-6).
    store::put_slot(block, slot, Head { dd_copy: before.dd_copy, ..head }, &cells);
    store::set_settling(store, index, store::settling(store, index).reported());
    Ok(())
}

/// A rank below the slot's is 13, an equal one in a filed slot 8. An unfiled slot, whose rank is 0, takes any.
fn check_rank(slot: Head, rank: u8) -> Result<(), Refusal> {
    match rank.cmp(&slot.rank) {
        Ordering::Less => Err(Refusal::Rank),
        Ordering::Equal if slot.filed == 1 => Err(Refusal::Filed),
        _ => Ok(()),
    }
}

/// Checks 1 to 5.
pub fn read(text: &[u8]) -> Result<Report<'_>, Refusal> {
    check_length(text)?;
    check_bytes(text)?;
    let text = &text[..text.len() - 1];
    check_shape(text)?;
    check_heading(text)?;
    check_order(text)
}

/// Check 1: 1 to 512 bytes; the last, and only the last, is `=`.
fn check_length(text: &[u8]) -> Result<(), Refusal> {
    let first_end = text.iter().position(|&byte| byte == b'=');
    if text.len() <= 512 && first_end.is_some_and(|at| at == text.len() - 1) {
        Ok(())
    } else {
        Err(Refusal::Length)
    }
}

/// Check 2: the characters of a report. All bytes are looked at, which is quicker than to stop early.
fn check_bytes(text: &[u8]) -> Result<(), Refusal> {
    let known = |byte: u8| matches!(byte, b'0'..=b'9' | b'A'..=b'Z' | b'/' | b'=') || is_blank(byte);
    if text.iter().fold(true, |good, &byte| good & known(byte)) {
        Ok(())
    } else {
        Err(Refusal::Byte)
    }
}

/// Check 3: the shape of every group, `AAXX` first, NIL fourth and last.
fn check_shape(text: &[u8]) -> Result<(), Refusal> {
    let mut places = 0;
    let mut nil = false;
    for group in groups(text) {
        let shaped = match places {
            0 => group == b"AAXX",
            1 | 2 => is_five_digits(group),
            3 if group == b"NIL" => {
                nil = true;
                true
            }
            _ => !nil && (is_word(group) || is_five(group)),
        };
        if !shaped {
            return Err(Refusal::Shape);
        }
        places += 1;
    }
    if places == 0 {
        return Err(Refusal::Shape);
    }
    Ok(())
}

pub fn is_five_digits(group: &[u8]) -> bool {
    group.len() == 5 && group.iter().all(u8::is_ascii_digit)
}

fn is_five(group: &[u8]) -> bool {
    group.len() == 5 && group.iter().all(|&byte| byte.is_ascii_digit() || byte == b'/')
}

/// The words that may be out of place among the later groups.
fn is_word(group: &[u8]) -> bool {
    matches!(group, b"AAXX" | b"333" | b"444" | b"555")
}

/// Check 4: YYGGiw and IIiii, where they are present.
fn check_heading(text: &[u8]) -> Result<(), Refusal> {
    let mut heading = groups(text).skip(1);
    if let Some(group) = heading.next() {
        Time::read(group).ok_or(Refusal::Heading)?;
    }
    if heading.next().is_some_and(|group| group == b"00000") {
        return Err(Refusal::Heading);
    }
    Ok(())
}

/// YYGGiw, in range.
pub struct Time {
    yy: u8,
    gg: u8,
    iw: u8,
}

impl Time {
    /// From five digits.
    pub fn read(group: &[u8]) -> Option<Time> {
        let digit = |at: usize| group[at] - b'0';
        let yy = 10 * digit(0) + digit(1);
        let gg = 10 * digit(2) + digit(3);
        let iw = digit(4);
        let good = (1..=31).contains(&yy) && gg <= 23 && matches!(iw, 0 | 1 | 3 | 4);
        good.then_some(Time { yy, gg, iw })
    }
}

/// Check 5: the groups that must be there, and the order of all.
fn check_order(text: &[u8]) -> Result<Report<'_>, Refusal> {
    let mut rest = groups(text).skip(1);
    let time = rest.next().and_then(Time::read).ok_or(Refusal::Order)?;
    let station = rest.next().and_then(values::number).ok_or(Refusal::Order)?;
    let fourth = rest.next().ok_or(Refusal::Order)?;
    let observation = if fourth == b"NIL" { None } else { Some(check_observation(fourth, rest)?) };
    Ok(Report { yy: time.yy, gg: time.gg, iw: time.iw, station: station as u32, observation })
}

fn check_observation<'a>(
    visibility: &'a [u8],
    mut rest: impl Iterator<Item = &'a [u8]>,
) -> Result<Observation<'a>, Refusal> {
    let mut walk = Walk {
        found: Observation {
            visibility: five(visibility)?,
            wind: five(rest.next().ok_or(Refusal::Order)?)?,
            strong_wind: None,
            section1: [None; 10],
            section3: [None; 10],
        },
        section: 1,
        after_wind: true,
        last_digit: 0,
        run55: false,
    };
    for group in rest {
        walk.step(group)?;
        walk.after_wind = false;
    }
    Ok(walk.found)
}

/// A group of five, where a word is out of place.
fn five(group: &[u8]) -> Result<Group<'_>, Refusal> {
    group.try_into().map_err(|_| Refusal::Order)
}

/// The walk over the groups after Nddff.
struct Walk<'a> {
    found: Observation<'a>,
    /// The section that the walk is in, 1 to 5.
    section: u8,
    /// The group is the one right after Nddff.
    after_wind: bool,
    /// The first digit of the last group of section 1.
    last_digit: u8,
    /// In a run after a group beginning 55, in section 3.
    run55: bool,
}

impl<'a> Walk<'a> {
    fn step(&mut self, group: &'a [u8]) -> Result<(), Refusal> {
        match group {
            b"333" => self.enter(3),
            b"444" => self.enter(4),
            b"555" => self.enter(5),
            _ => {
                let group = five(group)?;
                match self.section {
                    1 => self.section1(group)?,
                    3 => self.section3(group),
                    _ => {}
                }
                Ok(())
            }
        }
    }

    /// A later section opens; never one again or one before.
    fn enter(&mut self, section: u8) -> Result<(), Refusal> {
        if section <= self.section {
            return Err(Refusal::Order);
        }
        self.section = section;
        Ok(())
    }

    fn section1(&mut self, group: Group<'a>) -> Result<(), Refusal> {
        if group.starts_with(b"222") {
            return self.enter(2);
        }
        if group.starts_with(b"00") && self.after_wind && self.found.wind.ends_with(b"99") {
            self.found.strong_wind = Some(group);
            return Ok(());
        }
        let digit = group[0].wrapping_sub(b'0');
        if !(1..=9).contains(&digit) || digit <= self.last_digit {
            return Err(Refusal::Order);
        }
        self.last_digit = digit;
        self.found.section1[digit as usize] = Some(group);
        Ok(())
    }

    fn section3(&mut self, group: Group<'a>) {
        match group[0] {
            b'7'..=b'9' => self.run55 = false,
            b'0'..=b'6' if self.run55 => {}
            b'5' if group[1] == b'5' => self.run55 = true,
            first @ (b'1' | b'2' | b'6') => {
                self.found.section3[(first - b'0') as usize].get_or_insert(group);
            }
            _ => {}
        }
    }
}
