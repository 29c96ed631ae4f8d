//! "Values": a slot's head and its nine raw cells from the groups of a report.

use super::report::{Group, Observation};
use super::store::{Cell, Head, DRY};

/// A number of digits; none where a `/` stands among them.
pub fn number(digits: &[u8]) -> Option<i32> {
    digits.iter().try_fold(0, |sum, byte| byte.is_ascii_digit().then(|| 10 * sum + i32::from(byte - b'0')))
}

/// The head, but for the copy of dd, and the raw cells that an accepted report of a rank leaves in a slot.
pub fn slot(slot: usize, iw: u8, report: &Observation, rank: u8) -> (Head, [Cell; 9]) {
    let ir = rain_indicator(report.visibility);
    let rain = match report.section1[6].or(report.section3[6]) {
        Some(group) => rain(group),
        None => dry(ir, slot),
    };
    let head = Head {
        filed: 1,
        ir,
        tr: rain.map_or(0, |(_, tr)| tr),
        dd: wind_direction(report.wind),
        rank,
        dd_copy: 0,
    };
    let read = |value: Option<i32>| Cell::raw(value.map(|value| value as i16));
    let cells = [
        read(report.section1[1].and_then(temperature)),
        report.section1[2].map_or(Cell::MISSING, moisture),
        read(report.section1[4].and_then(pressure)),
        read(wind_speed(iw, report)),
        read(cloud(report.wind)),
        read(number(&report.visibility[3..]).and_then(visibility)),
        read(rain.map(|(tenths, _)| tenths)),
        read(report.section3[1].and_then(temperature)),
        read(report.section3[2].and_then(temperature)),
    ];
    (head, cells)
}

/// iR: 0 to 4, else 5.
fn rain_indicator(visibility: Group) -> u8 {
    match visibility[0] {
        digit @ b'0'..=b'4' => digit - b'0',
        _ => 5,
    }
}

/// dd: 0 to 36 or 99, else 100.
fn wind_direction(wind: Group) -> u8 {
    match number(&wind[1..3]) {
        Some(dd @ (0..=36 | 99)) => dd as u8,
        _ => 100,
    }
}

/// Sign, then tenths of °C.
fn temperature(group: Group) -> Option<i32> {
    let tenths = number(&group[2..])?;
    match group[1] {
        b'0' => Some(tenths),
        b'1' => Some(-tenths),
        _ => None,
    }
}

/// Section 1's group 2: a dew point, a humidity (29UUU), or nothing.
fn moisture(group: Group) -> Cell {
    if group[1] != b'9' {
        return Cell::raw(temperature(group).map(|tenths| tenths as i16));
    }
    let percent = number(&group[2..]).filter(|percent| (1..=100).contains(percent));
    percent.map_or(Cell::MISSING, |percent| Cell::raw_humidity(percent as i16))
}

/// 4PPPP, tenths of hPa.
pub fn pressure(group: Group) -> Option<i32> {
    let tenths = number(&group[1..])?;
    match group[1] {
        b'0' => Some(tenths + 10000),
        b'9' => Some(tenths),
        _ => None,
    }
}

/// Tenths of m/s, from fff where 00fff stands, else from ff.
fn wind_speed(iw: u8, report: &Observation) -> Option<i32> {
    let speed = match report.strong_wind {
        Some(group) => number(&group[2..]),
        None => number(&report.wind[3..]),
    }?;
    Some(if iw <= 1 { 10 * speed } else { knots(speed) })
}

/// Knots as tenths of m/s.
pub fn knots(k: i32) -> i32 {
    (463 * k + 45) / 90
}

/// N: 0 to 8.
fn cloud(wind: Group) -> Option<i32> {
    number(&wind[..1]).filter(|&n| n <= 8)
}

/// VV, hundreds of metres.
pub fn visibility(vv: i32) -> Option<i32> {
    match vv {
        0..=50 => Some(vv),
        56..=80 => Some(10 * (vv - 50)),
        81..=88 => Some(300 + 50 * (vv - 80)),
        89 => Some(700),
        _ => None,
    }
}

/// 6RRRtR: tenths of mm, and tR. Nothing where R is missing, whatever iR is: "A group 6 that is present wins over iR,
/// even if its value is missing" (document 02, S-5).
fn rain(group: Group) -> Option<(i32, u8)> {
    let amount = rain_amount(number(&group[1..4])?)?;
    Some((amount, number(&group[4..]).unwrap_or(0) as u8))
}

/// The same without a group 6: "where R is absent from the report and iR is 3, R reads as 0, with tR 2 at slots 0, 4 and
/// 8 and tR 1 at slots 2 and 6; at other slots it stays missing" (document 02, S-5).
pub fn dry(ir: u8, slot: usize) -> Option<(i32, u8)> {
    match (ir, slot) {
        (DRY, 0 | 4 | 8) => Some((0, 2)),
        (DRY, 2 | 6) => Some((0, 1)),
        _ => None,
    }
}

/// RRR, tenths of mm.
pub fn rain_amount(rrr: i32) -> Option<i32> {
    match rrr {
        1..=989 => Some(10 * rrr),
        990..=999 => Some(rrr - 990),
        _ => None,
    }
}
