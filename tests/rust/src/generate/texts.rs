//! Reports and bulletins, good and damaged.

use super::rng::Rng;
use super::stores::Opening;
use crate::reference::{calendar::Date, layout::store_length};

/// Limits of the range step, and the ends of codes.
pub const TEMPERATURES: [i32; 18] =
    [-480, -400, -320, -250, -220, -150, -120, -50, 0, 50, 200, 250, 300, 320, 350, 380, 420, 480];
pub const PRESSURES: [i32; 6] = [9200, 9500, 9999, 10000, 10500, 10800];
const METRES_A_SECOND: [i32; 6] = [0, 40, 41, 75, 76, 99];
const KNOTS: [i32; 8] = [0, 45, 77, 78, 79, 99, 145, 146];
const RAIN: [i32; 12] = [0, 1, 199, 200, 201, 499, 500, 501, 989, 990, 991, 999];
const HUMIDITIES: [i32; 8] = [0, 0, 1, 2, 99, 100, 101, 101];

/// How far T and P move from one report to the next on most days.
const SPREAD: i32 = 30;

/// A station's weather over an episode.
pub struct Weather {
    /// How often, in a hundred, a value is odd.
    odd: usize,
    /// How often, in a hundred, the dew point's sensor is down and a humidity is sent.
    humid: usize,
    /// How often, in a hundred, there has been no rain, which iR 3 says, mostly without a group 6.
    dry: usize,
    temperature: i32,
    /// How far T moves from one report to the next: on flat days not at all, or hardly.
    spread: i32,
    pressure: i32,
    /// How rain is measured: 0 over 24 hours, 1 over 12, 2 over 6, 3 anyhow.
    rain: usize,
}

impl Weather {
    pub fn new(rng: &mut Rng) -> Weather {
        Weather {
            odd: rng.pick(&[0, 1, 3, 10, 30]),
            humid: rng.pick(&[0, 0, 0, 0, 10, 40, 100]),
            dry: rng.pick(&[0, 0, 0, 30, 60, 100]),
            temperature: if rng.chance(5) { 0 } else { rng.between(-150, 250) },
            spread: rng.pick(&[SPREAD, SPREAD, SPREAD, 2, 1, 0]),
            pressure: rng.between(9800, 10300),
            rain: rng.below(4),
        }
    }

    fn is_odd(&self, rng: &mut Rng) -> bool {
        rng.chance(self.odd)
    }
}

/// YYGGiw of a slot.
pub fn heading_of(rng: &mut Rng, opening: &Opening, slot: usize) -> Vec<u8> {
    let date = Date::new(opening.year, opening.month, opening.day).expect("a good date");
    let (day, hour) = if slot < 6 { (date.day, 6 + 3 * slot) } else { (date.next_day(), 3 * (slot - 6)) };
    format!("{day:02}{hour:02}{}", rng.pick(&[0, 1, 1, 3, 4, 4])).into_bytes()
}

/// YYGGiw, mostly of the slot.
pub fn heading(rng: &mut Rng, opening: &Opening, slot: usize) -> Vec<u8> {
    if !rng.chance(6) {
        return heading_of(rng, opening, slot);
    }
    let near = |rng: &mut Rng| opening.day as i32 + rng.between(-1, 2);
    let day = if rng.chance(50) { near(rng).rem_euclid(100) } else { rng.between(0, 99) };
    let hour = if rng.chance(50) { 3 * rng.between(0, 8) } else { rng.between(0, 99) };
    format!("{day:02}{hour:02}{}", rng.below(10)).into_bytes()
}

/// The groups of a report.
pub fn report(
    rng: &mut Rng,
    opening: &Opening,
    station: u32,
    slot: usize,
    weather: &mut Weather,
) -> Vec<Vec<u8>> {
    let heading = if weather.odd == 0 { heading_of(rng, opening, slot) } else { heading(rng, opening, slot) };
    let knots = heading[4] >= b'3';
    let mut groups = vec![b"AAXX".to_vec(), heading, format!("{station:05}").into_bytes()];
    if rng.chance(2) {
        groups.push(b"NIL".to_vec());
        return groups;
    }
    let rain = rain(rng, weather, slot);
    groups.push(indicators(rng, weather, rain.dry));
    wind(rng, weather, knots, &mut groups);
    section1(rng, weather, rain.section1, &mut groups);
    if rng.chance(6) {
        groups.push(format!("222{}{}", digit(rng), digit(rng)).into_bytes());
        some_groups(rng, &mut groups);
    }
    if rng.chance(50) {
        groups.push(b"333".to_vec());
        section3(rng, weather, rain.section3, &mut groups);
    }
    for word in [b"444", b"555"] {
        if rng.chance(5) {
            groups.push(word.to_vec());
            some_groups(rng, &mut groups);
        }
    }
    groups
}

/// A digit or `/`.
fn digit(rng: &mut Rng) -> char {
    rng.pick(b"0123456789/") as char
}

/// Five characters, digits or `/`.
fn any_group(rng: &mut Rng) -> Vec<u8> {
    (0..5).map(|_| digit(rng) as u8).collect()
}

fn some_groups(rng: &mut Rng, groups: &mut Vec<Vec<u8>>) {
    for _ in 0..rng.below(4) {
        let group = if rng.chance(20) {
            rng.pick(&[b"22200", b"55123", b"10123", b"00123", b"60022"]).to_vec()
        } else {
            any_group(rng)
        };
        groups.push(group);
    }
}

/// A `/` for one of the characters after the first.
fn slashed(rng: &mut Rng, mut group: Vec<u8>) -> Vec<u8> {
    let at = 1 + rng.below(group.len() - 1);
    group[at] = b'/';
    group
}

fn maybe_slashed(rng: &mut Rng, weather: &Weather, group: String) -> Vec<u8> {
    let group = group.into_bytes();
    if weather.is_odd(rng) {
        slashed(rng, group)
    } else {
        group
    }
}

/// iRixhVV
fn indicators(rng: &mut Rng, weather: &Weather, dry: bool) -> Vec<u8> {
    let vv = rng.below(100);
    let ir = if dry { '3' } else { digit(rng) };
    let group = format!("{ir}{}{}{vv:02}", digit(rng), digit(rng));
    maybe_slashed(rng, weather, group)
}

/// Nddff, and 00fff at times.
fn wind(rng: &mut Rng, weather: &Weather, knots: bool, groups: &mut Vec<Vec<u8>>) {
    let cloud = if weather.is_odd(rng) { digit(rng) } else { rng.pick(b"012345678") as char };
    let direction = match rng.below(20) {
        0 => rng.below(100) as i32,
        1 => 99,
        2 => 36,
        3 | 4 => 0,
        _ => rng.between(0, 36),
    };
    let speed = match rng.below(10) {
        0 if knots => rng.pick(&KNOTS),
        0 => rng.pick(&METRES_A_SECOND),
        1 => 0,
        2 if weather.is_odd(rng) => 99,
        _ => rng.between(1, 20),
    };
    let group = format!("{cloud}{direction:02}{:02}", speed.min(99));
    let group = maybe_slashed(rng, weather, group);
    let strong = group.ends_with(b"99");
    groups.push(group);
    if (strong && rng.chance(70)) || (weather.is_odd(rng) && rng.chance(10)) {
        let speed = if rng.chance(50) { speed.max(99) } else { rng.between(0, 999) };
        let group = format!("00{speed:03}");
        groups.push(maybe_slashed(rng, weather, group));
    }
}

/// A temperature group; the sign is at times none.
fn temperature(rng: &mut Rng, weather: &Weather, first: u8, value: i32) -> Vec<u8> {
    let sign = if weather.is_odd(rng) && rng.chance(30) {
        digit(rng)
    } else if value < 0 {
        '1'
    } else {
        '0'
    };
    let group = format!("{first}{sign}{:03}", value.abs().min(999));
    maybe_slashed(rng, weather, group)
}

/// 29UUU: a humidity, at times none.
fn humidity(rng: &mut Rng, weather: &Weather) -> Vec<u8> {
    let percent = match rng.below(10) {
        0 => rng.pick(&HUMIDITIES),
        1 if weather.is_odd(rng) => rng.pick(&[110, 200, 999]),
        2 if weather.is_odd(rng) => rng.between(0, 999),
        _ => rng.between(1, 100),
    };
    maybe_slashed(rng, weather, format!("29{percent:03}"))
}

/// A value that differs from another by a spread, at times by a jump that the time step looks at, or its negative.
fn moved(rng: &mut Rng, weather: &Weather, value: i32, spread: i32) -> i32 {
    if !weather.is_odd(rng) && !rng.chance(4) {
        return value + rng.between(-spread, spread);
    }
    match rng.below(4) {
        0 => -value + rng.between(-2 * spread, 2 * spread),
        1 => value + rng.between(95, 106),
        2 => value - rng.between(95, 106),
        _ => value + rng.between(-400, 400),
    }
}

/// At times a limit, or one beside it.
fn or_limit(rng: &mut Rng, weather: &Weather, value: i32, limits: &[i32]) -> i32 {
    if weather.is_odd(rng) && rng.chance(40) {
        rng.pick(limits) + rng.between(-1, 1)
    } else {
        value
    }
}

/// Section 1 groups, in order.
fn section1(rng: &mut Rng, weather: &mut Weather, rain: Option<Vec<u8>>, groups: &mut Vec<Vec<u8>>) {
    let given = |rng: &mut Rng, weather: &Weather| !weather.is_odd(rng);
    let t = moved(rng, weather, weather.temperature, weather.spread);
    let t = or_limit(rng, weather, t, &TEMPERATURES);
    if given(rng, weather) {
        groups.push(temperature(rng, weather, 1, t));
    }
    if rng.chance(weather.humid) {
        groups.push(humidity(rng, weather));
    } else if given(rng, weather) {
        let below = if rng.chance(5) { rng.between(-3, 3) } else { rng.between(0, 60) };
        let d = or_limit(rng, weather, t - below, &TEMPERATURES);
        groups.push(temperature(rng, weather, 2, d));
    }
    if rng.chance(30) {
        groups.push(any_of(rng, b'3'));
    }
    if given(rng, weather) {
        let p = moved(rng, weather, weather.pressure, SPREAD);
        let p = or_limit(rng, weather, p, &PRESSURES);
        let code = if rng.chance(2) { rng.between(0, 9999) } else { p.rem_euclid(10000) };
        groups.push(maybe_slashed(rng, weather, format!("4{code:04}")));
    }
    if rng.chance(30) {
        groups.push(any_of(rng, b'5'));
    }
    groups.extend(rain);
    for first in *b"789" {
        if rng.chance(20) {
            groups.push(any_of(rng, first));
        }
    }
    // The weather drifts, but a jump does not stay.
    if (t - weather.temperature).abs() <= SPREAD {
        weather.temperature = t.clamp(-300, 380);
    }
}

/// A group with this first digit; at times with its characters in a pattern that another rule knows.
fn any_of(rng: &mut Rng, first: u8) -> Vec<u8> {
    let mut group = any_group(rng);
    group[0] = first;
    if rng.chance(20) {
        group[1] = first;
    }
    group
}

/// What a report says of rain: iR 3, and the group 6 of each section that has one.
struct Rain {
    dry: bool,
    section1: Option<Vec<u8>>,
    section3: Option<Vec<u8>>,
}

/// Under iR 3 there is mostly no group 6; it is missing its value, says that there was none, or comes all the same.
fn rain(rng: &mut Rng, weather: &Weather, slot: usize) -> Rain {
    let dry = rng.chance(weather.dry);
    let group = rain_group(rng, weather, slot);
    let (section1, section3) = match rng.below(12) {
        _ if !dry => (rng.chance(70).then(|| group.clone()), rng.chance(50).then_some(group)),
        0 => (Some(rng.pick(&[b"6////", b"6///1", b"6///2", b"60001", b"60002", b"6000/"]).to_vec()), None),
        1 => (Some(rng.pick(&[b"69901", b"69902", b"69904", b"6990/"]).to_vec()), None),
        2 => (Some(group), None),
        3 => (None, Some(group)),
        _ => (None, None),
    };
    Rain { dry, section1, section3 }
}

/// 6RRRtR
fn rain_group(rng: &mut Rng, weather: &Weather, slot: usize) -> Vec<u8> {
    let amount = match rng.below(4) {
        0 => rng.pick(&RAIN),
        1 => rng.between(990, 999),
        2 if weather.is_odd(rng) => rng.between(0, 999),
        _ => rng.between(1, 60),
    };
    let hours = match (weather.rain, slot) {
        _ if weather.is_odd(rng) => digit(rng),
        (0, 8) => '4',
        (1, 4 | 8) => '2',
        (2, 2 | 4 | 6 | 8) => '1',
        _ => rng.pick(b"124") as char,
    };
    maybe_slashed(rng, weather, format!("6{amount:03}{hours}"))
}

/// Section 3 groups: some of every kind, mostly ascending, with runs after a 55.
fn section3(rng: &mut Rng, weather: &Weather, rain: Option<Vec<u8>>, groups: &mut Vec<Vec<u8>>) {
    let mut section = Vec::new();
    for first in [1, 2] {
        if first == 2 && rng.chance(5) {
            section.push(humidity(rng, weather));
        } else if rng.chance(60) {
            let value = weather.temperature + rng.between(-60, 60);
            let value = or_limit(rng, weather, value, &TEMPERATURES);
            section.push(temperature(rng, weather, first, value));
        }
    }
    if rng.chance(25) {
        section.push(format!("55{:03}", rng.below(1000)).into_bytes());
        for _ in 0..rng.below(4) {
            let first = rng.pick(b"0012345666/");
            section.push(any_of(rng, first));
        }
        if rng.chance(40) {
            let first = rng.pick(b"789");
            section.push(any_of(rng, first));
        }
    }
    section.extend(rain);
    for _ in 0..rng.below(3) {
        let first = rng.pick(b"0123456789/");
        section.push(any_of(rng, first));
    }
    if rng.chance(20) {
        rng.shuffle(&mut section);
    }
    groups.append(&mut section);
}

// ---- From groups to texts ----

/// One to three blanks.
fn blanks(rng: &mut Rng) -> Vec<u8> {
    (0..1 + rng.below(3)).map(|_| rng.pick(b" \r\n")).collect()
}

/// The text of a report: mostly one space between groups.
pub fn join(rng: &mut Rng, groups: &[Vec<u8>]) -> Vec<u8> {
    if !rng.chance(15) {
        let mut text = groups.join(&b' ');
        text.push(b'=');
        return text;
    }
    let mut text = Vec::new();
    for group in groups {
        if !text.is_empty() || rng.chance(50) {
            text.extend(blanks(rng));
        }
        text.extend(group);
    }
    if rng.chance(50) {
        text.extend(blanks(rng));
    }
    text.push(b'=');
    text
}

/// A report of 505 to 516 bytes, by blanks.
pub fn join_to_limit(rng: &mut Rng, groups: &[Vec<u8>]) -> Vec<u8> {
    let mut text = join(rng, groups);
    let wanted = 505 + rng.below(12);
    while text.len() < wanted {
        let at = text.iter().position(|&byte| byte == b' ').unwrap_or(0);
        text.insert(at, rng.pick(b" \r\n"));
    }
    text
}

/// Groups added so that the report with one space between them has about 512 bytes.
pub fn near_limit(rng: &mut Rng, groups: &mut Vec<Vec<u8>>) {
    if groups.len() < 5 {
        return;
    }
    if !groups.iter().any(|group| group == b"555") {
        groups.push(b"555".to_vec());
    }
    let wanted = if rng.chance(50) { 505 + rng.below(12) } else { 300 + rng.below(400) };
    let mut len: usize = groups.iter().map(|group| group.len() + 1).sum();
    while len + 6 <= wanted {
        groups.push(any_group(rng));
        len += 6;
    }
}

/// A byte: mostly of the characters of a report.
fn any_byte(rng: &mut Rng) -> u8 {
    match rng.below(10) {
        0 => rng.next_u64() as u8,
        1 => rng.pick(b"ABXNIL=/= \r\n\t-.a0129:@[\0\x80\xff"),
        _ => rng.pick(b"0123456789/ "),
    }
}

/// One edit of a text, seldom two.
pub fn damage(rng: &mut Rng, mut text: Vec<u8>) -> Vec<u8> {
    for _ in 0..1 + usize::from(rng.chance(15)) {
        let at = rng.below(text.len().max(1));
        match rng.below(8) {
            _ if text.is_empty() => text.push(any_byte(rng)),
            0..=2 => text[at] = any_byte(rng),
            3 | 4 => text.insert(at, any_byte(rng)),
            5 | 6 => {
                text.remove(at);
            }
            _ => text.truncate(at),
        }
    }
    text
}

/// One edit of the groups: one lost, doubled, moved, replaced, or a word put in.
pub fn damage_groups(rng: &mut Rng, groups: &mut Vec<Vec<u8>>) {
    let at = rng.below(groups.len());
    let other = rng.below(groups.len());
    match rng.below(7) {
        0 => {
            groups.remove(at);
        }
        1 => groups.insert(at, groups[other].clone()),
        2 => groups.swap(at, other),
        3 => groups.truncate(at),
        4 => groups[at] = token(rng),
        5 => groups[at] = any_group(rng),
        _ => groups.insert(at, token(rng)),
    }
}

/// A word, or a group that some rule looks for.
fn token(rng: &mut Rng) -> Vec<u8> {
    const TOKENS: [&[u8]; 30] = [
        b"AAXX", b"NIL", b"333", b"444", b"555", b"222", b"666", b"111", b"BBXX", b"AAXXX", b"NILL",
        b"00000", b"22200", b"222//", b"00099", b"00///", b"00120", b"55123", b"55///", b"5/512", b"/////",
        b"10123", b"21012", b"6990/", b"60012", b"40132", b"29050", b"29000", b"29101", b"29/50",
    ];
    rng.pick(&TOKENS).to_vec()
}

/// The later groups of a report replaced by any tokens.
pub fn soup(rng: &mut Rng, groups: &mut Vec<Vec<u8>>) {
    const USUAL: [&[u8]; 9] =
        [b"333", b"444", b"555", b"22212", b"10123", b"29080", b"60122", b"55000", b"70000"];
    groups.truncate(rng.pick(&[1, 2, 3, 4, 5, 5, 5, 5, 5, 6]));
    if let (Some(wind), true) = (groups.get_mut(4), rng.chance(30)) {
        wind.truncate(3);
        wind.extend(b"99");
    }
    for _ in 0..rng.below(10) {
        let group = match rng.below(3) {
            0 => token(rng),
            1 => {
                let first = rng.pick(b"0123456789");
                any_of(rng, first)
            }
            _ => rng.pick(&USUAL).to_vec(),
        };
        groups.push(group);
    }
}

/// Bytes of the characters of a report, or any bytes; at times behind a good heading.
pub fn noise(rng: &mut Rng, groups: &[Vec<u8>]) -> Vec<u8> {
    let len = rng.pick(&[0, 1, 2, 5, 20, 60, 100, 511, 512, 513, 600]);
    let len = if rng.chance(50) { len } else { rng.below(120) };
    let mut text = Vec::new();
    if rng.chance(50) {
        text = groups[..rng.below(groups.len())].join(&b' ');
        text.push(b' ');
    }
    let wild = rng.chance(30);
    text.extend((0..len).map(|_| match rng.below(6) {
        _ if wild => rng.next_u64() as u8,
        0 => rng.pick(b"ABCDEFGHIJKLMNOPQRSTUVWXYZ"),
        1 => rng.pick(b" \r\n/"),
        _ => rng.pick(b"0123456789"),
    }));
    if rng.chance(80) {
        text.push(b'=');
    }
    text
}

// ---- Bulletins ----

/// A bulletin of reports without their heading.
pub fn bulletin(rng: &mut Rng, heading: &[u8], reports: &[Vec<Vec<u8>>]) -> Vec<u8> {
    let mut text = Vec::new();
    if rng.chance(20) {
        text.extend(blanks(rng));
    }
    text.extend(b"AAXX");
    text.extend(if rng.chance(20) { blanks(rng) } else { b" ".to_vec() });
    text.extend(heading);
    if rng.chance(4) {
        text.push(rng.pick(b"=0/A"));
    }
    let untidy = rng.chance(20);
    for groups in reports {
        text.extend(if untidy { blanks(rng) } else { b"\r\n".to_vec() });
        for (i, group) in groups.iter().enumerate() {
            if i > 0 {
                text.extend(if untidy { blanks(rng) } else { b" ".to_vec() });
            }
            text.extend(group);
        }
        text.push(b'=');
        if rng.chance(3) {
            text.push(b'=');
        }
    }
    match rng.below(10) {
        0..=3 => text.extend(blanks(rng)),
        4 => text.extend(b" 40001 NIL"),
        _ => {}
    }
    text
}

/// One edit in the heading of a bulletin, which is cut short at times.
pub fn damage_heading(rng: &mut Rng, text: Vec<u8>) -> Vec<u8> {
    let mut rest = text;
    let mut heading: Vec<u8> = rest.drain(..rest.len().min(12)).collect();
    match rng.below(4) {
        0 => heading.truncate(rng.below(heading.len())),
        1 => {
            let at = rng.below(heading.len());
            heading[at] = b'=';
        }
        _ => heading = damage(rng, heading),
    }
    if rng.chance(70) {
        heading.append(&mut rest);
    }
    heading
}

/// The bulletin made about as long as one may be, by blanks or by its own reports.
pub fn pad_bulletin(rng: &mut Rng, mut text: Vec<u8>) -> Vec<u8> {
    let wanted = rng.pick(&[16380, 16383, 16384, 16384, 16385, 16400, 20000]);
    let from = text.len().min(11);
    let body = text[from..].to_vec();
    while !body.is_empty() && text.len() + body.len() <= wanted {
        text.extend(&body);
    }
    let at = if rng.chance(50) { text.len() } else { from };
    let pad = vec![b' '; wanted.saturating_sub(text.len())];
    text.splice(at..at, pad);
    text
}

// ---- Inputs of the program ----

/// The first line: the opening, at times untidy or wrong.
pub fn first_line(rng: &mut Rng, opening: &Opening) -> Vec<u8> {
    let mut opening = opening.clone();
    if rng.chance(10) {
        opening.spoil(rng, &mut store_length(1));
    }
    let Opening { year, month, day, stations, rows } = opening;
    let pairs = stations.iter().zip(rows).flat_map(|(&station, row)| [station, row.into()]);
    let mut fields: Vec<String> =
        [year, month, day].into_iter().chain(pairs).map(|n| n.to_string()).collect();
    if rng.chance(10) {
        let at = rng.below(fields.len());
        match rng.below(5) {
            0 => fields.truncate(at),
            1 => fields.insert(at, rng.below(40).to_string()),
            2 => fields[at] = rng.pick(&["-1", "+1", "x", "1.0", "4294967297", "65536", "0x1"]).to_string(),
            3 => fields[at] = "9".repeat(rng.pick(&[10, 20, 40, 600])),
            _ => fields[at] = "0".repeat(rng.pick(&[1, 30, 600])) + &fields[at],
        }
    }
    let untidy = rng.chance(15);
    let mut line = Vec::new();
    for field in fields {
        let gap = if untidy { rng.pick(&[" ", "  ", "\r", " \r "]) } else { " " };
        if untidy || !line.is_empty() {
            line.extend(gap.bytes());
        }
        line.extend(field.bytes());
    }
    if rng.chance(5) {
        line = damage(rng, line);
    }
    line.extend(rng.pick(&["\n", "\n", "\n", "\n", "\n", "\n", "\r\n", " \n", ""]).bytes());
    line
}

/// What may stand after the last report.
pub fn tail(rng: &mut Rng) -> Vec<u8> {
    match rng.below(10) {
        0..=3 => Vec::new(),
        4 | 5 => blanks(rng),
        6 => vec![rng.pick(b" \r\n"); rng.pick(&[511, 512, 513, 600, 70_000])],
        7 => [blanks(rng), b"AAXX".to_vec(), blanks(rng)].concat(),
        8 => {
            let mut tail = vec![b' '; rng.pick(&[510, 511, 512, 513, 600, 70_000])];
            let at = rng.below(tail.len());
            tail[at] = rng.pick(b"x0=\t\0");
            tail
        }
        _ => vec![any_byte(rng)],
    }
}
