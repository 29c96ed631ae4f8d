//! Calls to compare two engines on, made from a seed: the same seed gives the same calls.
//!
//! A run is made of episodes; an episode is a short life of one buffer.

mod portions;
pub mod rng;
pub mod stores;
pub mod texts;

use crate::calls::Calls;
use crate::reference::layout::store_length;
use crate::reference::store::{D, HIGHEST_RANK};
use crate::reference::vapour;
use rng::Rng;
use std::fmt;
use stores::{Edits, Opening};
use texts::Weather;

/// One call with its arguments, a slice with the numbers that it holds when lent.
#[derive(Clone, Debug)]
pub enum Call {
    Open(Opening),
    File { text: Vec<u8>, rank: u32 },
    Settle { station: u32 },
    Begin { station: u32 },
    Step { station: u32 },
    Cell { station: u32, element: u32, slot: u32 },
    Day { station: u32 },
    Bulletin { text: Vec<u8>, rank: u32 },
    VapourTable { entries: Vec<u16> },
}

/// All that a call returns. The arrays start with values that no call gives, so that a refusal
/// that writes to one is seen. Floats are kept by their bits.
#[derive(Clone, Debug, PartialEq, Eq)]
pub struct Answer {
    pub number: u32,
    pub cell: [i32; 3],
    pub means: [u64; 6],
    pub numbers: [i32; 14],
    pub counts: [u32; 2],
    /// The slice after the call.
    pub entries: Vec<u16>,
}

impl Call {
    pub fn name(&self) -> &'static str {
        match self {
            Call::Open(_) => "open",
            Call::File { .. } => "file",
            Call::Settle { .. } => "settle",
            Call::Begin { .. } => "begin",
            Call::Step { .. } => "step",
            Call::Cell { .. } => "cell",
            Call::Day { .. } => "day",
            Call::Bulletin { .. } => "bulletin",
            Call::VapourTable { .. } => "vapour_table",
        }
    }

    pub fn make(&self, calls: &dyn Calls, store: &mut [u8]) -> Answer {
        let (mut cell, mut means, mut numbers, mut counts) =
            ([-99; 3], [-12345.5; 6], [-9999; 14], [99999; 2]);
        let mut slice = Vec::new();
        let number = match self {
            Call::Open(o) => calls.open(store, o.year, o.month, o.day, &o.stations, &o.rows),
            Call::File { text, rank } => calls.file(store, text, *rank),
            Call::Settle { station } => calls.settle(store, *station),
            Call::Begin { station } => calls.begin(store, *station),
            Call::Step { station } => calls.step(store, *station),
            Call::Cell { station, element, slot } => calls.cell(store, *station, *element, *slot, &mut cell),
            Call::Day { station } => calls.day(store, *station, &mut means, &mut numbers),
            Call::Bulletin { text, rank } => calls.bulletin(store, text, *rank, &mut counts),
            Call::VapourTable { entries } => {
                slice.clone_from(entries);
                calls.vapour_table(&mut slice)
            }
        };
        Answer { number, cell, means: means.map(f64::to_bits), numbers, counts, entries: slice }
    }
}

impl Answer {
    /// A day line's parts in order, `-` where absent; a mean, as the caller writes it, by whether it is mended and its
    /// eightfold sum.
    pub fn line(&self, mean: impl Fn(bool, f64) -> String) -> String {
        let numbers = self.numbers;
        let or_absent = |there: bool, number: i32| if there { number.to_string() } else { "-".to_string() };
        let mean = |i: usize| match numbers[i] {
            0 => "-".to_string(),
            kind => mean(kind == 2, f64::from_bits(self.means[i]) * 8.0),
        };
        let mut parts: Vec<String> = (0..6).map(mean).collect();
        parts.push(or_absent(numbers[6] == 1, numbers[7]));
        parts.extend([numbers[8], numbers[9]].map(|slot| or_absent(slot >= 0, slot)));
        parts.extend(numbers[10..].iter().map(i32::to_string));
        parts.join(" ")
    }

    /// What this call gives, in words, but for a slice.
    pub fn shown(&self, call: &Call) -> String {
        let Answer { number, cell, means, numbers, counts, .. } = self;
        match call {
            Call::Cell { .. } => format!("{number}, cell {cell:?}"),
            Call::Day { .. } => {
                format!("{number}, means {:?}, numbers {numbers:?}", means.map(f64::from_bits))
            }
            Call::Bulletin { .. } => format!("{number}, counts {counts:?}"),
            _ => format!("{number}"),
        }
    }
}

impl fmt::Display for Call {
    fn fmt(&self, f: &mut fmt::Formatter) -> fmt::Result {
        match self {
            Call::Open(o) => {
                write!(f, "open {} {} {} {:?} {:?}", o.year, o.month, o.day, o.stations, o.rows)
            }
            Call::File { text, rank } => write!(f, "file {rank} \"{}\"", text.escape_ascii()),
            Call::Settle { station } | Call::Begin { station } | Call::Step { station } => {
                write!(f, "{} {station}", self.name())
            }
            Call::Cell { station, element, slot } => write!(f, "cell {station} {element} {slot}"),
            Call::Day { station } => write!(f, "day {station}"),
            Call::Bulletin { text, rank } => write!(f, "bulletin {rank} \"{}\"", text.escape_ascii()),
            Call::VapourTable { entries } => write!(f, "vapour_table of {} numbers", entries.len()),
        }
    }
}

/// One step of an episode.
#[derive(Clone, Debug)]
pub enum Step {
    /// A buffer to work on from now on.
    Lend(Vec<u8>),
    Call(Call),
    /// A call on the buffer with some bytes changed; they are put back where the call is refused 9,
    /// so that the buffer stays of use.
    Damaged {
        edits: Edits,
        call: Call,
    },
}

/// The steps of the episode of a seed.
pub fn episode(seed: u64) -> Vec<Step> {
    let mut rng = Rng::new(seed);
    let mut steps = match rng.below(100) {
        0..=25 => full_day(&mut rng),
        26..=49 => mixed(&mut rng),
        50..=66 => texts_only(&mut rng),
        67..=79 => portions::in_portions(&mut rng),
        80..=91 => hand_made(&mut rng),
        92..=95 => wrong_lengths(&mut rng),
        _ => openings(&mut rng),
    };
    // A call that has no store may stand anywhere.
    if rng.chance(20) {
        let at = rng.below(steps.len() + 1);
        steps.insert(at, Step::Call(vapour_table(&mut rng)));
    }
    steps
}

/// The vapour table to a slice of its length, of one beside it or of any other, which holds anything.
fn vapour_table(rng: &mut Rng) -> Call {
    let len = match rng.below(10) {
        0..=3 => vapour::LENGTH,
        4 => rng.below(2500),
        _ => rng.pick(&[0, 1, vapour::LENGTH - 1, vapour::LENGTH + 1, 2 * vapour::LENGTH]),
    };
    Call::VapourTable { entries: (0..len).map(|_| rng.next_u64() as u16).collect() }
}

/// So many numbers, no two alike, of which the vapour table has none.
pub fn no_entries(len: usize) -> Vec<u16> {
    (0..len).map(|index| u16::MAX - index as u16).collect()
}

/// A store's day and stations, and the weather at each.
struct Scene {
    opening: Opening,
    weather: Vec<Weather>,
}

impl Scene {
    fn new(rng: &mut Rng) -> Scene {
        let opening = Opening::good(rng);
        let weather = opening.stations.iter().map(|_| Weather::new(rng)).collect();
        Scene { opening, weather }
    }

    fn start(&self, rng: &mut Rng) -> Vec<Step> {
        let buffer = rng.bytes(store_length(self.opening.stations.len()));
        vec![Step::Lend(buffer), Step::Call(Call::Open(self.opening.clone()))]
    }

    /// A report's groups for a station and slot of the store.
    fn report(&mut self, rng: &mut Rng, index: usize, slot: usize) -> Vec<Vec<u8>> {
        texts::report(rng, &self.opening, self.opening.stations[index], slot, &mut self.weather[index])
    }

    /// A report's groups for any station and slot, mostly of the store.
    fn any_report(&mut self, rng: &mut Rng) -> Vec<Vec<u8>> {
        let index = rng.below(self.weather.len());
        let station = self.any_station(rng, index);
        let slot = rng.below(9);
        texts::report(rng, &self.opening, station.min(99999), slot, &mut self.weather[index])
    }

    /// A station's number, mostly the one at the index.
    fn any_station(&self, rng: &mut Rng, index: usize) -> u32 {
        let station = self.opening.stations[index];
        match rng.below(20) {
            0 => rng.pick(&[0, 1, 99999, 100000, u32::MAX, 1 << 31]),
            1 => station.wrapping_add(rng.pick(&[1, u32::MAX, 1 << 16, 1 << 17, 1 << 31])),
            _ => station,
        }
    }

    fn any_call(&mut self, rng: &mut Rng) -> Call {
        let index = rng.below(self.weather.len());
        let station = self.any_station(rng, index);
        match rng.below(24) {
            0..=7 => Call::File { text: self.any_text(rng), rank: any_rank(rng) },
            8..=10 => Call::Settle { station },
            11..=14 => Call::Cell { station, element: any_index(rng), slot: any_index(rng) },
            15..=17 => Call::Day { station },
            18 => Call::Begin { station },
            19..=21 => Call::Step { station },
            _ => Call::Bulletin { text: self.any_bulletin(rng), rank: any_rank(rng) },
        }
    }

    /// A report for a station and slot of the store, filed at a rank; of those above 0 some more are NIL.
    fn filing(&mut self, rng: &mut Rng, index: usize, slot: usize, rank: u32) -> Step {
        let groups = if rank > 0 && rng.chance(8) {
            self.nil(rng, index, slot)
        } else {
            self.report(rng, index, slot)
        };
        Step::Call(Call::File { text: texts::join(rng, &groups), rank })
    }

    /// The groups of a NIL.
    fn nil(&mut self, rng: &mut Rng, index: usize, slot: usize) -> Vec<Vec<u8>> {
        let mut groups = self.report(rng, index, slot);
        groups.truncate(3);
        groups.push(b"NIL".to_vec());
        groups
    }

    /// A text to file: mostly a report, at times damaged or no report at all.
    fn any_text(&mut self, rng: &mut Rng) -> Vec<u8> {
        let mut groups = self.any_report(rng);
        match rng.below(10) {
            0..=5 => texts::join(rng, &groups),
            6 => {
                let text = texts::join(rng, &groups);
                texts::damage(rng, text)
            }
            7 => {
                texts::damage_groups(rng, &mut groups);
                texts::join(rng, &groups)
            }
            8 => {
                texts::soup(rng, &mut groups);
                texts::join(rng, &groups)
            }
            _ => texts::noise(rng, &groups),
        }
    }

    /// A bulletin: reports of one hour, at times damaged or no bulletin at all.
    fn any_bulletin(&mut self, rng: &mut Rng) -> Vec<u8> {
        let slot = rng.below(9);
        let count = if rng.chance(30) { rng.below(40) } else { rng.below(6) };
        let mut reports = Vec::new();
        for _ in 0..count {
            let index = rng.below(self.weather.len());
            let station = self.any_station(rng, index).min(99999);
            let mut groups = texts::report(rng, &self.opening, station, slot, &mut self.weather[index]);
            match rng.below(12) {
                0 => texts::damage_groups(rng, &mut groups),
                1 => texts::soup(rng, &mut groups),
                2 => texts::near_limit(rng, &mut groups),
                _ => {}
            }
            reports.push(groups.split_off(2.min(groups.len())));
        }
        let heading = texts::heading(rng, &self.opening, slot);
        let text = texts::bulletin(rng, &heading, &reports);
        match rng.below(10) {
            0 | 1 => texts::damage(rng, text),
            2 => texts::damage_heading(rng, text),
            3 => texts::pad_bulletin(rng, text),
            _ => text,
        }
    }
}

/// An input of the program `dayline`: a first line, reports as they come, and a tail.
pub fn dayline_input(seed: u64) -> Vec<u8> {
    let rng = &mut Rng::new(seed);
    let mut scene = Scene::new(rng);
    let mut input = texts::first_line(rng, &scene.opening);
    let reports = if rng.chance(20) { 9 * scene.weather.len() } else { rng.below(15) };
    for i in 0..reports {
        let text = match rng.below(10) {
            0 | 1 => scene.any_text(rng),
            2 => {
                let mut groups = scene.any_report(rng);
                texts::near_limit(rng, &mut groups);
                texts::join_to_limit(rng, &groups)
            }
            _ => {
                let groups = scene.report(rng, i % scene.weather.len(), i / scene.weather.len() % 9);
                texts::join(rng, &groups)
            }
        };
        input.extend(text);
        if rng.chance(80) {
            input.push(b'\n');
        }
    }
    input.extend(texts::tail(rng));
    input
}

/// An element or slot: mostly 0 to 8.
fn any_index(rng: &mut Rng) -> u32 {
    match rng.below(12) {
        0 => rng.pick(&[9, 10, 255, 256, 264, 65536, 1 << 31, u32::MAX]),
        _ => rng.below(11) as u32,
    }
}

/// A rank: mostly an ordinary report's or one of the first letters'; some are above 24, with low bytes that are not.
fn any_rank(rng: &mut Rng) -> u32 {
    match rng.below(20) {
        0..=9 => 0,
        10..=13 => rng.between(1, 3) as u32,
        14..=17 => rng.below(HIGHEST_RANK as usize + 1) as u32,
        18 => rng.pick(&[HIGHEST_RANK - 1, HIGHEST_RANK, HIGHEST_RANK + 1, HIGHEST_RANK + 2]),
        _ => rng.pick(&[HIGHEST_RANK + 1, 127, 128, 255, 256, 257, 1 << 16, 1 << 31, u32::MAX]),
    }
}

/// The ranks at which the reports of one slot come: the ordinary one, then mostly the letters in turn; some are skipped,
/// one comes again, or any does.
fn ranks(rng: &mut Rng, amended: usize) -> Vec<u32> {
    let mut ranks = vec![0];
    let mut last: u32 = 0;
    while rng.chance(amended) && ranks.len() < 6 {
        last = match rng.below(10) {
            0..=4 => last.saturating_add(1),
            5 | 6 => last.saturating_add(rng.between(2, 9) as u32),
            7 => last,
            _ => any_rank(rng),
        };
        ranks.push(last);
    }
    ranks
}

/// A day as it should be: most reports of most slots come, amended ones at times, then all is settled and read; then
/// some more.
fn full_day(rng: &mut Rng) -> Vec<Step> {
    let mut scene = Scene::new(rng);
    let mut steps = scene.start(rng);
    if rng.chance(70) {
        one_by_one(rng, &mut scene, &mut steps);
    } else {
        in_bulletins(rng, &mut scene, &mut steps);
    }
    for &station in &scene.opening.stations {
        steps.push(Step::Call(Call::Settle { station }));
        steps.push(Step::Call(Call::Day { station }));
        for _ in 0..rng.below(8) {
            let (element, slot) = (rng.below(9) as u32, rng.below(9) as u32);
            steps.push(Step::Call(Call::Cell { station, element, slot }));
        }
    }
    if rng.chance(40) {
        amended_late(rng, &mut scene, &mut steps);
    }
    for _ in 0..rng.below(12) {
        steps.push(Step::Call(scene.any_call(rng)));
    }
    steps
}

/// How often, in a hundred, a report is lost, and how often one more comes for its slot.
fn lost_and_amended(rng: &mut Rng) -> (usize, usize) {
    (rng.pick(&[0, 0, 5, 15, 40]), rng.pick(&[0, 0, 10, 50]))
}

/// Reports slot by slot, or all that are amended after the others, or in any order.
fn one_by_one(rng: &mut Rng, scene: &mut Scene, steps: &mut Vec<Step>) {
    let (lost, amended) = lost_and_amended(rng);
    let mut reports = Vec::new();
    for (slot, index) in (0..9).flat_map(|slot| (0..scene.weather.len()).map(move |index| (slot, index))) {
        let ranks = ranks(rng, amended);
        reports.extend(ranks.into_iter().enumerate().map(|(turn, rank)| (turn, index, slot, rank)));
    }
    match rng.below(4) {
        0 => {}
        1 => reports.sort_by_key(|&(turn, ..)| turn),
        _ => rng.shuffle(&mut reports),
    }
    for (_, index, slot, rank) in reports {
        if !rng.chance(lost) {
            steps.push(scene.filing(rng, index, slot, rank));
        }
    }
}

/// Bulletins slot by slot; an amended one has some of the stations.
fn in_bulletins(rng: &mut Rng, scene: &mut Scene, steps: &mut Vec<Step>) {
    let (lost, amended) = lost_and_amended(rng);
    for slot in 0..9 {
        for (turn, rank) in ranks(rng, amended).into_iter().enumerate() {
            let left_out = if turn == 0 { lost } else { 50 };
            let mut reports = Vec::new();
            for index in 0..scene.weather.len() {
                if !rng.chance(left_out) {
                    reports.push(scene.report(rng, index, slot).split_off(2));
                }
            }
            let heading = texts::heading_of(rng, &scene.opening, slot);
            let text = texts::bulletin(rng, &heading, &reports);
            steps.push(Step::Call(Call::Bulletin { text, rank }));
        }
    }
}

/// Amended reports for settled stations, each of which is read, settled again and read; at times one more for the same
/// slot, at that rank or beside it.
fn amended_late(rng: &mut Rng, scene: &mut Scene, steps: &mut Vec<Step>) {
    for _ in 0..1 + rng.below(3) {
        let (index, slot) = (rng.below(scene.weather.len()), rng.below(9));
        let station = scene.opening.stations[index];
        let rank = if rng.chance(50) { any_rank(rng) } else { 1 + rng.below(HIGHEST_RANK as usize) as u32 };
        let next = rng.pick(&[rank, rank, rank.saturating_sub(1), rank.saturating_add(1)]);
        for rank in [rank, next].into_iter().take(1 + rng.below(2)) {
            steps.push(scene.filing(rng, index, slot, rank));
            let day = || Call::Day { station };
            steps.extend([look(rng, station), day(), Call::Settle { station }, day()].map(Step::Call));
        }
    }
}

/// All calls on all stations in any order, with right and wrong arguments.
fn mixed(rng: &mut Rng) -> Vec<Step> {
    let mut scene = Scene::new(rng);
    let mut steps = scene.start(rng);
    for _ in 0..20 + rng.below(80) {
        let call = scene.any_call(rng);
        steps.push(if rng.chance(8) { damaged(rng, &scene.opening, call) } else { Step::Call(call) });
    }
    steps
}

/// Texts good and bad. The store is opened anew now and then, so that slots are free.
fn texts_only(rng: &mut Rng) -> Vec<Step> {
    let mut scene = Scene::new(rng);
    let mut steps = scene.start(rng);
    for _ in 0..20 + rng.below(60) {
        if rng.chance(10) {
            steps.push(Step::Call(Call::Open(scene.opening.clone())));
        }
        steps.push(Step::Call(if rng.chance(15) {
            Call::Bulletin { text: scene.any_bulletin(rng), rank: any_rank(rng) }
        } else if rng.chance(10) {
            let mut groups = scene.any_report(rng);
            texts::near_limit(rng, &mut groups);
            Call::File { text: texts::join_to_limit(rng, &groups), rank: any_rank(rng) }
        } else {
            Call::File { text: scene.any_text(rng), rank: any_rank(rng) }
        }));
    }
    steps
}

/// Sound buffers that no run of calls leaves, and single bytes of them changed.
fn hand_made(rng: &mut Rng) -> Vec<Step> {
    let mut scene = Scene::new(rng);
    let mut steps = vec![Step::Lend(stores::hand_made(rng, &scene.opening))];
    for _ in 0..20 + rng.below(40) {
        let index = rng.below(scene.weather.len());
        let station = scene.opening.stations[index];
        let call = match rng.below(14) {
            0 | 1 => Call::Settle { station },
            2..=5 => Call::Day { station },
            6 | 7 => look(rng, station),
            8 => Call::Begin { station },
            9..=11 => Call::Step { station },
            _ => scene.any_call(rng),
        };
        steps.push(if rng.chance(50) { damaged(rng, &scene.opening, call) } else { Step::Call(call) });
        if rng.chance(15) {
            steps.push(Step::Lend(stores::hand_made(rng, &scene.opening)));
        }
    }
    steps
}

/// A cell of any element and slot, half of the time D's.
fn look(rng: &mut Rng, station: u32) -> Call {
    let element = if rng.chance(50) { D } else { rng.below(9) };
    Call::Cell { station, element: element as u32, slot: rng.below(9) as u32 }
}

fn damaged(rng: &mut Rng, opening: &Opening, call: Call) -> Step {
    Step::Damaged { edits: stores::any_edits(rng, opening.stations.len()), call }
}

/// Buffers of lengths that no store has, or another store's.
fn wrong_lengths(rng: &mut Rng) -> Vec<Step> {
    let mut scene = Scene::new(rng);
    let mut steps = Vec::new();
    for _ in 0..10 + rng.below(20) {
        steps.push(Step::Lend(stores::wrong_length(rng, &scene.opening)));
        steps.push(Step::Call(scene.any_call(rng)));
    }
    steps
}

/// Openings, right and wrong, on buffers that hold anything.
fn openings(rng: &mut Rng) -> Vec<Step> {
    let mut steps = Vec::new();
    for _ in 0..20 + rng.below(20) {
        let mut opening = Opening::good(rng);
        let mut len = store_length(opening.stations.len());
        if rng.chance(80) {
            opening.spoil(rng, &mut len);
        }
        steps.push(Step::Lend(rng.bytes(len)));
        steps.push(Step::Call(Call::Open(opening.clone())));
        let mut scene = Scene { weather: vec![Weather::new(rng)], opening };
        if !scene.opening.stations.is_empty() && scene.opening.has_slots() {
            steps.push(Step::Call(scene.any_call(rng)));
        }
    }
    steps
}
