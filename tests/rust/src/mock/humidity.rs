//! Faults on humidities (document 02, S-2): each changes what the reference left or answered.

use super::{fault, set};
use crate::calls::{Calls, Reference};
use crate::reference::layout::{stations_for, Record, STATE, VALUE};
use crate::reference::settle::middle;
use crate::reference::store::{self, Cell, Sheet, D, FILLED, HUMIDITY, M, READ, T};
use crate::reference::{report, values, vapour};

/// On the raw cells of a report that was accepted.
pub fn filed(store: &mut [u8], text: &[u8]) {
    let (true, Ok(report)) = (fault(20) || fault(21), report::read(text)) else { return };
    let (Ok((index, slot)), Some(found)) = (report.place(store), report.observation) else { return };
    if fault(20) && found.section1[2] == Some(b"29101") {
        let cell = Record::Raw { index, element: D, slot };
        set(store, cell, STATE, HUMIDITY.into());
        set(store, cell, VALUE, 101);
    }
    let humidity = found.section3[2].filter(|group| group[1] == b'9');
    if let (true, Some(percent)) = (fault(21), humidity.and_then(|group| values::number(&group[2..]))) {
        let cell = Record::Raw { index, element: M, slot };
        set(store, cell, STATE, READ.into());
        set(store, cell, VALUE, percent as u32);
    }
}

/// D's cell at a slot of a checked sheet as a wrong step leaves it, where that is another.
type Step = fn(&Sheet, usize) -> Option<Cell>;

const STEPS: [(usize, Step); 4] = [(22, internal), (23, time), (24, fill), (25, fill_over)];

/// On the checked cells of a station that was settled.
pub fn settled(store: &mut [u8], station: u32) {
    let Ok(index) = store::find(store, station) else { return };
    for (_, step) in STEPS.into_iter().filter(|&(number, _)| fault(number)) {
        let block = store::block_mut(store, index);
        let sheet = store::checked_sheet(block);
        let mut wrong = sheet;
        for slot in 0..9 {
            wrong[slot][D] = step(&sheet, slot).unwrap_or(sheet[slot][D]);
        }
        store::put_checked(block, &wrong);
    }
}

/// A humidity above T is discarded.
fn internal(sheet: &Sheet, slot: usize) -> Option<Cell> {
    let above = sheet[slot][D].humidity()? > sheet[slot][T].get()?;
    above.then_some(Cell { flag: 2, ..Cell::MISSING })
}

/// D's cells before, at and after a slot that time and fill look at.
fn three(sheet: &Sheet, slot: usize) -> Option<[Cell; 3]> {
    (1..8).contains(&slot).then(|| [slot - 1, slot, slot + 1].map(|slot| sheet[slot][D]))
}

/// The values beside a slot, one of them a humidity.
fn beside(a: Cell, b: Cell) -> Option<[i32; 2]> {
    let there = [a, b].iter().all(|cell| matches!(cell.state, READ | HUMIDITY));
    (there && (a.state == HUMIDITY || b.state == HUMIDITY)).then_some([a, b].map(|cell| cell.value.into()))
}

/// A dew point far from a humidity and from its other neighbour is discarded.
fn time(sheet: &Sheet, slot: usize) -> Option<Cell> {
    let [a, v, b] = three(sheet, slot)?;
    let value = v.get().filter(|_| v.state == READ)?;
    let far = beside(a, b)?.iter().all(|other| (value - other).abs() > 100);
    far.then_some(Cell { flag: 3, ..Cell::MISSING })
}

/// A missing D beside a humidity is filled.
fn fill(sheet: &Sheet, slot: usize) -> Option<Cell> {
    let [a, v, b] = three(sheet, slot)?;
    let [a, b] = beside(a, b)?;
    v.is_missing().then_some(Cell { state: FILLED, value: middle(a, b) as i16, ..v })
}

/// A humidity between two dew points is filled.
fn fill_over(sheet: &Sheet, slot: usize) -> Option<Cell> {
    let [a, v, b] = three(sheet, slot)?;
    v.humidity()?;
    (a.state == READ && b.state == READ).then_some(())?;
    Some(Cell { state: FILLED, value: middle(a.value.into(), b.value.into()) as i16, ..v })
}

/// A slot's checked cells changed, from its raw ones.
type Change = fn(&[Cell; 9], &mut [Cell; 9]);

/// The means that come out wrong, as they would with other cells beside each humidity.
const MEANS: [(usize, usize, Change); 3] = [(26, 5, raw_t), (28, 5, filled_t_read), (29, 1, dew_point)];

fn raw_t(raw: &[Cell; 9], cells: &mut [Cell; 9]) {
    if !raw[T].is_missing() && !cells[T].is_missing() {
        cells[T].value = raw[T].value;
    }
}

fn filled_t_read(_: &[Cell; 9], cells: &mut [Cell; 9]) {
    if cells[T].state == FILLED {
        cells[T].state = READ;
    }
}

fn dew_point(_: &[Cell; 9], cells: &mut [Cell; 9]) {
    cells[D].state = READ;
}

/// On the day line of a sound store.
pub fn day(store: &[u8], station: u32, means: &mut [f64; 6], numbers: &mut [i32; 14]) {
    for (_, mean, change) in MEANS.into_iter().filter(|&(number, ..)| fault(number)) {
        let (mut other_means, mut other_numbers) = ([0.0; 6], [0; 14]);
        Reference.day(&changed(store, change), station, &mut other_means, &mut other_numbers);
        (means[mean], numbers[mean]) = (other_means[mean], other_numbers[mean]);
    }
    let Ok(index) = store::find(store, station) else { return };
    let sheet = store::checked_sheet(store::block(store, index));
    if fault(27) && numbers[5] != 0 {
        means[5] -= f64::from(sheet[..8].iter().filter(|cells| rounded_up(cells)).count() as u32) * 0.125;
    }
    if fault(30) && sheet[8][D].humidity().is_some() {
        (means[1], numbers[1]) = (0.0, 0);
    }
    if fault(31) {
        numbers[10] -= sheet.iter().filter(|cells| cells[D].humidity().is_some()).count() as i32;
    }
}

fn changed(store: &[u8], change: Change) -> Vec<u8> {
    let mut store = store.to_vec();
    for index in 0..store::stations(&store) {
        let block = store::block_mut(&mut store, index);
        let (raw, mut checked) = (store::raw_sheet(block), store::checked_sheet(block));
        for (raw, cells) in raw.iter().zip(&mut checked).filter(|(_, cells)| cells[D].humidity().is_some()) {
            change(raw, cells);
        }
        store::put_checked(block, &checked);
    }
    store
}

/// A humidity's vapour pressure lies above e·UUU / 100.
fn rounded_up(cells: &[Cell; 9]) -> bool {
    let e = cells[T].get().and_then(vapour::pressure);
    matches!((e, cells[D].humidity()), (Some(e), Some(percent)) if e * percent % 100 >= 50)
}

/// The store with every humidity in T's cells taken for a value that was read.
pub fn humid_temperatures_read(store: &[u8]) -> Vec<u8> {
    let mut store = store.to_vec();
    let Some(n) = stations_for(store.len()) else { return store };
    let of_t = |record: &Record| {
        matches!(record, Record::Raw { element: T, .. } | Record::Checked { element: T, .. })
    };
    for at in Record::all(n).filter(of_t).map(|record| record.at(n) + STATE.at) {
        if store[at] == HUMIDITY {
            store[at] = READ;
        }
    }
    store
}
