//! "Settling a station": four steps, each from a copy of what the step before left, in one call or in portions (document
//! 02, S-6). All of them pass over a humidity, which `Cell::get` does not give (S-2).

use super::gate::Refusal;
use super::store::{self, Cell, Settling, Sheet, Step, C, CORRECTED, D, FILLED, M, P, R, T, V, W, X};

/// Flags of a cell.
const RANGE: u8 = 1;
const INTERNAL: u8 = 2;
const TIME: u8 = 3;
const SUSPECT: u8 = 4;

/// Settles a station of a sound store: "equals begin and four steps, and drops a settling under way" (S-6).
pub fn settle(store: &mut [u8], index: usize) {
    let limits = limits_of(store, index);
    let block = store::block_mut(store, index);
    let sheet = range(&store::raw_sheet(block), &limits);
    let sheet = internal(&sheet, |slot| store::head(block, slot).dd);
    let sheet = time(&sheet);
    let sheet = fill(&sheet);
    store::put_checked(block, &sheet);
    store::put_dd_copies(block, [0; 9]);
    store::set_settling(store, index, Settling::Settled);
}

/// Begins a settling, whether or not one is under way: the raw cells and each slot's dd are copied.
pub fn begin(store: &mut [u8], index: usize) {
    let block = store::block_mut(store, index);
    store::put_checked(block, &store::raw_sheet(block));
    store::put_dd_copies(block, std::array::from_fn(|slot| store::head(block, slot).dd));
    store::set_settling(store, index, Settling::UnderWay { due: Step::Range, reported: false });
}

/// Makes the step that is due on the checked cells. After fill, "S is settled exactly if no report for S but NIL was
/// accepted since" begin.
pub fn step(store: &mut [u8], index: usize) -> Result<(), Refusal> {
    let Settling::UnderWay { due, reported } = store::settling(store, index) else {
        return Err(Refusal::NotBegun);
    };
    let limits = limits_of(store, index);
    let block = store::block_mut(store, index);
    let before = store::checked_sheet(block);
    let (after, next) = match due {
        Step::Range => (range(&before, &limits), Some(Step::Internal)),
        Step::Internal => (internal(&before, |slot| store::head(block, slot).dd_copy), Some(Step::Time)),
        Step::Time => (time(&before), Some(Step::Fill)),
        Step::Fill => (fill(&before), None),
    };
    store::put_checked(block, &after);
    if next.is_none() {
        store::put_dd_copies(block, [0; 9]);
    }
    let settling = match next {
        Some(due) => Settling::UnderWay { due, reported },
        None if reported => Settling::Unsettled,
        None => Settling::Settled,
    };
    store::set_settling(store, index, settling);
    Ok(())
}

fn discarded(flag: u8) -> Cell {
    Cell { flag, ..Cell::MISSING }
}

// ---- 1. Range ----

/// min2, min1, max1, max2.
type Limits = [i16; 4];

/// T, X, M by climate row and season (cold, warm).
const TEMPERATURE: [[Limits; 2]; 2] =
    [[[-400, -250, 250, 350], [-150, -50, 380, 480]], [[-480, -320, 200, 300], [-220, -120, 320, 420]]];

/// The limits at a station, in the season of D.
fn limits_of(store: &[u8], index: usize) -> [Option<Limits>; 9] {
    limits(store::row(store, index), store::date(store).warm())
}

/// The limits of each element; none for C and V.
fn limits(row: usize, warm: bool) -> [Option<Limits>; 9] {
    let temperature = TEMPERATURE[row][warm as usize];
    let mut limits = [None; 9];
    limits[T] = Some(temperature);
    limits[D] = Some([temperature[0], temperature[1], 250, 320]);
    limits[P] = Some([9200, 9500, 10500, 10800]);
    limits[W] = Some([0, 0, 400, 750]);
    limits[C] = None;
    limits[V] = None;
    limits[R] = Some([0, 0, 2000, 5000]);
    limits[X] = Some(temperature);
    limits[M] = Some(temperature);
    limits
}

fn range(before: &Sheet, limits: &[Option<Limits>; 9]) -> Sheet {
    let mut after = *before;
    for cells in &mut after {
        for (cell, limits) in cells.iter_mut().zip(limits) {
            if let (Some(_), Some(limits)) = (cell.get(), limits) {
                *cell = in_range(*cell, limits);
            }
        }
    }
    after
}

fn in_range(cell: Cell, &[min2, min1, max1, max2]: &Limits) -> Cell {
    if cell.value < min2 || cell.value > max2 {
        discarded(RANGE)
    } else if cell.value < min1 || cell.value > max1 {
        Cell { flag: SUSPECT, ..cell }
    } else {
        cell
    }
}

// ---- 2. Internal ----

fn internal(before: &Sheet, dd: impl Fn(usize) -> u8) -> Sheet {
    let mut after = *before;
    for (slot, cells) in before.iter().enumerate() {
        if let (Some(dew_point), Some(temperature)) = (cells[D].get(), cells[T].get()) {
            if dew_point > temperature {
                after[slot][D] = discarded(INTERNAL);
            }
        }
        if let Some(wind) = cells[W].get() {
            let dd = dd(slot);
            if (dd == 0 && wind > 0) || ((1..=36).contains(&dd) && wind == 0) {
                after[slot][W].flag = SUSPECT;
            }
        }
    }
    if let (Some(maximum), Some(minimum)) = (before[4][X].get(), before[0][M].get()) {
        if maximum < minimum {
            after[4][X].flag = SUSPECT;
            after[0][M].flag = SUSPECT;
        }
    }
    after
}

// ---- 3. Time ----

fn time(before: &Sheet) -> Sheet {
    let mut after = *before;
    for element in [T, D, P] {
        for slot in 1..=7 {
            let [a, v, b] = [slot - 1, slot, slot + 1].map(|slot| before[slot][element].get());
            if let (Some(a), Some(v), Some(b)) = (a, v, b) {
                if (v - a).abs() > 100 && (v - b).abs() > 100 {
                    after[slot][element] = mend(element, a, v, b);
                }
            }
        }
    }
    after
}

/// A T with its sign turned over is mended; anything else is discarded.
fn mend(element: usize, a: i32, v: i32, b: i32) -> Cell {
    if element == T && (-v - a).abs() <= 50 && (-v - b).abs() <= 50 {
        Cell { state: CORRECTED, flag: TIME, value: -v as i16 }
    } else {
        discarded(TIME)
    }
}

// ---- 4. Fill ----

fn fill(before: &Sheet) -> Sheet {
    let mut after = *before;
    for element in [T, D, P, W] {
        for slot in 1..=7 {
            let [a, b] = [slot - 1, slot + 1].map(|slot| before[slot][element].get());
            if let (Some(a), true, Some(b)) = (a, before[slot][element].is_missing(), b) {
                let cell = &mut after[slot][element];
                cell.state = FILLED;
                cell.value = middle(a, b) as i16;
            }
        }
    }
    after
}

/// floor((a + b + 1) / 2).
pub fn middle(a: i32, b: i32) -> i32 {
    (a + b + 1).div_euclid(2)
}
