//! Faults of the lookup in the vapour table (document 02, S-4): each gives the day line another entry at some places.

use super::fault;
use crate::reference::day::vapour_pressure;
use crate::reference::store::{self, Cell, D};
use crate::reference::vapour::{place, DIFFERENCES, LENGTH, SPACING, WHOLE};

/// The entry so many places after the whole one of an index, as a wrong lookup gives it.
type Lookup = fn(usize, usize) -> i32;

const LOOKUPS: [(usize, Lookup); 9] = [
    (61, |index, after| right(index, after) + i32::from(index == 37 && after >= 8)),
    (62, |index, after| right(index, after) - i32::from(index == LAST && after >= 1)),
    (63, |index, after| whole(LAST.min(index + 1)) + sum(first(index), after)),
    (64, |index, after| whole(index) + sum(first(index), after.saturating_sub(1))),
    (65, |index, after| whole(index) + sum(first(index), after + 1)),
    (66, |index, after| match (index, after) {
        (1.., 0) => whole(index) + sum(first(index - 1), SPACING - 1),
        _ => right(index, after),
    }),
    (67, |index, after| whole(index) + sum(SPACING * index, after)),
    (68, |index, after| if index == LAST { whole(LAST) } else { right(index, after) }),
    (69, |index, after| whole(index) + sum(first(index), after) % 256),
];

const LAST: usize = LENGTH / SPACING;

fn whole(index: usize) -> i32 {
    WHOLE[index].into()
}

/// Where the differences after a whole entry begin.
fn first(index: usize) -> usize {
    (SPACING - 1) * index
}

/// So many differences, as far as there are any.
fn sum(from: usize, count: usize) -> i32 {
    DIFFERENCES.iter().skip(from).take(count).map(|&difference| i32::from(difference)).sum()
}

fn right(index: usize, after: usize) -> i32 {
    whole(index) + sum(first(index), after)
}

/// On the day line of a sound store.
pub fn day(store: &[u8], station: u32, means: &mut [f64; 6], numbers: &[i32; 14]) {
    let lookup = LOOKUPS.into_iter().find(|&(number, _)| fault(number));
    let (Some((_, lookup)), 1..) = (lookup, numbers[5]) else { return };
    let Ok(index) = store::find(store, station) else { return };
    let sheet = store::checked_sheet(store::block(store, index));
    let sum: i32 = sheet[..8].iter().filter_map(|cells| pressure(cells, lookup)).sum();
    means[5] = f64::from(sum) * 0.125;
}

/// A slot's vapour pressure, of the same cell as the right one.
fn pressure(cells: &[Cell; 9], lookup: Lookup) -> Option<i32> {
    let place = place(vapour_pressure(cells).0.value.into())?;
    let entry = lookup(place / SPACING, place % SPACING);
    Some(cells[D].humidity().map_or(entry, |percent| (entry * percent + 50) / 100))
}
