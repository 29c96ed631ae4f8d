//! The slots of a day that share a temperature, for those who look at ties beside the call.

use crate::reference::store::{Sheet, T};

/// The T that are there in slots 0 to 7 of a sheet, with their slots.
pub fn temperatures(sheet: &Sheet) -> Vec<(usize, i32)> {
    (0..8).filter_map(|slot| Some((slot, sheet[slot][T].get()?))).collect()
}

/// Of such a list, the slots that share the highest T, and those that share the lowest, each in order.
pub fn equal_extremes(list: &[(usize, i32)]) -> [Vec<usize>; 2] {
    let values = || list.iter().map(|&(_, t)| t);
    [values().max(), values().min()].map(|extreme| {
        let sharing = list.iter().filter(|&&(_, t)| Some(t) == extreme);
        sharing.map(|&(slot, _)| slot).collect()
    })
}
