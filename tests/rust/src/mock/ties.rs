//! Faults on the warmest and the coldest slot (document 02, S-7): each finds another slot on some days.

use super::fault;
use crate::reference::store::{self, Cell, Sheet, CORRECTED, FILLED, READ, T};
use crate::ties::{equal_extremes, temperatures};

/// The slots that share an extreme, in order; the one of them that is taken.
type Slots = Vec<usize>;
type Slot = Option<usize>;

fn first(slots: &[usize]) -> Slot {
    slots.first().copied()
}

fn last(slots: &[usize]) -> Slot {
    slots.last().copied()
}

/// The latest of the warmest slots and the earliest of the coldest.
fn right([warm, cold]: [Slots; 2]) -> [Slot; 2] {
    [last(&warm), first(&cold)]
}

/// The last of equal ones to which slots of a kind alone lead from the first.
fn last_over(slots: &[usize], kind: impl Fn(usize) -> bool) -> Slot {
    slots.iter().copied().rfind(|&slot| (slots[0]..slot).all(&kind))
}

/// The right ones from a list of slots with their T.
fn of_list(list: impl IntoIterator<Item = (usize, i32)>) -> [Slot; 2] {
    right(equal_extremes(&list.into_iter().collect::<Vec<_>>()))
}

/// A station's day, for its temperatures.
struct Day {
    raw: Sheet,
    checked: Sheet,
}

impl Day {
    fn t(&self, slot: usize) -> Cell {
        self.checked[slot][T]
    }

    /// T where it is there, with its slot.
    fn list(&self) -> Vec<(usize, i32)> {
        temperatures(&self.checked)
    }

    /// The slots that share the highest T, and those that share the lowest.
    fn equal(&self) -> [Slots; 2] {
        equal_extremes(&self.list())
    }

    /// The right coldest slot beside another warmest one.
    fn warmest(&self, take: impl Fn(&[usize]) -> Slot) -> [Slot; 2] {
        let [warm, cold] = self.equal();
        [take(&warm), first(&cold)]
    }

    /// The right slots of those whose T takes part.
    fn among(&self, takes_part: impl Fn(usize) -> bool) -> [Slot; 2] {
        of_list(self.list().into_iter().filter(|&(slot, _)| takes_part(slot)))
    }

    /// Of equal ones those that are liked better, where there are some.
    fn rather(&self, liked: fn(Cell) -> bool) -> [Slot; 2] {
        right(self.equal().map(|slots| {
            let better: Slots = slots.iter().copied().filter(|&slot| liked(self.t(slot))).collect();
            if better.is_empty() {
                slots
            } else {
                better
            }
        }))
    }

    /// Slot 8 has the T of these.
    fn as_warm_at_8(&self, slots: &[usize]) -> bool {
        first(slots).is_some_and(|slot| self.t(slot).get() == self.t(8).get())
    }

    /// The right slots, but where all T are equal.
    fn unless_flat(&self, take: fn(&[usize]) -> Slot) -> [Slot; 2] {
        let [warm, cold] = self.equal();
        if warm == cold {
            [take(&warm); 2]
        } else {
            right([warm, cold])
        }
    }
}

/// The two slots as a wrong engine finds them.
type Search = fn(&Day) -> [Slot; 2];

const SEARCHES: [(usize, Search); 26] = [
    (174, |day| day.warmest(first)),
    (175, |day| day.equal().map(|slots| last(&slots))),
    (176, |day| {
        let [warm, cold] = day.equal();
        [first(&warm), last(&cold)]
    }),
    (177, |day| day.warmest(|slots| slots.get(1).or(slots.first()).copied())),
    (178, |day| day.warmest(|slots| last_over(slots, |slot| slots.contains(&slot)))),
    (179, |day| day.warmest(|slots| last_over(slots, |slot| !day.t(slot).is_missing()))),
    (180, |day| day.warmest(|slots| Some(8).filter(|_| day.as_warm_at_8(slots)).or(last(slots)))),
    (181, |day| of_list(day.list().into_iter().chain(day.t(8).get().map(|t| (8, t))))),
    (182, |day| day.rather(|cell| cell.state == READ)),
    (183, |day| day.rather(|cell| cell.state != READ)),
    (184, |day| day.rather(|cell| cell.flag == 0)),
    (185, |day| day.among(|slot| day.t(slot).state != CORRECTED)),
    (186, |day| day.among(|slot| day.t(slot).state != FILLED)),
    (187, |day| day.among(|slot| day.t(slot).flag != 4)),
    (188, |day| day.among(|slot| slot != 0)),
    (189, |day| day.among(|slot| slot != 7)),
    (190, |day| of_list(temperatures(&day.raw))),
    (191, |day| of_list((0..8).map(|slot| (slot, day.t(slot).value.into())))),
    (192, |day| day.warmest(|slots| if day.t(first(slots)?).value < 0 { first(slots) } else { last(slots) })),
    (193, |day| day.unless_flat(first)),
    (194, |day| day.unless_flat(last)),
    (195, |day| right(day.equal()).map(|slot| slot.or(Some(0)))),
    (196, |day| if day.list().len() == 1 { [None; 2] } else { right(day.equal()) }),
    (197, |day| {
        let again = day.list().windows(2).rfind(|two| two[0].1 == two[1].1).map(|two| two[1].0);
        day.warmest(|slots| again.or(last(slots)))
    }),
    (198, |day| of_list(day.list().into_iter().map(|(slot, t)| (slot, t.div_euclid(2))))),
    (199, |day| of_list(day.list().into_iter().map(|(slot, t)| (slot, t.abs())))),
];

/// On the two slots of a day line of a sound store.
pub fn day(store: &[u8], station: u32, numbers: &mut [i32; 14]) {
    let wrong = SEARCHES.iter().find(|&&(number, _)| fault(number));
    let (Some((_, search)), Ok(index)) = (wrong, store::find(store, station)) else { return };
    let block = store::block(store, index);
    let slots = search(&Day { raw: store::raw_sheet(block), checked: store::checked_sheet(block) });
    [numbers[8], numbers[9]] = slots.map(|slot| slot.map_or(-1, |slot| slot as i32));
}
