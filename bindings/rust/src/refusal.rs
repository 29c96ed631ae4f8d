//! Why a call is refused.

use std::fmt;

/// Why a call was refused. It prints what it means, word for word as `esfenruk_meaning` of `include/esfenruk.h` has it; its number
/// is [`number`](Refusal::number).
#[derive(Clone, Copy, Debug, PartialEq, Eq, Hash)]
#[repr(u32)]
#[non_exhaustive]
pub enum Refusal {
    /// 1: the text is empty or too long, or its `=` is absent, early or not last.
    Unended = 1,
    /// 2: a byte other than 0-9, A-Z, `/`, space, CR, LF and `=`.
    UnknownByte = 2,
    /// 3: a group without its shape, the first not `AAXX`, or `NIL` not fourth and last.
    Shape = 3,
    /// 4: YY not 01-31, GG not 00-23, iw not 0, 1, 3 or 4, or IIiii 00000.
    OutOfRange = 4,
    /// 5: too few groups, or groups out of order.
    Order = 5,
    /// 6: the station is not in the store.
    UnknownStation = 6,
    /// 7: no slot of the store's day has that day and hour.
    NoSlot = 7,
    /// 8: the slot is filed already with this rank.
    Filed = 8,
    /// 9: the store is unsound.
    Unsound = 9,
    /// 10: not 1 to 32 stations, a wrong length, a bad date, a row not 0 or 1, or numbers not ascending in 1 to 99999.
    Unopenable = 10,
    /// 11: the station is not settled.
    NotSettled = 11,
    /// 12: an element or slot above 8.
    NoCell = 12,
    /// 13: the rank is above 24 or below that of the report in the slot.
    Rank = 13,
    /// 14: no settling of the station is under way.
    NotUnderWay = 14,
}

impl Refusal {
    /// All refusals, in the order of their numbers.
    pub const ALL: [Refusal; 14] = [
        Refusal::Unended,
        Refusal::UnknownByte,
        Refusal::Shape,
        Refusal::OutOfRange,
        Refusal::Order,
        Refusal::UnknownStation,
        Refusal::NoSlot,
        Refusal::Filed,
        Refusal::Unsound,
        Refusal::Unopenable,
        Refusal::NotSettled,
        Refusal::NoCell,
        Refusal::Rank,
        Refusal::NotUnderWay,
    ];

    /// The number by which the library, its header and its documents call it.
    pub const fn number(self) -> u32 {
        self as u32
    }

    /// The refusal of a number, if it has one; 0, an accepted call, has none.
    pub fn from_number(number: u32) -> Option<Refusal> {
        Refusal::ALL.into_iter().find(|refusal| refusal.number() == number)
    }
}

impl fmt::Display for Refusal {
    fn fmt(&self, f: &mut fmt::Formatter) -> fmt::Result {
        f.pad(match self {
            Refusal::Unended => "the text is empty or too long, or its = is absent, early or not last",
            Refusal::UnknownByte => "a byte other than 0-9, A-Z, /, space, CR, LF and =",
            Refusal::Shape => "a group without its shape, the first not AAXX, or NIL not fourth and last",
            Refusal::OutOfRange => "YY not 01-31, GG not 00-23, iw not 0, 1, 3 or 4, or IIiii 00000",
            Refusal::Order => "too few groups, or groups out of order",
            Refusal::UnknownStation => "the station is not in the store",
            Refusal::NoSlot => "no slot of the store's day has that day and hour",
            Refusal::Filed => "the slot is filed already with this rank",
            Refusal::Unsound => "the store is unsound",
            Refusal::Unopenable => {
                "not 1 to 32 stations, a wrong length, a bad date, a row not 0 or 1, or numbers not ascending in 1 to 99999"
            }
            Refusal::NotSettled => "the station is not settled",
            Refusal::NoCell => "an element or slot above 8",
            Refusal::Rank => "the rank is above 24 or below that of the report in the slot",
            Refusal::NotUnderWay => "no settling of the station is under way",
        })
    }
}

impl std::error::Error for Refusal {}

/// What the library answered with a number: nothing, or why not.
pub(crate) fn answer(number: u32) -> Result<(), Refusal> {
    match number {
        0 => Ok(()),
        _ => Err(Refusal::from_number(number).unwrap_or_else(|| unknown("refusal", number))),
    }
}

/// Ends on a number that stands for nothing here.
pub(crate) fn unknown(of: &str, number: impl fmt::Display) -> ! {
    panic!(
        "libesfenruk.a is of another version than esfenruk {}, which knows no {of} {number}",
        env!("CARGO_PKG_VERSION")
    )
}

#[cfg(test)]
mod tests {
    use super::*;

    const LAST: u32 = Refusal::ALL.len() as u32;

    #[test]
    fn each_number_is_one_refusal() {
        let numbers = Refusal::ALL.map(Refusal::number);
        assert!((1..=LAST).eq(numbers));
        assert_eq!(numbers.map(Refusal::from_number), Refusal::ALL.map(Some));
        assert_eq!([0, LAST + 1, u32::MAX].map(Refusal::from_number), [None; 3]);
    }

    #[test]
    fn each_has_a_meaning_of_its_own() {
        let mut meanings = Refusal::ALL.map(|refusal| refusal.to_string());
        meanings.sort();
        assert!(!meanings[0].is_empty());
        assert!(meanings.windows(2).all(|two| two[0] != two[1]));
    }

    #[test]
    fn a_number_is_an_answer() {
        assert_eq!(answer(0), Ok(()));
        assert_eq!(answer(11), Err(Refusal::NotSettled));
    }

    #[test]
    #[should_panic(expected = "another version than esfenruk")]
    fn a_number_of_another_version_ends() {
        let _ = answer(LAST + 1);
    }
}
