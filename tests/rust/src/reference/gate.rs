//! "Numbers at the gate": the refusals.

#[derive(Clone, Copy, Debug, PartialEq, Eq)]
#[repr(u32)]
pub enum Refusal {
    /// 1: length 0 or above 512; `=` absent, early or not last.
    Length = 1,
    /// 2: a byte that no report has.
    Byte = 2,
    /// 3: group shape; first not `AAXX`; NIL not fourth and last.
    Shape = 3,
    /// 4: YY, GG, iw or IIiii out of range.
    Heading = 4,
    /// 5: too few groups, or order.
    Order = 5,
    /// 6: station not in the store.
    NoStation = 6,
    /// 7: no such slot.
    NoSlot = 7,
    /// 8: slot filed already, at the same rank.
    Filed = 8,
    /// 9: unsound store.
    Unsound = 9,
    /// 10: a store that cannot be opened.
    CannotOpen = 10,
    /// 11: not settled.
    NotSettled = 11,
    /// 12: element or slot above 8.
    NoSuchCell = 12,
    /// 13: a rank above 24 or below the slot's (document 02, S-3).
    Rank = 13,
    /// 14: a step with no settling under way (document 02, S-6).
    NotBegun = 14,
}

impl Refusal {
    pub fn number(self) -> u32 {
        self as u32
    }
}
