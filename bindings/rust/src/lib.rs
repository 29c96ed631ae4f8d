//! One day's SYNOP weather reports of up to 32 stations, checked and summed up: one day line a station.
//!
//! These are the calls of Esfenruk, whose library is written in Rattle and proved. A day is a [`Store`]: reports are filed in it as
//! they come, a station is settled, and then its [`DayLine`] has the rain, the means, the warmest and the coldest slot and how many
//! values were read, corrected, filled or missing; a [`Cell`] is one checked value.
//!
//! # A day
//!
//! Eight reports of nine. The temperature at 15 UTC has a damaged sign, and the sensor of the dew point is down at 06 UTC.
//!
//! ```
//! use esfenruk::{hour, Cell, Date, Element, Flag, Mean, Refusal, Row, State, Store, ORDINARY};
//!
//! const STATION: u32 = 40001;
//! const REPORTS: [&str; 8] = [
//!     "AAXX 11061 40001 12360 62704 10080 29080 40132=",
//!     "AAXX 11091 40001 12360 62704 10100 20045 40130=",
//!     "AAXX 11121 40001 12360 62706 10130 20050 40128=",
//!     "AAXX 11151 40001 12360 52706 11142 20052 40126=",
//!     "AAXX 11181 40001 11360 32705 10128 20052 40126 60032=",
//!     "AAXX 12001 40001 12360 22703 10090 20050 40128=",
//!     "AAXX 12031 40001 12360 22703 10070 20045 40130=",
//!     "AAXX 12061 40001 11360 22702 10060 20040 40131 60012=",
//! ];
//!
//! fn main() -> Result<(), Refusal> {
//!     let mut store = Store::open(Date::new(2024, 4, 11), &[(STATION, Row::Lowland)])?;
//!     for report in REPORTS {
//!         store.file(report, ORDINARY)?;
//!     }
//!     store.settle(STATION)?;
//!
//!     let line = store.day(STATION)?;
//!     assert_eq!(line.rain, Some(40)); // 4.0 mm
//!     assert_eq!(line.temperature, Mean::Mended(106.125)); // 10.6 degrees
//!     assert_eq!(line.dew_point, Mean::Absent); // one slot has a humidity
//!     assert_eq!(line.vapour_pressure.value(), Some(866.875)); // 8.67 hPa
//!     assert_eq!(line.cloud, Mean::Absent); // nothing at 21 UTC, and cloud is not filled
//!     assert_eq!(line.warmest.map(hour), Some(15));
//!     assert_eq!(line.coldest.map(hour), Some(3));
//!     assert_eq!((line.read, line.corrected, line.filled, line.missing), (48, 1, 5, 27));
//!
//!     let (slot_15, slot_21) = (3, 5);
//!     let mended = store.cell(STATION, Element::Temperature, slot_15)?;
//!     assert_eq!(mended, Cell { state: State::Corrected(142), flag: Flag::Time });
//!     let filled = store.cell(STATION, Element::Temperature, slot_21)?;
//!     assert_eq!(filled, Cell { state: State::Filled(109), flag: Flag::None });
//!     let moist = store.cell(STATION, Element::DewPoint, 0)?;
//!     assert_eq!((moist.value(), moist.humidity()), (None, Some(80)));
//!     Ok(())
//! }
//! ```
//!
//! # What is refused
//!
//! A call that is refused changes no byte, and says why by a [`Refusal`], which prints what it means. The library tests in an order,
//! which stands at each call: the first that holds is the answer. No call on a store panics, but on an answer that this version of the crate
//! does not know, which a `libesfenruk.a` of another version may give.
//!
//! ```
//! use esfenruk::{Date, Refusal, Row, Store, ORDINARY};
//!
//! # fn main() -> Result<(), Refusal> {
//! let mut store = Store::open(Date::new(2024, 4, 11), &[(40001, Row::Lowland)])?;
//! let refusal = store.file("AAXX 11071 40001 12360 62704 10103 20071 40132=", ORDINARY).unwrap_err();
//! assert_eq!(refusal, Refusal::NoSlot);
//! assert_eq!(refusal.number(), 7);
//! assert_eq!(refusal.to_string(), "no slot of the store's day has that day and hour");
//! # Ok(())
//! # }
//! ```
//!
//! # Memory, threads, stack
//!
//! The library has no heap and no state beside the store; the crate allocates where a store is opened, and nowhere else. A store may
//! be any buffer of [`store_length`] bytes:
//!
//! ```
//! use esfenruk::{store_length, Date, Refusal, Row, Store};
//!
//! # fn main() -> Result<(), Refusal> {
//! let mut buffer = [0; store_length(2)];
//! let stations = [(40001, Row::Lowland), (40020, Row::Hill)];
//! let mut store = Store::open_in(&mut buffer[..], Date::new(2024, 4, 11), &stations)?;
//! store.settle(40020)?;
//! // For reading alone:
//! let store = Store::from_bytes(&buffer[..]);
//! assert_eq!(store.day(40020)?.missing, 81);
//! assert_eq!(store.day(40001), Err(Refusal::NotSettled));
//! # Ok(())
//! # }
//! ```
//!
//! Calls on different stores may run at the same time, and so may calls that read one store: a store is [`Send`] and [`Sync`], and
//! `&mut` keeps those that change it apart. A call of the library takes at most as many bytes of stack as `ESFENRUK_STACK` of
//! `include/esfenruk.h` says; the crate adds little to that, [`vapour_table`] its numbers.
//!
//! # The library
//!
//! A program depends on the crate by its path:
//!
//! ```toml
//! [dependencies]
//! esfenruk = { path = "../esfenruk/bindings/rust" }
//! ```
//!
//! The crate links `libesfenruk.a`, for x86-64, from the folder that the environment variable `ESFENRUK_DIR` names, an absolute path,
//! or else from `target/staticlib` of the repository that the crate lies in. It is built there by `bash .ci/run`, or by
//! `tools/library.py` where `rt ci` has run. A crate that depends on this one has the folder in its build script as
//! `DEP_ESFENRUK_LIB`. This is a workspace of its own: where it lies in a folder of another workspace, that one is to `exclude` it.

#![deny(missing_docs)]

mod answers;
pub mod arrays;
mod c;
mod refusal;
mod store;

pub use answers::{Cell, DayLine, Flag, Mean, State, Tally};
pub use refusal::Refusal;
pub use store::{store_length, Store};

/// The rank of an ordinary report, one that amends none.
pub const ORDINARY: u32 = 0;
/// The rank of a report under CCX; CCA is 1.
pub const HIGHEST_RANK: u32 = 24;

/// How many stations a store has at most.
pub const STATIONS: usize = 32;

/// How many slots a day has: 0 to 8.
pub const SLOTS: u32 = 9;

/// How many numbers the [`vapour_table`] has.
pub const VAPOUR_TABLE: usize = 1001;

/// The hour of a slot, UTC: 6, 9, 12, 15, 18, 21 of the store's day for slots 0 to 5, then 0, 3, 6 of the day after it.
///
/// # Panics
/// If there is no such slot.
pub const fn hour(slot: u32) -> u32 {
    assert!(slot < SLOTS, "a slot above 8");
    (6 + 3 * slot) % 24
}

/// The vapour pressure in hundredths of hPa at each dew point from -500 to 500 tenths of a degree, as the day line has it, computed
/// anew. It needs no store.
///
/// ```
/// let table = esfenruk::vapour_table();
/// assert_eq!((table[500], table[600]), (612, 1229)); // 6.12 hPa at 0.0 degrees, 12.29 hPa at 10.0
/// ```
pub fn vapour_table() -> [u16; VAPOUR_TABLE] {
    let mut entries = [0; VAPOUR_TABLE];
    match arrays::vapour_table(&mut entries) {
        0 => entries,
        needed => refusal::unknown("vapour table of length", needed),
    }
}

/// A date. Opening a store tests that it is a day of the years 2000 to 2099.
#[derive(Clone, Copy, Debug, PartialEq, Eq, PartialOrd, Ord, Hash)]
pub struct Date {
    /// 2000 to 2099.
    pub year: u32,
    /// 1 to 12.
    pub month: u32,
    /// 1 to 31.
    pub day: u32,
}

impl Date {
    /// The day of a year and month.
    pub const fn new(year: u32, month: u32, day: u32) -> Date {
        Date { year, month, day }
    }
}

/// A station's climate row: by it go the limits of T, D, X and M.
#[derive(Clone, Copy, Debug, PartialEq, Eq, Hash)]
#[repr(u16)]
pub enum Row {
    /// A station in the lowlands.
    Lowland = 0,
    /// A station in the hills.
    Hill = 1,
}

/// What is measured, and the unit of a cell's value. A day's values fill few of the 18 cells of X and M, and of the nine of R.
#[derive(Clone, Copy, Debug, PartialEq, Eq, Hash)]
#[repr(u32)]
pub enum Element {
    /// T, tenths of a degree Celsius.
    Temperature = 0,
    /// D, tenths of a degree Celsius; a relative humidity in its place ([`State::Humidity`]) is in percent.
    DewPoint = 1,
    /// P, tenths of hPa.
    Pressure = 2,
    /// W, tenths of m/s.
    WindSpeed = 3,
    /// C, eighths of the sky.
    Cloud = 4,
    /// V, hundreds of metres.
    Visibility = 5,
    /// R, tenths of mm.
    Rain = 6,
    /// X, the highest temperature, tenths of a degree Celsius.
    Maximum = 7,
    /// M, the lowest temperature, tenths of a degree Celsius.
    Minimum = 8,
}

impl Element {
    /// All elements, in the order of their numbers.
    pub const ALL: [Element; 9] = [
        Element::Temperature,
        Element::DewPoint,
        Element::Pressure,
        Element::WindSpeed,
        Element::Cloud,
        Element::Visibility,
        Element::Rain,
        Element::Maximum,
        Element::Minimum,
    ];
}

#[cfg(test)]
mod tests {
    use super::*;

    #[test]
    fn hours_of_slots() {
        let hours: Vec<u32> = (0..SLOTS).map(hour).collect();
        assert_eq!(hours, [6, 9, 12, 15, 18, 21, 0, 3, 6]);
    }

    #[test]
    fn elements_by_their_numbers() {
        assert!((0..9).eq(Element::ALL.map(|element| element as u32)));
    }

    #[test]
    fn threads_may_share_a_store() {
        fn shared<A: Send + Sync>(_: A) {}
        shared(Store::from_bytes(vec![0u8; 3]));
        shared(Store::from_bytes(&mut [0; 3][..]));
    }
}
