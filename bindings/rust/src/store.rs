//! A day's store and the calls on it.

use crate::refusal::answer;
use crate::{arrays, Cell, Date, DayLine, Element, Refusal, Row, Tally, STATIONS};
use std::fmt;

/// The length in bytes of a store of so many stations, 1 to 32.
pub const fn store_length(stations: usize) -> usize {
    16 + 710 * stations
}

/// A day of one or more stations, and all calls on it.
///
/// It is a buffer of bytes and nothing else: its own one by default, or one that is lent, `Store<&mut [u8]>`; over `Store<&[u8]>`
/// there are the calls that read alone. Its bytes may be written to a file and read again ([`as_bytes`](Store::as_bytes),
/// [`from_bytes`](Store::from_bytes)): they are the same store. Stores are equal where their bytes are.
///
/// Each call stands with its refusals in the order in which they are tested: the first that holds is the answer. A refused
/// call changes no byte. Every call but `open` tests first that the bytes are a store, so that each may answer
/// [`Unsound`](Refusal::Unsound); after `open`, of a store that is changed by its calls alone, none does.
#[derive(Clone, PartialEq, Eq)]
pub struct Store<B = Vec<u8>> {
    bytes: B,
}

impl Store {
    /// Opens a store for a date and stations, ascending, each with its climate row. Nothing is filed in it.
    ///
    /// # Errors
    /// [`Unopenable`](Refusal::Unopenable).
    pub fn open(date: Date, stations: &[(u32, Row)]) -> Result<Store, Refusal> {
        // More stations than a store has are refused at any length.
        Store::open_in(vec![0; store_length(stations.len().min(STATIONS))], date, stations)
    }
}

impl<B> Store<B> {
    /// The store that these bytes are. They may be any: calls on bytes that are no store are refused, [`Unsound`](Refusal::Unsound).
    pub const fn from_bytes(bytes: B) -> Store<B> {
        Store { bytes }
    }

    /// The bytes, as they came with the store.
    pub fn into_bytes(self) -> B {
        self.bytes
    }
}

impl<B: AsRef<[u8]>> Store<B> {
    /// The bytes.
    pub fn as_bytes(&self) -> &[u8] {
        self.bytes.as_ref()
    }

    /// The checked cell of an element at a slot, 0 to 8.
    ///
    /// # Errors
    /// [`Unsound`](Refusal::Unsound), [`UnknownStation`](Refusal::UnknownStation), [`NoCell`](Refusal::NoCell),
    /// [`NotSettled`](Refusal::NotSettled).
    pub fn cell(&self, station: u32, element: Element, slot: u32) -> Result<Cell, Refusal> {
        let mut numbers = [0; 3];
        answer(arrays::cell(self.as_bytes(), station, element as u32, slot, &mut numbers))?;
        Ok(Cell::from_array(numbers))
    }

    /// The day line of a station.
    ///
    /// # Errors
    /// [`Unsound`](Refusal::Unsound), [`UnknownStation`](Refusal::UnknownStation), [`NotSettled`](Refusal::NotSettled).
    pub fn day(&self, station: u32) -> Result<DayLine, Refusal> {
        let (mut means, mut numbers) = ([0.0; 6], [0; 14]);
        answer(arrays::day(self.as_bytes(), station, &mut means, &mut numbers))?;
        Ok(DayLine::from_arrays(&means, &numbers))
    }
}

impl<B: AsRef<[u8]> + AsMut<[u8]>> Store<B> {
    /// Opens a store in a buffer, which is to have [`store_length`] bytes and may hold any; all are written.
    ///
    /// # Errors
    /// [`Unopenable`](Refusal::Unopenable).
    pub fn open_in(mut buffer: B, date: Date, stations: &[(u32, Row)]) -> Result<Store<B>, Refusal> {
        let Date { year, month, day } = date;
        let (numbers, rows): (Vec<u32>, Vec<u16>) =
            stations.iter().map(|&(number, row)| (number, row as u16)).unzip();
        answer(arrays::open(buffer.as_mut(), year, month, day, &numbers, &rows))?;
        Ok(Store { bytes: buffer })
    }

    /// Files a report, `AAXX` to `=`, at most 512 bytes, in its station's slot, or in the place of one of a lower rank. It names its
    /// slot by day of the month and hour alone. The rank is [`ORDINARY`](crate::ORDINARY), or 1 to 24 for an amended report, CCA to
    /// CCX, which replaces all nine values: what it leaves out is missing. The station is no longer settled; a settling in portions
    /// goes on as it was ([`begin`](Store::begin)). `NIL` is accepted at any rank up to 24 and changes nothing.
    ///
    /// A report with iR 3 and no group 6 is a dry station's: its rain is 0, for 12 hours (tR 2) at slots 0, 4 and 8 and for 6 hours
    /// (tR 1) at slots 2 and 6, and missing at the others.
    ///
    /// # Errors
    /// [`Unsound`](Refusal::Unsound), [`Rank`](Refusal::Rank) (it is above 24), [`Unended`](Refusal::Unended),
    /// [`UnknownByte`](Refusal::UnknownByte), [`Shape`](Refusal::Shape), [`OutOfRange`](Refusal::OutOfRange),
    /// [`Order`](Refusal::Order), [`UnknownStation`](Refusal::UnknownStation), [`NoSlot`](Refusal::NoSlot),
    /// [`Rank`](Refusal::Rank) (it is below that of the report in the slot), [`Filed`](Refusal::Filed).
    pub fn file(&mut self, text: impl AsRef<[u8]>, rank: u32) -> Result<(), Refusal> {
        answer(arrays::file(self.bytes.as_mut(), text.as_ref(), rank))
    }

    /// Files the reports of a bulletin in order, all at one rank, and counts those accepted, NIL too, and those refused, each as
    /// [`file`](Store::file) would. The text is the heading `AAXX YYGGiw`, then reports without it, each ended by `=`; at most
    /// 16384 bytes.
    ///
    /// # Errors
    /// For the whole: [`Unsound`](Refusal::Unsound), [`Rank`](Refusal::Rank) (it is above 24), [`Unended`](Refusal::Unended) (the
    /// text is empty or too long), [`Shape`](Refusal::Shape) and [`OutOfRange`](Refusal::OutOfRange) (of the heading).
    pub fn bulletin(&mut self, text: impl AsRef<[u8]>, rank: u32) -> Result<Tally, Refusal> {
        let mut counts = [0; 2];
        answer(arrays::bulletin(self.bytes.as_mut(), text.as_ref(), rank, &mut counts))?;
        let [accepted, refused] = counts;
        Ok(Tally { accepted, refused })
    }

    /// Settles a station: checks, mends and fills its values. A settling in portions is dropped.
    ///
    /// # Errors
    /// [`Unsound`](Refusal::Unsound), [`UnknownStation`](Refusal::UnknownStation).
    pub fn settle(&mut self, station: u32) -> Result<(), Refusal> {
        answer(arrays::settle(self.bytes.as_mut(), station))
    }

    /// Begins to settle a station in portions: four calls of [`step`](Store::step) do the rest, with other calls in between. Where no
    /// report for the station is among these, they leave it as [`settle`](Store::settle) does, byte for byte. Where a settling is
    /// under way it starts anew.
    ///
    /// Reports may be filed meanwhile: the settling goes on with the values that the station had when it began, and after the
    /// fourth step the station is settled if no report but `NIL` was accepted for it since. Until it is settled its cells and its day
    /// line are refused, [`NotSettled`](Refusal::NotSettled).
    ///
    /// # Errors
    /// [`Unsound`](Refusal::Unsound), [`UnknownStation`](Refusal::UnknownStation).
    pub fn begin(&mut self, station: u32) -> Result<(), Refusal> {
        answer(arrays::begin(self.bytes.as_mut(), station))
    }

    /// Does the next step of a settling under way: range, internal, time, fill.
    ///
    /// # Errors
    /// [`Unsound`](Refusal::Unsound), [`UnknownStation`](Refusal::UnknownStation), [`NotUnderWay`](Refusal::NotUnderWay).
    pub fn step(&mut self, station: u32) -> Result<(), Refusal> {
        answer(arrays::step(self.bytes.as_mut(), station))
    }
}

/// Its length, as its bytes would fill pages.
impl<B: AsRef<[u8]>> fmt::Debug for Store<B> {
    fn fmt(&self, f: &mut fmt::Formatter) -> fmt::Result {
        write!(f, "Store({} bytes)", self.as_bytes().len())
    }
}
