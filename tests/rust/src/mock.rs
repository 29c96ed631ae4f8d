//! A stand-in for libesfenruk.a: the reference, right or with one fault, to see that the comparison notices.

mod dry;
mod humidity;
mod portions;
mod rank;
mod ties;
mod vapour;

use crate::calls::{Calls, Reference};
use crate::reference::layout::{Field, Record, ENTRY, FLAG, HEADER, SETTLED, STATE, ZERO};
use crate::reference::store;
use humidity::humid_temperatures_read;
use rank::heads_taken_for_sound;
use std::sync::atomic::{AtomicUsize, Ordering};

/// What the mock can do wrong; the first is nothing.
pub const FAULTS: [&str; 200] = [
    "no fault",
    "open leaves the last byte as it was",
    "a refused open writes a byte",
    "open wraps the year at 16 bits",
    "file answers 3 for 5",
    "filing leaves the station settled",
    "filing a slot again clears settled",
    "NIL clears settled",
    "settle loses the flag of a corrected cell",
    "cell tests 11 before 12",
    "a refused cell writes its array",
    "a mended mean is one unit in the last place too high",
    "rain that is absent is given as 0",
    "a refused day writes its arrays",
    "bulletin counts a blank tail",
    "bulletin refuses 16384 bytes",
    "day does not test the last number of the header",
    "the vapour table's last entry is the one before it",
    "a slice of another length than the vapour table's is written to",
    "the vapour table needs whatever length the slice has",
    "29101 is read as a humidity",
    "29UUU of section 3 is read as a minimum",
    "internal discards a humidity above T",
    "time tests a dew point beside a humidity",
    "fill takes a humidity for a neighbour",
    "fill replaces a humidity between two dew points",
    "a humidity's vapour pressure is taken at the raw T",
    "a humidity's vapour pressure is rounded down",
    "a humidity's slot is not mended where T was filled",
    "D's mean takes a humidity for a dew point",
    "D's mean is absent for a humidity in slot 8",
    "a humidity is in no count",
    "a humidity in T's cells is sound",
    "cell gives a humidity as a value read",
    "a report of an equal rank replaces",
    "a report of a lower rank replaces",
    "a rank below the slot's is answered 8",
    "an equal rank is answered 13",
    "a rank above 24 is tested after check 1",
    "a rank above 24 is tested with the slot's rank",
    "rank 25 is taken for 24",
    "rank 24 is refused",
    "a rank is cut to its low byte",
    "NIL is compared with the slot's rank",
    "NIL of a higher rank raises the slot's",
    "a report that replaces leaves the station settled",
    "a report refused 13 clears settled",
    "the rank is not written",
    "of a replaced slot the raw cells stay",
    "of a replaced slot iR, tR and dd stay",
    "a report that replaces leaves the cells of the groups that it lacks",
    "rank 25 is sound in a filed slot",
    "a rank is sound in an unfiled slot",
    "a copy of dd other than 0 is sound with no settling under way",
    "a bulletin above rank 24 has its reports refused one by one",
    "a bulletin above rank 24 has its heading tested first",
    "a bulletin's reports are filed at rank 0",
    "a bulletin's first report alone is filed at its rank",
    "a rank that skips letters is refused 13",
    "a free slot refuses a rank above 0",
    "a report that replaces empties the slot's checked cells",
    "the vapour table's difference at 10.0 °C is one too high",
    "the vapour table's difference at 49.3 °C is one too low",
    "the sum for an entry begins at the next whole one",
    "the sum for an entry has one difference too few",
    "the sum for an entry has one difference too many",
    "to a whole entry the differences before it are added",
    "differences are looked for as if whole entries had one too",
    "the vapour table's last whole entry is given at all places after it",
    "the differences for an entry are summed up in a byte",
    "iR 3 wins over a group 6 whose value is missing",
    "iR 3 wins over every group 6",
    "section 3's group 6 is not looked at under iR 3",
    "a 6 in a 55 run keeps a report from being dry",
    "a 6 in section 2, 4 or 5 keeps a report from being dry",
    "a dry slot 2 has tR 2",
    "a dry slot 6 has tR 2",
    "a dry slot 8 has tR 4",
    "dry slots 0, 4 and 8 have tR 1",
    "a dry report has tR 0",
    "slot 0 is never dry",
    "slots 1, 3, 5 and 7 can be dry",
    "iR 4 is dry too",
    "an iR other than 0 to 4 is dry too",
    "a tR of / under iR 3 is taken from the slot",
    "no report is dry",
    "a dry R is 1",
    "a dry report of a bulletin leaves R missing",
    "a dry report of a file leaves R missing",
    "a dry 0 has state 3",
    "a dry 0 is suspect once settled",
    "a shower six hours before a dry slot is lost",
    "R discarded six hours before a dry slot is taken as 0",
    "a half looks six hours back only to iR 3",
    "under iR 3 and tR 2 a half is the sum of both slots",
    "the second half alone looks six hours back",
    "the first half alone looks six hours back",
    "R above 0 under iR 3 and tR 2 gives way to R six hours before",
    "R missing under iR 3 and tR 2 gives way to R six hours before",
    "a half looks six hours back to the raw R",
    "a half is dry by its raw R",
    "a half is dry under any iR",
    "a half is dry with any tR",
    "a half looks six hours back to any tR",
    "a half looks three hours back",
    "a slot that was not filed ends no dry half",
    "24 hours do not decide first over a dry slot 8",
    "a step works on the raw cells",
    "internal reads the head's dd in portions",
    "the copies of dd are 0 after internal",
    "the copies of dd stay after fill",
    "the last step settles a station that a report came for",
    "the last step leaves its station unsettled",
    "a step with no settling under way is accepted",
    "a step with no settling under way begins one",
    "a step for a station that is not in the store is answered 14",
    "a step on an unsound store is answered 14",
    "a step with no settling under way is answered 11",
    "a step makes all that are left",
    "the first step makes internal too",
    "a step counts on over untouched cells",
    "after a report the steps leave the cells as they are",
    "after a report a step is answered 14",
    "after a report the next step begins again",
    "a step forgets that a report came",
    "a step is made for every station",
    "begin is refused while a settling is under way",
    "begin changes nothing while a settling is under way",
    "begin keeps that a report came",
    "begin does not copy the cells",
    "begin does not copy dd",
    "begin again leaves the copies of dd as they are",
    "begin copies 0 for the dd of an unfiled slot",
    "begin copies the cells of filed slots alone",
    "begin makes range already",
    "begin leaves the settled number as it is",
    "begin begins for every station",
    "begin drops the settlings of other stations",
    "settle leaves the copies of dd",
    "settle is refused while a settling is under way",
    "settle makes the steps that are left",
    "settle reads the copies of dd",
    "settle leaves the settled number of a settling under way",
    "settle after a report leaves its station unsettled",
    "a report clears its slot's copy of dd",
    "a report writes its dd over the copy",
    "a report leaves a copy of its dd with no settling under way",
    "a report does not count while a settling is under way",
    "a report drops a settling under way",
    "a second report drops a settling under way",
    "a second report counts four more",
    "a report goes to the checked cells of a settling under way",
    "reports are refused while a settling is under way",
    "a report begins the settling again",
    "reports of a bulletin do not count",
    "a report in a free slot does not count",
    "a report that replaces does not count",
    "a report counts for every station",
    "NIL counts as a report",
    "a refused report counts",
    "cell gives a cell while a settling is under way",
    "day gives a line while a settling is under way",
    "cell and day are answered 14 while a settling is under way",
    "a copy of 37 is sound",
    "a copy of 101 is sound",
    "the copies of unfiled slots are not tested",
    "slot 8's copy is not tested",
    "a settled number of 10 is sound",
    "of a settled number the low byte is tested",
    "a copy of 99 is unsound",
    "a copy of 100 is unsound",
    "a copy that is not its slot's dd is unsound",
    "an unfiled slot's copy other than 100 is unsound",
    "settled numbers above 5 are unsound",
    "the warmest slot is the earliest of equal ones",
    "the coldest slot is the latest of equal ones",
    "the warmest slot is the earliest of equal ones, the coldest the latest",
    "the warmest slot is the second of equal ones",
    "the warmest slot is the last of equal ones in a row",
    "the warmest slot is the last of equal ones before a missing T",
    "slot 8 is the warmest where it is as warm as the warmest",
    "slot 8 can be the warmest and the coldest",
    "a mended T gives way to an equal one that was read",
    "a T that was read gives way to an equal one that is mended",
    "a T with a flag gives way to an equal one without",
    "a corrected T is neither the warmest nor the coldest",
    "a filled T is neither the warmest nor the coldest",
    "a suspect T is neither the warmest nor the coldest",
    "slot 0 is neither the warmest nor the coldest",
    "slot 7 is neither the warmest nor the coldest",
    "the warmest and the coldest slot are those of the raw T",
    "a missing T is compared as 0",
    "below 0 the warmest slot is the earliest of equal ones",
    "where all T are equal both slots are the earliest",
    "where all T are equal both slots are the latest",
    "without any T both slots are 0",
    "one T alone gives no slot",
    "a T equal to the one before it is the warmest",
    "temperatures are compared in fifths of a degree",
    "temperatures are compared without their signs",
];

static FAULT: AtomicUsize = AtomicUsize::new(0);

/// Chooses the fault of every call from now on.
pub fn set_fault(fault: usize) {
    FAULT.store(fault, Ordering::Relaxed);
}

fn fault(number: usize) -> bool {
    FAULT.load(Ordering::Relaxed) == number
}

/// Sets a field of a store.
fn set(store: &mut [u8], record: Record, field: Field, number: u32) {
    for (at, byte) in record.edit(store::stations(store), field, number) {
        store[at] = byte;
    }
}

/// What an unsound store is taken for.
fn taken_for_sound(store: &[u8]) -> Option<Vec<u8>> {
    if fault(32) {
        return Some(humid_temperatures_read(store));
    }
    if fault(51) || fault(52) {
        return Some(heads_taken_for_sound(store));
    }
    portions::taken_for_sound(store)
}

/// The reference with the fault that was chosen.
pub struct Mock;

impl Calls for Mock {
    fn open(&self, store: &mut [u8], year: u32, month: u32, day: u32, stations: &[u32], rows: &[u16]) -> u32 {
        let before = store.last().copied();
        let year = if fault(3) { year & 0xffff } else { year };
        let number = Reference.open(store, year, month, day, stations, rows);
        if let (Some(before), Some(last)) = (before, store.last_mut()) {
            if fault(1) && number == 0 {
                *last = before;
            }
            if fault(2) && number != 0 {
                *last = last.wrapping_add(1);
            }
        }
        number
    }

    fn file(&self, store: &mut [u8], text: &[u8], rank: u32) -> u32 {
        if portions::taken_for_unsound(store) {
            return 9;
        }
        if let Some(number) = portions::file(store, text, rank, false) {
            return number;
        }
        let before = store.to_vec();
        let number = rank::file(store, text, rank);
        let nil = text.ends_with(b"NIL=");
        if fault(4) && number == 5 {
            return 3;
        }
        let entry = Record::Entry { index: 0 };
        if fault(5) && number == 0 {
            let at = entry.at(store::stations(store));
            store[at..at + ENTRY].copy_from_slice(&before[at..at + ENTRY]);
        }
        if (fault(6) && number == 8) || (fault(7) && number == 0 && nil) {
            set(store, entry, SETTLED, 0);
        }
        if number == 0 {
            humidity::filed(store, text);
            dry::filed(store, text, false);
        }
        number
    }

    fn settle(&self, store: &mut [u8], station: u32) -> u32 {
        if portions::taken_for_unsound(store) {
            return 9;
        }
        let number = portions::settle(store, station);
        if number == 0 {
            humidity::settled(store, station);
            dry::settled(store, station);
        }
        if fault(8) && number == 0 {
            let n = store::stations(store);
            for record in Record::all(n).filter(|record| matches!(record, Record::Checked { .. })) {
                if store[record.at(n) + STATE.at] == store::CORRECTED {
                    set(store, record, FLAG, 0);
                }
            }
        }
        number
    }

    fn begin(&self, store: &mut [u8], station: u32) -> u32 {
        if portions::taken_for_unsound(store) {
            return 9;
        }
        portions::begin(store, station)
    }

    fn step(&self, store: &mut [u8], station: u32) -> u32 {
        if portions::taken_for_unsound(store) {
            return 9;
        }
        portions::step(store, station)
    }

    fn cell(&self, store: &[u8], station: u32, element: u32, slot: u32, out: &mut [i32; 3]) -> u32 {
        let number = Reference.cell(store, station, element, slot, out);
        if fault(9) && number == 12 && Reference.cell(store, station, 0, 0, &mut [0; 3]) == 11 {
            return 11;
        }
        if fault(10) && number != 0 {
            *out = [0; 3];
        }
        if let (9, Some(store)) = (number, taken_for_sound(store)) {
            return Reference.cell(&store, station, element, slot, out);
        }
        if number == 11 {
            return portions::unsettled(store, station, false, |store| {
                Reference.cell(store, station, element, slot, out)
            });
        }
        if fault(33) && number == 0 && out[0] == store::HUMIDITY.into() {
            out[0] = store::READ.into();
        }
        number
    }

    fn day(&self, store: &[u8], station: u32, means: &mut [f64; 6], numbers: &mut [i32; 14]) -> u32 {
        if fault(16) && store.len() >= HEADER {
            let mut copy = store.to_vec();
            set(&mut copy, Record::Header, ZERO, 0);
            return Reference.day(&copy, station, means, numbers);
        }
        let number = Reference.day(store, station, means, numbers);
        if fault(11) && number == 0 && numbers[0] == 2 {
            means[0] = f64::from_bits(means[0].to_bits() + 1);
        }
        if fault(12) && number == 0 {
            numbers[6] = 1;
        }
        if fault(13) && number != 0 {
            means[5] = 0.0;
        }
        if let (9, Some(store)) = (number, taken_for_sound(store)) {
            return Reference.day(&store, station, means, numbers);
        }
        if number == 11 {
            return portions::unsettled(store, station, true, |store| {
                Reference.day(store, station, means, numbers)
            });
        }
        if number == 0 {
            humidity::day(store, station, means, numbers);
            vapour::day(store, station, means, numbers);
            dry::day(store, station, numbers);
            ties::day(store, station, numbers);
        }
        number
    }

    fn bulletin(&self, store: &mut [u8], text: &[u8], rank: u32, counts: &mut [u32; 2]) -> u32 {
        if fault(15) && text.len() == 16384 {
            return 1;
        }
        let number = dry::bulletin(store, text, rank, counts)
            .or_else(|| portions::bulletin(store, text, rank, counts))
            .unwrap_or_else(|| rank::bulletin(store, text, rank, counts));
        if fault(14) && number == 0 && matches!(text.last(), Some(b' ' | b'\r' | b'\n')) {
            counts[1] += 1;
        }
        number
    }

    fn vapour_table(&self, entries: &mut [u16]) -> u32 {
        let number = Reference.vapour_table(entries);
        if fault(17) && number == 0 {
            entries[1000] = entries[999];
        }
        if let (true, Some(last)) = (fault(18) && number != 0, entries.last_mut()) {
            *last = last.wrapping_add(1);
        }
        if fault(19) && number != 0 {
            return entries.len() as u32;
        }
        number
    }
}
