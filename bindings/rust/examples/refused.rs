//! A call refused with each number, and what the number means.

use esfenruk::{Date, Element, Refusal, Row, Store, HIGHEST_RANK, ORDINARY, SLOTS};

const STATION: u32 = 40001;
const REPORT: &str = "AAXX 11061 40001 12360 62704 10103 20071 40132 60042=";

fn main() -> Result<(), Refusal> {
    let day = Date::new(2024, 4, 11);
    let stations = [(STATION, Row::Lowland)];
    let mut store = Store::open(day, &stations)?;
    store.file(REPORT, ORDINARY)?;

    let refusals = [
        store.file("AAXX", ORDINARY).err(),
        store.file("aaxx=", ORDINARY).err(),
        store.file("=", ORDINARY).err(),
        store.file("AAXX 11062 40001 NIL=", ORDINARY).err(),
        store.file("AAXX 11061=", ORDINARY).err(),
        store.settle(40002).err(),
        store.file("AAXX 11071 40001 NIL=", ORDINARY).err(),
        store.file(REPORT, ORDINARY).err(),
        Store::from_bytes([]).day(STATION).err(),
        Store::open(Date::new(2024, 2, 30), &stations).err(),
        store.day(STATION).err(),
        store.cell(STATION, Element::Temperature, SLOTS).err(),
        store.file(REPORT, HIGHEST_RANK + 1).err(),
        store.step(STATION).err(),
    ];
    for refusal in refusals.into_iter().flatten() {
        println!("{} {refusal}", refusal.number());
    }
    Ok(())
}
