//! The printed day of the paper: one report filed, the station settled, its day line printed.

use esfenruk::{Date, Refusal, Row, Store, ORDINARY};

const STATION: u32 = 40001;

/// A number, or `-` where it is absent.
fn shown<N: ToString>(number: Option<N>) -> String {
    number.map_or("-".to_string(), |number| number.to_string())
}

fn main() -> Result<(), Refusal> {
    let mut store = Store::open(Date::new(2024, 4, 11), &[(STATION, Row::Lowland)])?;
    store.file("AAXX 11061 40001 12360 62704 10103 20071 40132 60042=", ORDINARY)?;
    store.settle(STATION)?;
    let line = store.day(STATION)?;

    print!("{STATION:05} {} {} {}", shown(line.rain), shown(line.warmest), shown(line.coldest));
    println!(" {} {} {} {}", line.read, line.corrected, line.filled, line.missing);
    Ok(())
}
