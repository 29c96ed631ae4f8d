//! The benchmark: the engine and the plain Rust of this crate, which makes the same checks and has the same two
//! constants for the vapour table, on the same inputs. The two take turns, and the ratio is the median of the turns'
//! ratios.
//! bench [TURNS]

use reading::calls::{Calls, Reference};
use reading::reference::layout::store_length;
use reading::reference::store::ORDINARY;
use reading::reference::vapour;
use reading::Arrays;
use std::hint::black_box;
use std::time::Instant;

const STATIONS: u32 = 32;
const DATE: [u32; 3] = [2024, 4, 11];

/// Their places among the works.
const SINGLE: usize = 0;
const BULLETINS: usize = 1;

/// One measured piece of work: so many calls, on a copy of a store.
struct Work {
    name: &'static str,
    /// What a nanosecond figure is for.
    unit: &'static str,
    units: u32,
    store: Vec<u8>,
    /// Makes the calls; the sum of all that they answer, so that both can be seen to do the same.
    run: Run,
}

type Run = Box<dyn Fn(&dyn Calls, &mut [u8]) -> u64>;

fn main() {
    let turns: usize = std::env::args().nth(1).map_or(201, |word| word.parse().expect("bench [TURNS]"));
    println!("engine: {}; {turns} turns", reading::ENGINE);
    let works = works();
    println!("{:52} {:>12} {:>12} {:>7}", "", "plain Rust", "engine", "ratio");
    let mut figures = Vec::new();
    for work in works {
        let (plain, engine, ratio) = measure(&work, turns);
        println!(
            "{:52} {plain:9.0} ns {engine:9.0} ns {ratio:7.2}",
            format!("{}, a {}", work.name, work.unit)
        );
        figures.push((plain, engine));
    }
    let (single, bulletin) = (figures[SINGLE], figures[BULLETINS]);
    println!(
        "{:52} {:9.1} x  {:9.1} x",
        "reports a second, bulletins to single",
        single.0 / bulletin.0,
        single.1 / bulletin.1
    );
}

/// Nanoseconds a unit for both (medians), and the median ratio.
fn measure(work: &Work, turns: usize) -> (f64, f64, f64) {
    let (mut plain, mut engine, mut ratios) = (Vec::new(), Vec::new(), Vec::new());
    for turn in 0..turns + 2 {
        // Each goes first every other turn.
        let (p, e) = if turn % 2 == 0 {
            let p = once(work, &Reference);
            (p, once(work, &Arrays))
        } else {
            let e = once(work, &Arrays);
            (once(work, &Reference), e)
        };
        assert_eq!(p.1, e.1, "{}: the answers differ", work.name);
        // The first two turns warm up.
        if turn >= 2 {
            plain.push(p.0);
            engine.push(e.0);
            ratios.push(e.0 / p.0);
        }
    }
    (median(plain), median(engine), median(ratios))
}

/// Nanoseconds a unit, and the answers.
fn once(work: &Work, calls: &dyn Calls) -> (f64, u64) {
    let mut store = work.store.clone();
    let start = Instant::now();
    let sum = (work.run)(black_box(calls), black_box(&mut store));
    let time = start.elapsed();
    (time.as_nanos() as f64 / f64::from(work.units), black_box(sum))
}

fn median(mut values: Vec<f64>) -> f64 {
    values.sort_by(f64::total_cmp);
    values[values.len() / 2]
}

// ---- The inputs ----

fn station(index: u32) -> u32 {
    40001 + 7 * index
}

/// YYGGiw of a slot of 2024-04-11.
fn heading(slot: u32) -> String {
    let (day, hour) = if slot < 6 { (11, 6 + 3 * slot) } else { (12, 3 * (slot - 6)) };
    format!("{day}{hour:02}1")
}

/// A report of about 80 bytes, without its heading and `=`; one of sixteen has a humidity.
fn body(index: u32, slot: u32) -> String {
    let t = 80 + 3 * (index % 20) + [0, 20, 45, 60, 50, 30, 15, 5, 8][slot as usize];
    let moisture = match (index + 7 * slot) % 16 {
        5 => format!("29{:03}", 40 + index + slot),
        _ => format!("20{:03}", t - 30 - index % 10),
    };
    format!(
        "{:05} 113{:02} {}{:02}{:02} 10{:03} {moisture} 30{:03} 40{:03} 52012 60{:02}1 333 10{:03} 20{:03}",
        station(index),
        50 + (index + slot) % 40,
        (index + slot) % 9,
        1 + (index * 5 + slot) % 36,
        1 + (index + slot) % 15,
        t,
        100 + slot,
        130 + (index + slot) % 40,
        1 + (index + slot) % 30,
        t + 20,
        t - 40,
    )
}

fn report(index: u32, slot: u32) -> Vec<u8> {
    format!("AAXX {} {}=", heading(slot), body(index, slot)).into_bytes()
}

/// A store of so many stations from an index on, with their day filed and settled.
fn settled_store(first: u32, count: u32) -> Vec<u8> {
    let [year, month, day] = DATE;
    let stations: Vec<u32> = (first..first + count).map(station).collect();
    let mut store = vec![0; store_length(stations.len())];
    assert_eq!(Reference.open(&mut store, year, month, day, &stations, &vec![0; stations.len()]), 0);
    for index in first..first + count {
        assert!((0..9).all(|slot| Reference.file(&mut store, &report(index, slot), ORDINARY) == 0));
    }
    assert!(stations.iter().all(|&station| Reference.settle(&mut store, station) == 0));
    store
}

/// The sum of what a day line answers.
fn day_line(calls: &dyn Calls, store: &[u8], station: u32) -> u64 {
    let (mut means, mut numbers) = ([0.0; 6], [0; 14]);
    let number = calls.day(store, station, &mut means, &mut numbers);
    u64::from(number) + ((means[0] + means[5]) * 8.0) as u64 + numbers[7] as u64 + numbers[10] as u64
}

/// The day lines of all stations, in stores of so many: there the soundness test takes less of the time.
fn small_stores(name: &'static str, count: u32) -> Work {
    let firsts = move || (0..STATIONS).step_by(count as usize);
    Work {
        name,
        unit: "line",
        units: STATIONS,
        store: firsts().flat_map(|first| settled_store(first, count)).collect(),
        run: Box::new(move |calls, stores| {
            let stores = firsts().zip(stores.chunks(store_length(count as usize)));
            stores
                .flat_map(|(first, store)| {
                    (first..first + count).map(move |i| day_line(calls, store, station(i)))
                })
                .sum()
        }),
    }
}

type OfStation = fn(&dyn Calls, &mut [u8], u32) -> u32;

/// A call that names a station and has no other argument, for all stations, in stores of so many: the sum of the answers.
fn each_station(calls: &dyn Calls, stores: &mut [u8], count: u32, call: OfStation) -> u64 {
    let stores = stores.chunks_mut(store_length(count as usize));
    let stations = stores.enumerate().flat_map(|(place, store)| {
        let first = place as u32 * count;
        (first..first + count).map(|i| u64::from(call(calls, store, station(i)))).collect::<Vec<_>>()
    });
    stations.sum()
}

/// Settling at once, and in portions, each of these for all stations after the one before, in stores of so many.
fn settling(names: [&'static str; 6], count: u32) -> impl Iterator<Item = Work> {
    let step: OfStation = |calls, store, station| calls.step(store, station);
    let calls: [OfStation; 6] = [
        |calls, store, station| calls.settle(store, station),
        |calls, store, station| calls.begin(store, station),
        step,
        step,
        step,
        step,
    ];
    let mut store: Vec<u8> =
        (0..STATIONS).step_by(count as usize).flat_map(|first| settled_store(first, count)).collect();
    names.into_iter().zip(calls).map(move |(name, call)| {
        let before = store.clone();
        assert_eq!(each_station(&Reference, &mut store, count, call), 0);
        let run = move |calls: &dyn Calls, stores: &mut [u8]| each_station(calls, stores, count, call);
        Work { name, unit: "station", units: STATIONS, store: before, run: Box::new(run) }
    })
}

fn works() -> Vec<Work> {
    let reports: Vec<Vec<u8>> = (0..9).flat_map(|slot| (0..STATIONS).map(move |i| report(i, slot))).collect();
    let bulletins: Vec<Vec<u8>> = (0..9)
        .map(|slot| {
            let reports = (0..STATIONS).map(|i| format!("\r\n{}=", body(i, slot)));
            format!("AAXX {}{}\r\n", heading(slot), reports.collect::<String>()).into_bytes()
        })
        .collect();
    let stations: Vec<u32> = (0..STATIONS).map(station).collect();
    let [year, month, day] = DATE;
    let mut opened = vec![0; store_length(STATIONS as usize)];
    assert_eq!(Reference.open(&mut opened, year, month, day, &stations, &[0; STATIONS as usize]), 0);
    let settled = settled_store(0, STATIONS);
    let bytes: usize = reports.iter().map(Vec::len).sum();
    println!("{} reports of {} bytes on average", reports.len(), bytes / reports.len());

    let lines = stations;
    let mut works = vec![
        Work {
            name: "288 reports at 32 stations, one by one",
            unit: "report",
            units: 288,
            store: opened.clone(),
            run: Box::new(move |calls, store| {
                reports.iter().map(|text| u64::from(calls.file(store, text, ORDINARY))).sum()
            }),
        },
        Work {
            name: "the same in 9 bulletins",
            unit: "report",
            units: 288,
            store: opened,
            run: Box::new(move |calls, store| {
                let mut counts = [0; 2];
                let mut sum = 0;
                for text in &bulletins {
                    sum += u64::from(calls.bulletin(store, text, ORDINARY, &mut counts));
                    sum += u64::from(counts[0]) + 1000 * u64::from(counts[1]);
                }
                sum
            }),
        },
        Work {
            name: "32 day lines",
            unit: "line",
            units: 32,
            store: settled.clone(),
            run: Box::new(move |calls, store| {
                lines.iter().map(|&station| day_line(calls, store, station)).sum()
            }),
        },
        small_stores("the same, in stores of one station", 1),
        small_stores("the same, in stores of two stations", 2),
        Work {
            name: "soundness alone, of 32 stations",
            unit: "test",
            units: 100,
            store: settled,
            // The cell of an absent station: a sound store is refused 6.
            run: Box::new(|calls, store| {
                (0..100).map(|_| u64::from(calls.cell(black_box(store), 99999, 0, 0, &mut [0; 3]))).sum()
            }),
        },
        Work {
            name: "the vapour table",
            unit: "table",
            units: 1,
            store: Vec::new(),
            run: Box::new(|calls, _| {
                let mut entries = [0; vapour::LENGTH];
                let number = calls.vapour_table(&mut entries);
                u64::from(number) + entries.iter().map(|&entry| u64::from(entry)).sum::<u64>()
            }),
        },
    ];
    works.extend(settling(
        [
            "settling 32 stations",
            "beginning 32 stations",
            "range alone, of 32 stations",
            "internal alone, of 32 stations",
            "time alone, of 32 stations",
            "fill alone, of 32 stations",
        ],
        STATIONS,
    ));
    works.extend(settling(
        [
            "settling, in stores of one station",
            "beginning, in stores of one station",
            "range alone, in stores of one station",
            "internal alone, in stores of one station",
            "time alone, in stores of one station",
            "fill alone, in stores of one station",
        ],
        1,
    ));
    works
}
