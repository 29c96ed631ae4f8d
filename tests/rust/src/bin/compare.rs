//! compare [CALLS [SEED]]: the reference and the engine on calls made from the seed.
//! compare CALLS SEED trace: prints every step before it is made, and the number that it gave.
//! compare CALLS SEED wrong: (mock only) each fault of the mock must be noticed.
//! compare sweep [PART OF]: all of the small sets of `sweeps`, or every OF-th from the PART-th on.
//! compare dayline PROGRAM [INPUTS [SEED]]: the program `dayline` and the reading's, on generated inputs.
//! compare replay FILE..: the calls written in the files (see `script`).
//! compare show FILE..: the same, printed as by trace.
//! compare play FILE..: the calls written in the files with the answers expected (see `played`), on each of the two.
//! compare transcript NAME..: what each of the two prints for the lines of NAME.in, beside NAME.out (see `transcript`).
//! compare texts NAME.., compare cells NAME..: the same where the lines are texts or cells (`transcript::texts`, `cells`).
//!
//! The last line is 'N passed, M failed'; the status is 0 only where none failed.

use reading::calls::{Calls, Reference};
use reading::comparison::{compare, Heard, Outcome, Pair};
use reading::dayline::DayLines;
use reading::fence::Fenced;
use reading::generate::{dayline_input, Step};
use reading::played;
use reading::reached::{Reached, ROWS};
use reading::sweeps::SWEEPS;
use reading::transcript;
use reading::Engine;
use std::fs::{self, File};
use std::io;
use std::process::{Command, ExitCode};

/// So many differences are printed; all are counted.
const SHOWN: u64 = 10;

fn main() -> ExitCode {
    let arguments: Vec<String> = std::env::args().skip(1).collect();
    println!("engine: {}", reading::ENGINE);
    match arguments.first().map(String::as_str) {
        Some("sweep") => return sweep(&arguments[1..]),
        Some("dayline") => return dayline(&arguments[1..]),
        Some("replay") => return end(replay(&arguments[1..], &mut |_, _| {})),
        Some("show") => return end(replay(&arguments[1..], &mut |file, heard| print_heard(&file, heard))),
        Some("play") => return end(on_both(&arguments[1..], play)),
        Some("transcript") => return end(on_both(&arguments[1..], print)),
        Some("texts") => return end(on_both(&arguments[1..], texts)),
        Some("cells") => return end(on_both(&arguments[1..], cells)),
        _ => {}
    }
    let number = |at: usize, default: u64| {
        arguments.get(at).map_or(Ok(default), |word| word.parse().map_err(|_| word.clone()))
    };
    let (Ok(calls), Ok(seed)) = (number(0, 1_000_000), number(1, 1)) else { return usage() };
    match arguments.get(2).map(String::as_str) {
        None => end(side_by_side(calls, seed, &mut |_, _| {})),
        Some("trace") => end(side_by_side(calls, seed, &mut |seed, heard| print_heard(&seed, heard))),
        #[cfg(feature = "mock")]
        Some("wrong") => end(faults(calls, seed)),
        Some(_) => usage(),
    }
}

fn usage() -> ExitCode {
    eprintln!("usage: compare [CALLS [SEED [trace]]] | sweep [PART OF] | dayline PROGRAM [INPUTS [SEED]] | replay FILE.. | show FILE.. | play FILE.. | transcript|texts|cells NAME..");
    ExitCode::from(2)
}

/// The last line and the status.
fn end((passed, failed): (u64, u64)) -> ExitCode {
    println!("{passed} passed, {failed} failed");
    ExitCode::from(u8::from(failed > 0))
}

fn side_by_side(calls: u64, seed: u64, hear: &mut dyn FnMut(u64, Heard)) -> (u64, u64) {
    let mut shown = 0;
    let outcome = compare(&Fenced::new(&Engine), calls, seed, hear, &mut |difference| {
        shown += 1;
        if shown <= SHOWN {
            println!("{difference}");
        }
    });
    print_reached(&outcome.reached);
    println!("seed {seed}");
    (outcome.passed, outcome.failed)
}

fn sweep(arguments: &[String]) -> ExitCode {
    let number = |at: usize| arguments.get(at).map_or(Ok(1), |word| word.parse::<usize>());
    let (Ok(part @ 1..), Ok(of @ 1..)) = (number(0), number(1)) else { return usage() };
    if part > of {
        return usage();
    }
    let engine = Fenced::new(&Engine);
    let mut outcome = Outcome::default();
    for (name, sweep) in SWEEPS.iter().skip(part - 1).step_by(of) {
        let before = outcome.passed;
        let mut pair = Pair::new(&engine);
        let mut difference = None;
        sweep(&mut |step| {
            if difference.is_none() {
                difference = outcome.step(&mut pair, &step).err();
            }
        });
        println!("{name}: {} calls", outcome.passed - before);
        if let Some(difference) = difference {
            println!("DIFFERENCE\n{difference}");
        }
    }
    end((outcome.passed, outcome.failed))
}

/// Runs the program on each input and compares what it prints.
fn dayline(arguments: &[String]) -> ExitCode {
    let number = |at: usize, default: u64| arguments.get(at).map_or(Ok(default), |word| word.parse());
    let (Some(program), Ok(inputs), Ok(seed)) = (arguments.first(), number(1, 1000), number(2, 1)) else {
        return usage();
    };
    let file = std::env::temp_dir().join(format!("dayline-{}", std::process::id()));
    let (mut passed, mut failed) = (0, 0);
    for seed in seed..seed + inputs {
        let input = dayline_input(seed);
        fs::write(&file, &input).expect("a file for the input");
        let mut lines = DayLines::default();
        lines.feed(&input);
        let expected = lines.finish();
        let from = File::open(&file).expect("the input");
        let output = Command::new(program).stdin(from).output().expect("the program runs");
        if output.status.success() && output.stdout == expected.as_bytes() {
            passed += 1;
            continue;
        }
        failed += 1;
        if failed <= SHOWN {
            let printed = String::from_utf8_lossy(&output.stdout);
            println!("DIFFERENCE in seed {seed}, {}\n{}", output.status, input.escape_ascii());
            println!("  expected:\n{expected}  printed:\n{printed}");
        }
    }
    let _ = fs::remove_file(&file);
    end((passed, failed))
}

fn replay(files: &[String], hear: &mut dyn FnMut(&str, Heard)) -> (u64, u64) {
    let engine = Fenced::new(&Engine);
    let mut outcome = Outcome::default();
    for file in files {
        let Ok(script) = fs::read(file) else {
            println!("{file}: cannot be read");
            outcome.failed += 1;
            continue;
        };
        let steps = reading::script::steps(&script);
        if let Err(difference) = outcome.steps(&engine, &steps, &mut |heard| hear(file, heard)) {
            println!("DIFFERENCE in {file}, {difference}");
        }
    }
    (outcome.passed, outcome.failed)
}

/// What is written down in each file, on the reference and on the engine: how many lines there are, and those that differ.
fn on_both(files: &[String], lines: fn(&dyn Calls, &str) -> io::Result<(usize, Vec<String>)>) -> (u64, u64) {
    let engine = Fenced::new(&Engine);
    let (mut passed, mut failed) = (0, 0);
    for file in files {
        for (name, calls) in [("reference", &Reference as &dyn Calls), ("engine", &engine)] {
            let Ok((all, differences)) = lines(calls, file) else {
                println!("{file}: cannot be read");
                failed += 1;
                continue;
            };
            for difference in differences.iter().take(SHOWN as usize) {
                println!("DIFFERENCE of the {name} in {file}, {difference}");
            }
            passed += (all - differences.len()) as u64;
            failed += differences.len() as u64;
        }
    }
    (passed, failed)
}

fn play(calls: &dyn Calls, file: &str) -> io::Result<(usize, Vec<String>)> {
    Ok(played::play(calls, &fs::read_to_string(file)?))
}

/// The lines of NAME.in, and what is to be printed for them.
fn written(name: &str) -> io::Result<(Vec<u8>, String)> {
    Ok((fs::read(format!("{name}.in"))?, fs::read_to_string(format!("{name}.out"))?))
}

fn print(calls: &dyn Calls, name: &str) -> io::Result<(usize, Vec<String>)> {
    let (lines, expected) = written(name)?;
    Ok(transcript::check(calls, &String::from_utf8_lossy(&lines), &expected))
}

fn texts(calls: &dyn Calls, name: &str) -> io::Result<(usize, Vec<String>)> {
    let (lines, expected) = written(name)?;
    Ok(transcript::texts::check(calls, &lines, &expected))
}

fn cells(calls: &dyn Calls, name: &str) -> io::Result<(usize, Vec<String>)> {
    let (lines, expected) = written(name)?;
    Ok(transcript::cells::check(calls, &String::from_utf8_lossy(&lines), &expected))
}

fn print_heard(from: &dyn std::fmt::Display, heard: Heard) {
    match heard {
        Heard::Step(Step::Lend(buffer)) => println!("{from}: a buffer of {} bytes", buffer.len()),
        Heard::Step(Step::Call(call)) => println!("{from}: {call}"),
        Heard::Step(Step::Damaged { edits, call }) => println!("{from}: {edits:?}, then {call}"),
        Heard::Number(number) => println!("    {number}"),
    }
}

/// A row for each call with its answers, then for the places where a rule turns, so that gaps show.
fn print_reached(reached: &Reached) {
    for &(row, numbers) in ROWS {
        print!("{row:42}");
        for &number in numbers {
            print!("  {number}: {}", reached.count(row, number));
        }
        println!();
    }
    println!("never reached: {:?}", reached.gaps());
}

#[cfg(feature = "mock")]
fn faults(calls: u64, seed: u64) -> (u64, u64) {
    use reading::mock::{set_fault, FAULTS};
    let (mut passed, mut failed) = (0, 0);
    for (fault, name) in FAULTS.iter().enumerate() {
        set_fault(fault);
        let mut first = None;
        let outcome = compare(&Engine, calls, seed, &mut |_, _| {}, &mut |difference| {
            first.get_or_insert(difference);
        });
        println!("{name}: {} of {} calls differ", outcome.failed, outcome.passed + outcome.failed);
        if let Some(difference) = first {
            println!("{difference}");
        }
        // The first fault is none.
        if (outcome.failed > 0) == (fault > 0) {
            passed += 1;
        } else {
            failed += 1;
        }
    }
    (passed, failed)
}
