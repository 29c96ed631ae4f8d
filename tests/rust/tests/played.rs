//! The calls written down with the answers expected, on the reference and, where there is one, on the engine.

use reading::calls::{Calls, Reference};
use reading::played::{crc32, play};

/// Those of the states after S-5, S-6 and S-7, all as they hold after the last.
const CALLS: [&str; 3] = [
    include_str!("../data/calls-05.txt"),
    include_str!("../data/calls-06.txt"),
    include_str!("../data/calls-07.txt"),
];

fn plays(calls: &dyn Calls) {
    for written in CALLS {
        let (lines, differences) = play(calls, written);
        assert!(
            differences.is_empty(),
            "{} of {lines} lines differ\n{}",
            differences.len(),
            differences.join("\n")
        );
        assert!(lines > 0);
    }
}

#[test]
fn on_the_reference() {
    plays(&Reference);
}

#[test]
#[cfg(feature = "engine")]
fn on_the_engine() {
    plays(&reading::fence::Fenced::new(&reading::Engine));
}

/// A line whose answer, store or form is another is told of.
#[test]
fn differences_are_told() {
    assert_eq!(crc32(b"123456789"), 0xcbf4_3926);
    let crc = |text: &[u8]| format!("{:08x}", crc32(text));
    let zeros = crc(&[0; 3]);
    let differing = |line: &str| play(&Reference, line).1.len();
    assert_eq!(differing(&format!("new 3 0 > - {zeros}\nday 1 > refused 9 {zeros}")), 0);
    assert_eq!(differing(&format!("new 3 1 > - {zeros}")), 1);
    assert_eq!(differing(&format!("new 3 0 > - {zeros}\nday 1 > refused 6 {zeros}")), 1);
    assert_eq!(differing(&format!("new 3 0 > - {zeros}\nsettle > refused 9 {zeros}")), 1);
    assert_eq!(differing(&format!("new 3 0 > - {zeros}\nfile - 0 > refused 9 {zeros}")), 0);
    assert_eq!(differing(&format!("new 3 0 > - {zeros}\nfile - > refused 9 {zeros}")), 1);
    assert_eq!(differing(&format!("new 3 0 > - {zeros}\nwrite 1 6162 > - {}", crc(b"\0ab"))), 0);
    assert_eq!(differing(&format!("new 3 0 > - {zeros}\nwrite 2 6162 > - {zeros}")), 1);
}
