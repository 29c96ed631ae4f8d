//! The crate beside `include/esfenruk.h`: version, constants, names with their numbers, meanings, calls.

use esfenruk::{Element, Flag, Refusal, Row, HIGHEST_RANK, ORDINARY, SLOTS, STATIONS, VAPOUR_TABLE};
use std::fmt::Debug;

const HEADER: &str = include_str!("../../../include/esfenruk.h");

/// What a macro stands for.
fn defined(name: &str) -> &str {
    let mut lines =
        HEADER.lines().filter_map(|line| line.strip_prefix("#define ESFENRUK_")?.strip_prefix(name));
    lines.find_map(|rest| rest.strip_prefix(' ')).expect(name)
}

/// The names of an enum, without what they all begin with, and their numbers.
fn enumerators(name: &str, prefix: &str) -> Vec<(String, String)> {
    let (_, rest) = HEADER.split_once(&format!("enum esfenruk_{name} {{\n")).expect(name);
    let (lines, _) = rest.split_once("};").expect(name);
    let pair = |line: &str| {
        let (name, number) =
            line.trim().strip_prefix("ESFENRUK_")?.strip_prefix(prefix)?.split_once(" = ")?;
        let number = number.split([',', ' ']).next()?;
        Some((name.to_string(), number.to_string()))
    };
    lines.lines().map(|line| pair(line).expect(line)).collect()
}

/// A variant's name as C has it, and its number.
fn variant(variant: impl Debug, number: u32) -> (String, String) {
    let mut name = String::new();
    for letter in format!("{variant:?}").chars() {
        if letter.is_uppercase() && !name.is_empty() {
            name.push('_');
        }
        name.push(letter.to_ascii_uppercase());
    }
    (name, number.to_string())
}

#[test]
fn version_and_constants() {
    assert_eq!(defined("VERSION"), format!("{:?}", env!("CARGO_PKG_VERSION")));
    assert_eq!(defined("ORDINARY"), ORDINARY.to_string());
    assert_eq!(defined("HIGHEST_RANK"), HIGHEST_RANK.to_string());
    assert_eq!(defined("STATIONS"), STATIONS.to_string());
    assert_eq!(defined("SLOTS"), SLOTS.to_string());
    assert_eq!(defined("ELEMENTS"), Element::ALL.len().to_string());
    assert_eq!(defined("VAPOUR_TABLE"), VAPOUR_TABLE.to_string());
}

#[test]
fn names_with_their_numbers() {
    let refusals = Refusal::ALL.map(|refusal| variant(refusal, refusal.number()));
    assert_eq!(enumerators("refusal", "REFUSED_"), refusals);
    let elements = Element::ALL.map(|element| variant(element, element as u32));
    assert_eq!(enumerators("element", ""), elements);
    let rows = [Row::Lowland, Row::Hill].map(|row| variant(row, row as u32));
    assert_eq!(enumerators("row", "ROW_"), rows);
    let flags = [Flag::None, Flag::Range, Flag::Internal, Flag::Time, Flag::Suspect];
    assert_eq!(enumerators("flag", "FLAG_"), flags.map(|flag| variant(flag, flag as u32)));
}

#[test]
fn meanings() {
    let (_, rest) = HEADER.split_once("case ESFENRUK_ACCEPTED:").expect("the meanings");
    let (cases, _) = rest.split_once("default:").expect("their end");
    let meaning = |line: &str| Some(line.trim().strip_prefix("return \"")?.strip_suffix("\";")?.to_string());
    // The first is that of an accepted call.
    let meanings: Vec<String> = cases.lines().filter_map(meaning).skip(1).collect();
    assert_eq!(meanings, Refusal::ALL.map(|refusal| refusal.to_string()));
}

#[test]
fn calls() {
    let of_c = |line: &'static str| Some(line.strip_prefix("uint32_t esfenruk_")?.split_once('(')?.0);
    let bound = |line: &'static str| Some(line.trim().strip_prefix("pub fn esfenruk_")?.split_once('(')?.0);
    let called: Vec<&str> = HEADER.lines().filter_map(of_c).collect();
    assert_eq!(called, include_str!("../src/c.rs").lines().filter_map(bound).collect::<Vec<_>>());
}

/// A letter and a unit behind it, `T, tenths of a degree Celsius.`, up to a semicolon.
fn letter_and_unit(comment: &str) -> String {
    let (words, _) = comment.split_once(';').unwrap_or((comment, ""));
    words.trim_end_matches(['.', ' ']).replace(" Celsius", "")
}

#[test]
fn letters_and_units() {
    let of_c = |line: &str| {
        line.strip_prefix("    ESFENRUK_")?;
        let (_, comment) = line.split_once("/* ")?;
        Some(letter_and_unit(comment.trim_end_matches("*/")))
    };
    let (_, rest) = HEADER.split_once("enum esfenruk_element {").expect("the elements");
    let header: Vec<String> = rest.lines().skip(1).map_while(of_c).collect();
    let (_, rest) = include_str!("../src/lib.rs").split_once("pub enum Element {").expect("the elements");
    let (variants, _) = rest.split_once("\n}").expect("their end");
    let ours = variants.lines().filter_map(|line| Some(letter_and_unit(line.trim().strip_prefix("/// ")?)));
    assert_eq!(header, ours.collect::<Vec<_>>());
    assert_eq!(header.len(), Element::ALL.len());
}
