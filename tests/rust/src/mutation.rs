//! Changes of a script that keep its form, for the fuzzer: a figure, a word or a line at a time.

use crate::generate::rng::Rng;
use std::ops::Range;

/// One change.
pub fn mutate(rng: &mut Rng, script: &mut Vec<u8>) {
    match rng.below(8) {
        0..=2 => figure(rng, script),
        3..=5 => part(rng, script, |byte| matches!(byte, b' ' | b'\n' | b'=' | b',' | b'~')),
        _ => part(rng, script, |byte| byte == b'\n'),
    }
}

/// Another figure, or `/`, for one.
fn figure(rng: &mut Rng, script: &mut [u8]) {
    let places: Vec<usize> = (0..script.len()).filter(|&at| matches!(script[at], b'/'..=b'9')).collect();
    if !places.is_empty() {
        script[rng.pick(&places)] = rng.pick(b"0123456789/");
    }
}

/// A part between two ends is removed, doubled, or replaced by another.
fn part(rng: &mut Rng, script: &mut Vec<u8>, is_end: fn(u8) -> bool) {
    let parts = parts(script, is_end);
    if parts.is_empty() {
        return;
    }
    let (one, other) = (parts[rng.below(parts.len())].clone(), parts[rng.below(parts.len())].clone());
    let copy = script[other].to_vec();
    match rng.below(4) {
        // With the end after it.
        0 => drop(script.drain(one.start..script.len().min(one.end + 1))),
        1 => {
            let end = script.get(one.end).copied().unwrap_or(b'\n');
            script.splice(one.start..one.start, copy.into_iter().chain([end]));
        }
        _ => drop(script.splice(one, copy)),
    }
}

fn parts(script: &[u8], is_end: fn(u8) -> bool) -> Vec<Range<usize>> {
    let mut parts = Vec::new();
    let mut start = 0;
    for at in 0..=script.len() {
        if at == script.len() || is_end(script[at]) {
            if start < at {
                parts.push(start..at);
            }
            start = at + 1;
        }
    }
    parts
}
