//! The harness for libFuzzer (see tests/fuzz): an input is a script, its calls are made on the
//! reference and on the engine, and a difference ends the program.

#![no_main]

use reading::comparison::Pair;
use reading::fence::Fenced;
use reading::generate::rng::Rng;
use reading::mutation::mutate;
use reading::Engine;
use std::process::abort;

thread_local! {
    static ENGINE: Fenced<'static> = {
        #[cfg(feature = "mock")]
        reading::mock::set_fault(std::env::var("FAULT").map_or(0, |word| word.parse().expect("FAULT=N")));
        Fenced::new(&Engine)
    };
}

/// # Safety
/// `input` is of `len` bytes.
#[no_mangle]
pub unsafe extern "C" fn LLVMFuzzerTestOneInput(input: *const u8, len: usize) -> i32 {
    // libFuzzer gives no pointer with a length of 0.
    let script = if len == 0 { &[] } else { std::slice::from_raw_parts(input, len) };
    ENGINE.with(|engine| {
        let mut pair = Pair::new(engine);
        for (i, step) in reading::script::steps(script).iter().enumerate() {
            if let Err(difference) = pair.step(step) {
                eprintln!("DIFFERENCE at step {i}\n{difference}");
                abort();
            }
            pair.mend();
        }
    });
    0
}

extern "C" {
    /// libFuzzer's own changes.
    fn LLVMFuzzerMutate(input: *mut u8, len: usize, most: usize) -> usize;
}

/// Half of the changes are libFuzzer's, half keep the form of a script.
///
/// # Safety
/// `input` has room for `most` bytes, of which `len` are set.
#[no_mangle]
pub unsafe extern "C" fn LLVMFuzzerCustomMutator(
    input: *mut u8,
    len: usize,
    most: usize,
    seed: u32,
) -> usize {
    let rng = &mut Rng::new(seed.into());
    if rng.chance(50) {
        return LLVMFuzzerMutate(input, len, most);
    }
    let mut script = std::slice::from_raw_parts(input, len).to_vec();
    for _ in 0..1 + rng.below(3) {
        mutate(rng, &mut script);
    }
    script.truncate(most);
    std::slice::from_raw_parts_mut(input, script.len()).copy_from_slice(&script);
    script.len()
}
