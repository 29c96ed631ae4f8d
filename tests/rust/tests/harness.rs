//! The comparison itself: it passes where both sides are the same, and notices every fault of the mock.

use reading::calls::Reference;
use reading::comparison::compare;
use reading::mock::{set_fault, FAULTS};
use reading::Engine;

/// Episode by episode up to the first difference, which there is within so many calls or not.
fn differs_within(calls: u64) -> bool {
    let mut passed = 0;
    for seed in 1.. {
        let outcome = compare(&Engine, 1, seed, &mut |_, _| {}, &mut |_| {});
        passed += outcome.passed;
        if outcome.failed > 0 || passed >= calls {
            return outcome.failed > 0;
        }
    }
    false
}

#[test]
fn notices_each_fault() {
    for (fault, name) in FAULTS.iter().enumerate() {
        set_fault(fault);
        assert_eq!(differs_within(20_000), fault > 0, "{name}");
    }
}

#[test]
fn reaches_every_row() {
    let outcome = compare(&Reference, 300_000, 1, &mut |_, _| {}, &mut |_| {});
    assert_eq!(outcome.reached.gaps(), []);
}

#[test]
fn the_same_seed_gives_the_same_calls() {
    let steps = |seed| format!("{:?}", reading::generate::episode(seed));
    assert_eq!(steps(5), steps(5));
    assert_ne!(steps(5), steps(6));
}
