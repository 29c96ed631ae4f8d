//! Episodes in which stations are settled in portions (document 02, S-6).

use super::rng::Rng;
use super::{any_rank, damaged, look, one_by_one, texts, Call, Scene, Step};
use crate::reference::store::HIGHEST_RANK;

/// Some reports come, then a station is begun and stepped, with reports and other calls between, and read; then again,
/// for it or another.
pub fn in_portions(rng: &mut Rng) -> Vec<Step> {
    let mut scene = Scene::new(rng);
    let mut steps = scene.start(rng);
    if rng.chance(80) {
        one_by_one(rng, &mut scene, &mut steps);
    }
    for _ in 0..2 + rng.below(4) {
        let index = rng.below(scene.weather.len());
        let station = scene.opening.stations[index];
        if rng.chance(90) {
            steps.push(Step::Call(Call::Begin { station }));
        }
        let between = rng.pick(&[0, 1, 1, 2, 4]);
        for _ in 0..if rng.chance(70) { 4 } else { rng.below(6) } {
            for _ in 0..rng.below(between + 1) {
                steps.push(between_steps(rng, &mut scene, index));
            }
            steps.push(Step::Call(Call::Step { station }));
        }
        steps.extend([look(rng, station), Call::Day { station }].map(Step::Call));
        if rng.chance(30) {
            steps.extend([Call::Settle { station }, Call::Day { station }].map(Step::Call));
        }
    }
    steps
}

/// What comes between two steps of a station: mostly a report for it, at any rank, at times NIL or refused.
fn between_steps(rng: &mut Rng, scene: &mut Scene, index: usize) -> Step {
    let station = scene.opening.stations[index];
    let other = scene.opening.stations[rng.below(scene.weather.len())];
    let slot = rng.below(9);
    let any_letter = rng.below(HIGHEST_RANK as usize + 1) as u32;
    let rank = rng.pick(&[0, 0, 1, 2, 3, any_letter]);
    Step::Call(match rng.below(24) {
        0..=9 => return scene.filing(rng, index, slot, rank),
        10 | 11 => {
            let nil = scene.nil(rng, index, slot);
            Call::File { text: texts::join(rng, &nil), rank }
        }
        12 => Call::File { text: scene.any_text(rng), rank: any_rank(rng) },
        13 => {
            let reports = [index, rng.below(scene.weather.len())];
            let reports = reports.map(|index| scene.report(rng, index, slot).split_off(2));
            let heading = texts::heading_of(rng, &scene.opening, slot);
            Call::Bulletin { text: texts::bulletin(rng, &heading, &reports), rank }
        }
        14 => Call::Settle { station: rng.pick(&[station, other]) },
        15 => Call::Begin { station: rng.pick(&[station, other]) },
        16 => Call::Step { station: rng.pick(&[station, other]) },
        17 | 18 => look(rng, station),
        19 | 20 => Call::Day { station },
        21 => scene.any_call(rng),
        _ => {
            let call = scene.any_call(rng);
            return damaged(rng, &scene.opening, call);
        }
    })
}
