//! Series over damaged journals: filled, damaged, asked, put right again, damage by damage.

use super::scenes::{self, Scene};
use super::script::Script;
use crate::rng::Rng;

pub fn unused_parts(rng: &mut Rng, script: &mut Script) {
    let scene = scenes::unused_parts(rng);
    play(rng, script, &scene);
}

pub fn entries(rng: &mut Rng, script: &mut Script) {
    let scene = scenes::entries(rng);
    play(rng, script, &scene);
}

pub fn bodies(rng: &mut Rng, script: &mut Script) {
    let scene = scenes::bodies(rng);
    play(rng, script, &scene);
}

pub fn places(rng: &mut Rng, script: &mut Script) {
    let scene = scenes::places(rng);
    play(rng, script, &scene);
}

pub fn order(rng: &mut Rng, script: &mut Script) {
    let scene = scenes::order(rng);
    play(rng, script, &scene);
}

/// Lists of other statements in the same journal.
pub fn lists(rng: &mut Rng, script: &mut Script) {
    for make in [scenes::exchanged, scenes::twice, scenes::one_bank] {
        let scene = make(rng);
        play(rng, script, &scene);
    }
}

pub fn strange_bytes(rng: &mut Rng, script: &mut Script) {
    let scene = scenes::strange_bytes(rng);
    play(rng, script, &scene);
}

pub fn debit_zeros(rng: &mut Rng, script: &mut Script) {
    let scene = scenes::debit_zeros(rng);
    play(rng, script, &scene);
}

/// Fills a journal, then each damage in turn.
fn play(rng: &mut Rng, script: &mut Script, scene: &Scene) {
    let damaged: Vec<&[u8]> = scene
        .damages
        .iter()
        .map(|damage| &damage.bytes[..])
        .collect();
    play_journals(rng, script, scene, &damaged);
}

/// The same with these journals for the damages.
pub fn play_journals(rng: &mut Rng, script: &mut Script, scene: &Scene, damaged: &[&[u8]]) {
    script.fresh(scene.lines);
    script.deliver(rng.below(3), &scene.list.iter().collect::<Vec<_>>());
    script.sound();
    for bytes in damaged {
        script.change(&scene.bytes, bytes);
        ask(rng, script, scene);
        script.change(bytes, &scene.bytes);
        script.sound();
    }
    script.deliver(rng.below(3), &scene.list.iter().collect::<Vec<_>>());
}

/// Every call. Only statements that were held before are sent, so that nothing new is stored
/// where the damage leaves a sound journal.
fn ask(rng: &mut Rng, script: &mut Script, scene: &Scene) {
    let held = &scene.list[rng.index(scene.list.len())];
    script.sound();
    script.entries(&[1, scene.list.len() as u64]);
    script.deliver(rng.below(3), &[held]);
    script.newest(rng.below(3), &held.key, &[]);
}
