//! Derivations that are ours, others that are allowed, damaged and random ones, on states of every kind.

use super::states::{reached, walk_state};
use super::{damage, Scene};
use crate::model::bits::has;
use crate::model::rules::LAW;
use crate::model::steps::{ours, step, DROP, PERMIT, SPEAK, TAKE};
use crate::model::walk::{Walk, FRAMES};
use crate::request::{Function, Made, Request};

pub fn add(scene: &mut Scene) {
    let (walk, _) = reached(scene);
    for made in [Made::Sound, Made::Damaged, Made::Invented] {
        let state = walk_state(scene, made, &walk);
        let (target, lengths) = aim(scene, &state);
        let n = lengths.first().copied().unwrap_or(1);
        let room = scene.room(3 * n as usize + 1);
        push(scene, made, &state, target, Steps::Room(room));
        push(scene, made, &state, target, Steps::Tried(ours(n)));
        let other = other(scene, &lengths);
        push(scene, made, &state, target, Steps::Tried(other.clone()));
        let damaged = damage(&mut scene.dice, &other);
        push(scene, Made::Damaged, &state, target, Steps::Tried(damaged));
        let reordered = reordered(scene, other);
        push(scene, Made::Damaged, &state, target, Steps::Tried(reordered));
        let random = random(scene);
        push(scene, Made::Invented, &state, target, Steps::Tried(random));
    }
}

enum Steps {
    Room(usize),
    Tried(Vec<u8>),
}

fn push(scene: &mut Scene, made: Made, state: &[u64], target: u64, steps: Steps) {
    let function = match steps {
        Steps::Room(_) => Function::DerivationWrite,
        Steps::Tried(_) => Function::DerivationCheck,
    };
    let mut request: Request = scene.request(function, made);
    request.state = state.to_vec();
    request.argument = target as u16;
    match steps {
        Steps::Room(room) => request.room = room,
        Steps::Tried(steps) => request.bytes = steps,
    }
    scene.push(request);
}

/// A target with the n that end there: a granted one where a few throws find it, now and then any byte.
fn aim(scene: &mut Scene, state: &[u64]) -> (u64, Vec<u64>) {
    let mut target = scene.dice.below(256);
    if !scene.dice.one_in(12) {
        for _ in 0..1 + scene.dice.below(6) {
            target = scene.target();
            if !takes(scene, state, target).is_empty() {
                break;
            }
        }
    }
    (target, takes(scene, state, target))
}

/// The n for which a derivation can be ended, least first.
fn takes(scene: &Scene, state: &[u64], target: u64) -> Vec<u64> {
    let walk = Walk::from_words(state);
    if walk.depth > FRAMES as u64 {
        return Vec::new();
    }
    let newest: Vec<_> = walk.newest_first().collect();
    let ends = |n: &usize| {
        let permitted = newest[..*n].iter().all(|f| scene.policy.permits(f.signer, target));
        permitted && (LAW.take_allowed)(&newest[..*n], target)
    };
    (1..=newest.len()).filter(ends).map(|n| n as u64).collect()
}

/// Allowed steps in another order than ours, perhaps over more frames and after a take that is begun again.
fn other(scene: &mut Scene, lengths: &[u64]) -> Vec<u8> {
    if lengths.is_empty() {
        return ours(1 + scene.dice.below(3));
    }
    let n = scene.dice.pick(lengths);
    let mut steps = Vec::new();
    if scene.dice.one_in(4) {
        steps.extend([step(TAKE, n), step(SPEAK, scene.dice.below(n))]);
    }
    steps.push(step(TAKE, n));
    finish(scene, n, &mut steps);
    steps
}

/// From n frames to the empty chain, each time by one of the steps allowed there.
fn finish(scene: &mut Scene, n: u64, steps: &mut Vec<u8>) {
    let (mut spoken, mut permitted, mut left) = (0, 0, n);
    while left > 0 {
        let place = scene.dice.below(left);
        if !has(spoken, place) {
            spoken |= 1 << place;
            steps.push(step(SPEAK, place));
        } else if !has(permitted, place) {
            permitted |= 1 << place;
            steps.push(step(PERMIT, place));
        } else if has(permitted, left - 1) {
            left -= 1;
            steps.push(step(DROP, 0));
        }
    }
}

/// Two neighbouring steps change places, one is doubled, or one is left out.
fn reordered(scene: &mut Scene, mut steps: Vec<u8>) -> Vec<u8> {
    let at = scene.dice.size(steps.len() - 1);
    match scene.dice.below(3) {
        0 => steps.swap(at, at + 1),
        1 => steps.insert(at, steps[at]),
        _ => drop(steps.remove(at)),
    }
    steps
}

/// Mostly small places, so that some steps are allowed; often none at all.
fn random(scene: &mut Scene) -> Vec<u8> {
    let count = scene.dice.size(8);
    (0..count)
        .map(|_| match scene.dice.below(4) {
            0 => scene.dice.word() as u8,
            _ => step(scene.dice.below(4), scene.dice.below(3)),
        })
        .collect()
}
