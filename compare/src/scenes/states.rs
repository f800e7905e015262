//! State values that a trace reaches, that were damaged, or that were invented, and one operation on each.

use super::traces::{any_word, sound, DEPTH_MOST, SHAPES};
use super::Scene;
use crate::dice::Density;
use crate::model::bits::first;
use crate::model::passed::{self, Passed};
use crate::model::record::{self, Record};
use crate::model::rules::LAW;
use crate::model::sets::Stack;
use crate::model::walk::{self, Walk};
use crate::request::{Function, Made, PASSED};

const ALL: [Made; 3] = [Made::Sound, Made::Damaged, Made::Invented];

pub fn add(scene: &mut Scene) {
    let (walk, stack) = reached(scene);
    for made in ALL {
        for _ in 0..3 {
            let state = walk_state(scene, made, &walk);
            operate(scene, Function::WalkOperate, made, state);
        }
        for _ in 0..2 {
            let state = record_state(scene, made, &stack);
            operate(scene, Function::RecordOperate, made, state);
        }
        for _ in 0..3 {
            let state = passed_state(scene, made, &stack);
            operate_passed(scene, made, state);
        }
    }
}

fn operate(scene: &mut Scene, function: Function, made: Made, state: Vec<u64>) {
    let mut request = scene.request(function, made);
    request.state = state;
    request.argument = any_word(scene);
    scene.push(request);
}

/// A signer or target below its size in most cases, else any byte.
fn operate_passed(scene: &mut Scene, made: Made, state: Vec<u64>) {
    let function = scene.dice.pick(&PASSED);
    let mut request = scene.request(function, made);
    request.state = state;
    let fit = if function == Function::PassedCall { scene.dice.below(scene.policy.signers) } else { scene.target() };
    request.argument = match scene.dice.below(4) {
        0 => scene.dice.below(256) as u16,
        _ => fit as u16,
    };
    scene.push(request);
}

/// The marks and the literal belief sets after a trace.
pub fn reached(scene: &mut Scene) -> (Walk, Stack) {
    let (shape, words) = (scene.dice.pick(&SHAPES), scene.dice.pick(&[0, 1, 2, 4, 8, 15, 30, 60, 150]));
    let (mut walk, mut stack) = (Walk::fresh(), Stack::default());
    for operation in sound(scene, shape, words) {
        walk.perform(&LAW, &scene.policy, operation);
        stack.perform(&LAW, &scene.policy, operation);
    }
    (walk, stack)
}

fn depth(scene: &mut Scene) -> u64 {
    match scene.dice.below(6) {
        0 => DEPTH_MOST,
        1 => scene.dice.below(DEPTH_MOST + 1),
        _ => scene.dice.below(6),
    }
}

fn density(scene: &mut Scene) -> Density {
    scene.dice.pick(&[Density::None, Density::Few, Density::Half, Density::Most])
}

/// Changes a few bits among the words in use and the frame above them, the depth, or what is just outside.
fn damage(scene: &mut Scene, words: &mut [u64], frame: usize) {
    let used = (1 + frame * (words[0] as usize + 1)).min(words.len());
    match scene.dice.below(8) {
        6 | 7 => just_outside(scene, words, frame),
        0 => words[0] = scene.dice.pick(&[0, 1, 62, 63, 64, 65, 1 << 32, 1 << 63, u64::MAX]),
        1 => words[0] = words[0].wrapping_add(scene.dice.below(3)).wrapping_sub(1),
        2 => words[scene.dice.size(words.len())] ^= 1 << scene.dice.below(64),
        _ => (0..=scene.dice.below(2)).for_each(|_| words[scene.dice.size(used)] ^= 1 << scene.dice.below(64)),
    }
}

/// In one of the frames: signer S, a bit for target N, or one for a chain as long as the frame's depth.
fn just_outside(scene: &mut Scene, words: &mut [u64], frame: usize) {
    let depth = if frame == 3 && words.len() == passed::WORDS { 1 } else { words[0] as usize };
    if depth == 0 {
        return;
    }
    let at = scene.dice.size(depth);
    let inside = &mut words[1 + frame * at..1 + frame * (at + 1)];
    let word = 1 + scene.dice.size(frame - 1);
    match scene.dice.below(3) {
        0 => inside[0] = scene.policy.signers,
        1 => inside[word] |= 1 << (scene.policy.targets % 64),
        _ => inside[word] |= 1 << (at + 1),
    }
}

pub fn walk_state(scene: &mut Scene, made: Made, reached: &Walk) -> Vec<u64> {
    let mut words = if made == Made::Invented { invented_walk(scene) } else { reached.words() };
    if made == Made::Damaged || made == Made::Invented && scene.dice.one_in(6) {
        damage(scene, &mut words, 3);
    }
    words
}

fn invented_walk(scene: &mut Scene) -> Vec<u64> {
    let (depth, enabled, disabled) = (depth(scene), density(scene), density(scene));
    let mut words = vec![depth];
    for _ in 0..depth {
        let inside = first(scene.policy.targets);
        words.push(scene.dice.below(scene.policy.signers));
        words.extend([scene.dice.bits(enabled) & inside, scene.dice.bits(disabled) & inside]);
    }
    words.resize(walk::WORDS, 0);
    words
}

fn record_state(scene: &mut Scene, made: Made, reached: &Stack) -> Vec<u64> {
    let mut words = if made == Made::Invented { invented_record(scene) } else { Record::of(reached).words() };
    if made == Made::Damaged || made == Made::Invented && scene.dice.one_in(6) {
        damage(scene, &mut words, 65);
    }
    words
}

/// Every target has chains in few of the records; the others keep to the targets that are asked for most.
fn invented_record(scene: &mut Scene) -> Vec<u64> {
    let (depth, density, crowded) = (depth(scene), density(scene), scene.dice.one_in(8));
    let mut words = vec![0; record::WORDS];
    words[0] = depth;
    for (frame, below) in words[1..].chunks_mut(65).take(depth as usize).zip(1..) {
        frame[0] = scene.dice.below(scene.policy.signers);
        let targets = if crowded { scene.policy.targets } else { 3 };
        for n in 0..targets {
            let t = (scene.near + n) % scene.policy.targets;
            frame[1 + t as usize] = scene.dice.bits(density) & first(below);
        }
    }
    words
}

fn passed_state(scene: &mut Scene, made: Made, reached: &Stack) -> Vec<u64> {
    let mut words = match made {
        Made::Invented => invented_passed(scene),
        _ => Passed::of(&scene.policy, reached).words(),
    };
    if made == Made::Damaged || made == Made::Invented && scene.dice.one_in(6) {
        damage(scene, &mut words, passed::WORDS - 1);
    }
    words
}

fn invented_passed(scene: &mut Scene) -> Vec<u64> {
    let (depth, inside) = (depth(scene), first(scene.policy.targets));
    if depth == 0 {
        return vec![0; passed::WORDS];
    }
    let (own, callers) = (density(scene), density(scene));
    let callers = if depth == 1 { 0 } else { scene.dice.bits(callers) & inside };
    vec![depth, scene.dice.below(scene.policy.signers), scene.dice.bits(own) & inside, callers]
}
