//! Traces of several shapes, sound and not, for the three engines.

use super::{damage, Scene};
use crate::model::bits::Writer;
use crate::model::words::Operation;
use crate::request::{Made, Request, RUNS};

/// How often a call, return, enable, disable, revert and check is thrown.
type Shape = [u64; 6];

const MIXED: Shape = [3, 2, 3, 1, 1, 4];
const DEEP: Shape = [9, 1, 2, 1, 1, 4];
const SHALLOW: Shape = [1, 4, 3, 2, 2, 5];
const CALL_RETURN: Shape = [5, 5, 0, 0, 0, 1];
const CROWDED: Shape = [1, 0, 9, 0, 1, 2];
const ONE_FRAME: Shape = [0, 0, 3, 3, 3, 4];

pub const SHAPES: [Shape; 6] = [MIXED, DEEP, SHALLOW, CALL_RETURN, CROWDED, ONE_FRAME];

pub const DEPTH_MOST: u64 = 63;

pub fn word(fields: [u64; 4]) -> u16 {
    let mut packed = Writer::default();
    fields.iter().zip([3, 5, 6, 2]).for_each(|(&field, width)| packed.put(field, width));
    let bytes = packed.bytes();
    u16::from_be_bytes([bytes[0], bytes[1]])
}

pub fn encoded(operation: Operation) -> u16 {
    match operation {
        Operation::Call(signer) => word([0, signer, 0, 0]),
        Operation::Return => word([1, 0, 0, 0]),
        Operation::Enable(t) => word([2, 0, t, 0]),
        Operation::Disable(t) => word([3, 0, t, 0]),
        Operation::Revert(t) => word([4, 0, t, 0]),
        Operation::Check(t) => word([5, 0, t, 0]),
    }
}

/// An operation that is not refused at that depth.
fn operation(scene: &mut Scene, shape: Shape, depth: u64) -> Operation {
    let target = scene.target();
    let mut throw = scene.dice.below(shape.iter().sum());
    let kind = shape.iter().position(|&weight| {
        let here = throw < weight;
        throw = throw.saturating_sub(weight);
        here
    });
    match kind {
        _ if depth == 0 => Operation::Call(scene.dice.below(scene.policy.signers)),
        Some(0) if depth < DEPTH_MOST => Operation::Call(scene.dice.below(scene.policy.signers)),
        Some(1) => Operation::Return,
        Some(2) => Operation::Enable(target),
        Some(3) => Operation::Disable(target),
        Some(4) => Operation::Revert(target),
        _ => Operation::Check(target),
    }
}

pub fn sound(scene: &mut Scene, shape: Shape, words: usize) -> Vec<Operation> {
    let mut depth = 0;
    let mut trace = Vec::with_capacity(words);
    for _ in 0..words {
        let next = operation(scene, shape, depth);
        match next {
            Operation::Call(_) => depth += 1,
            Operation::Return => depth -= 1,
            _ => {}
        }
        trace.push(next);
    }
    trace
}

pub fn bytes(trace: &[Operation]) -> Vec<u8> {
    trace.iter().flat_map(|&operation| encoded(operation).to_be_bytes()).collect()
}

/// A word of any class: fit for the policy, a field outside it, spare or unused bits, unknown, or just 16 bits.
pub fn any_word(scene: &mut Scene) -> u16 {
    let fit = encoded(operation(scene, [2, 1, 2, 2, 2, 3], 1));
    let (signer, target) = (scene.dice.below(32), scene.dice.below(64));
    match scene.dice.below(12) {
        0 => word([0, signer.max(scene.policy.signers % 32), 0, 0]),
        1 => word([2 + scene.dice.below(4), 0, target.max(scene.policy.targets % 64), 0]),
        2 => fit | 1 << scene.dice.below(2),
        3 => word([scene.dice.below(6), signer, target, 0]),
        4 => word([6 + scene.dice.below(2), 0, 0, 0]),
        5 => word([6 + scene.dice.below(2), signer, target, scene.dice.below(4)]),
        6 => scene.dice.word() as u16,
        _ => fit,
    }
}

fn length(scene: &mut Scene) -> usize {
    match scene.dice.below(400) {
        0 => 32_768,
        1 => scene.dice.size(40_000),
        2..=30 => scene.dice.size(700),
        _ => scene.dice.size(70),
    }
}

/// A sound trace with one word of any class put in: where it stands, in a word's place, or after calls up to depth 63.
fn with_a_word(scene: &mut Scene, trace: &[Operation]) -> Vec<u8> {
    let (before, rest) = trace.split_at(scene.dice.size(trace.len() + 1));
    let (deepened, skipped) = scene.dice.pick(&[(true, 0), (false, 0), (false, 1), (false, 1)]);
    let calls = if deepened { DEPTH_MOST - depth(before) } else { 0 };
    let calls = vec![Operation::Call(0); calls as usize];
    let word = any_word(scene).to_be_bytes();
    [bytes(before), bytes(&calls), word.to_vec(), bytes(rest.get(skipped..).unwrap_or(&[]))].concat()
}

fn depth(trace: &[Operation]) -> u64 {
    trace.iter().fold(0, |depth, operation| match operation {
        Operation::Call(_) => depth + 1,
        Operation::Return => depth - 1,
        _ => depth,
    })
}

pub fn add(scene: &mut Scene) {
    let (shape, words) = (scene.dice.pick(&SHAPES), length(scene));
    let operations = sound(scene, shape, words);
    let trace = bytes(&operations);
    accepted(scene, &trace);
    run(scene, Made::Sound, &trace);
    let damaged = with_a_word(scene, &operations);
    run(scene, Made::Damaged, &damaged);
    let damaged = damage(&mut scene.dice, &trace);
    run(scene, Made::Damaged, &damaged);
    let count = scene.dice.size(9);
    let invented = scene.dice.bytes(count);
    run(scene, Made::Invented, &invented);
}

/// A sound trace under the scene's own policy with room enough.
fn accepted(scene: &mut Scene, trace: &[u8]) {
    let mut request = Request::new(RUNS[0], Made::Sound, &scene.policy.words());
    request.bytes = trace.to_vec();
    request.room = trace.len() / 2 + scene.dice.pick(&[0, 0, 1, 7]);
    push_for_each(scene, request);
}

fn run(scene: &mut Scene, made: Made, trace: &[u8]) {
    let mut request = scene.request(RUNS[0], made);
    request.bytes = trace.to_vec();
    request.room = scene.room(trace.len() / 2);
    push_for_each(scene, request);
}

fn push_for_each(scene: &mut Scene, request: Request) {
    for function in RUNS {
        scene.push(Request { function, ..request.clone() });
    }
}
