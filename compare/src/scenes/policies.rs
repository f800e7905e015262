//! Policies of every size, their bytes, and both damaged.

use super::{damage, Scene};
use crate::dice::{Density, Dice};
use crate::model::bits::first;
use crate::model::policy::{self, Policy};
use crate::model::rules::LAW;
use crate::request::{Function, Made, Request};

/// 32 numbers of signers, 64 of targets, two starts: the case's number goes through all of them.
pub const SIZES: u64 = 32 * 64 * 2;

pub fn sized(dice: &mut Dice, case: u64) -> Policy {
    let (start, signers, targets) = (case % 2, case / 2 % 32 + 1, case / 64 % 64 + 1);
    let density = dice.pick(&[Density::Few, Density::Half, Density::Most, Density::Most, Density::All]);
    let mut rows = [0; 32];
    rows[..signers as usize].iter_mut().for_each(|row| *row = dice.bits(density) & first(targets));
    Policy { start, signers, targets, rows }
}

/// The value with one thing changed; most are refused by 13, some happen to be valid.
pub fn damaged(dice: &mut Dice, policy: &Policy) -> Vec<u64> {
    let mut words = policy.words();
    let huge = dice.word();
    match dice.below(7) {
        0 => words[0] = dice.pick(&[2, 3, 1 << 32, 1 << 63, huge]),
        1 => words[1] = dice.pick(&[0, 33, 64, 1 << 32 | 1, 1 << 63, huge]),
        2 => words[2] = dice.pick(&[0, 65, 128, 1 << 32 | 1, 1 << 63, huge]),
        3 => words[3 + dice.size(32)] ^= 1 << dice.below(64),
        4 => words[2 + policy.signers as usize] |= 1 << (policy.targets % 64),
        5 => words[3 + policy.signers as usize % 32] |= 1 << dice.below(64),
        _ => (0..3).for_each(|at| words[at] = dice.below(70)),
    }
    words
}

pub fn add(scene: &mut Scene) {
    let bytes = policy::write(&LAW, &scene.policy, usize::MAX).expect("a valid policy with room");
    accepted(scene, bytes.len());
    write(scene, bytes.len());
    read(scene, Made::Sound, bytes.clone());
    let mut recording = bytes.clone();
    let count = scene.dice.size(100);
    recording.extend(scene.dice.bytes(count));
    read(scene, Made::Damaged, recording);
    for _ in 0..3 {
        let bytes = damage(&mut scene.dice, &bytes);
        read(scene, Made::Damaged, bytes);
    }
    let header = header_damaged(&mut scene.dice, &bytes);
    read(scene, Made::Damaged, header);
    let count = scene.dice.size(300);
    let invented = scene.dice.bytes(count);
    read(scene, Made::Invented, invented);
}

/// The scene's own policy with room enough.
fn accepted(scene: &mut Scene, exact: usize) {
    let mut request = Request::new(Function::PolicyWrite, Made::Sound, &scene.policy.words());
    request.room = exact + scene.dice.pick(&[0, 0, 1, 7]);
    scene.push(request);
}

fn write(scene: &mut Scene, exact: usize) {
    let mut request = scene.request(Function::PolicyWrite, Made::Sound);
    request.room = scene.room(exact);
    scene.push(request);
}

fn header_damaged(dice: &mut Dice, bytes: &[u8]) -> Vec<u8> {
    let mut bytes = bytes.to_vec();
    bytes[dice.size(2)] ^= 1 << dice.below(8);
    if dice.one_in(2) {
        bytes.push(0);
    }
    bytes
}

/// The policy buffer that reading is lent holds anything beforehand.
fn read(scene: &mut Scene, made: Made, bytes: Vec<u8>) {
    for function in [Function::PolicyRead, Function::PolicyCut] {
        let lent: Vec<u64> = (0..policy::WORDS).map(|_| scene.dice.word()).collect();
        let mut request = Request::new(function, made, &lent);
        request.bytes = bytes.clone();
        scene.push(request);
    }
}
