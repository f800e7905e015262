//! A scene is one case: a policy of the size that the case's number gives, and calls of every function around it.

pub mod derivations;
pub mod policies;
pub mod states;
pub mod traces;

use crate::dice::Dice;
use crate::model::policy::Policy;
use crate::model::words::Operation;
use crate::request::{Function, Made, Request, PLACES};

/// What a scene's makers share.
pub struct Scene {
    pub dice: Dice,
    pub policy: Policy,
    /// Targets near this one are asked for most, so that marks and checks meet.
    near: u64,
    requests: Vec<Request>,
}

fn begun(seed: u64, case: u64) -> Scene {
    let mut dice = Dice::new(seed, case);
    let policy = policies::sized(&mut dice, case);
    let near = dice.below(policy.targets);
    Scene { dice, policy, near, requests: Vec::new() }
}

/// A policy and a sound trace for the model alone.
pub fn sound_trace(seed: u64, case: u64) -> (Policy, Vec<Operation>) {
    let mut scene = begun(seed, case);
    let (shape, words) = (scene.dice.pick(&traces::SHAPES), scene.dice.size(120));
    let trace = traces::sound(&mut scene, shape, words);
    (scene.policy, trace)
}

pub fn scene(seed: u64, case: u64) -> Vec<Request> {
    let mut scene = begun(seed, case);
    policies::add(&mut scene);
    traces::add(&mut scene);
    states::add(&mut scene);
    derivations::add(&mut scene);
    scene.requests
}

impl Scene {
    /// A target of the policy.
    pub fn target(&mut self) -> u64 {
        match self.dice.below(3) {
            0 => self.dice.below(self.policy.targets),
            _ => (self.near + self.dice.below(3)) % self.policy.targets,
        }
    }

    /// A request with the scene's policy, or now and then with a damaged one.
    pub fn request(&mut self, function: Function, made: Made) -> Request {
        let damaged = self.dice.one_in(12);
        let policy = if damaged { policies::damaged(&mut self.dice, &self.policy) } else { self.policy.words() };
        Request::new(function, if damaged { Made::Damaged } else { made }, &policy)
    }

    pub fn push(&mut self, mut request: Request) {
        request.place = self.dice.below(PLACES) as u8;
        request.fill = self.dice.word() as u8;
        self.requests.push(request);
    }

    /// Room for what needs `exact` bytes: just that in most cases, else more, one less, none, or anything.
    pub fn room(&mut self, exact: usize) -> usize {
        match self.dice.below(8) {
            0..=3 => exact,
            4 => exact + 1 + self.dice.size(9),
            5 => exact.saturating_sub(1),
            6 => self.dice.size(2 * exact + 1),
            _ => self.dice.pick(&[0, exact]),
        }
    }
}

/// Bytes with a few bits flipped, cut, or with others added.
pub fn damage(dice: &mut Dice, bytes: &[u8]) -> Vec<u8> {
    let mut bytes = bytes.to_vec();
    match dice.below(4) {
        0 => bytes.truncate(dice.size(bytes.len() + 1)),
        1 => {
            let added = dice.size(4) + 1;
            bytes.extend(dice.bytes(added));
        }
        _ => (0..=dice.below(3)).for_each(|_| flip(dice, &mut bytes)),
    }
    bytes
}

fn flip(dice: &mut Dice, bytes: &mut [u8]) {
    if !bytes.is_empty() {
        bytes[dice.size(bytes.len())] ^= 1 << dice.below(8);
    }
}
