//! The steps of a derivation, and the entries of the chain that they change.

use super::bits::{Reader, Writer};

/// An entry of a chain; a frame is known by the signer of its code.
#[derive(Clone, Copy, PartialEq, Eq, Debug)]
pub enum Entry {
    Frame(u64),
    Signer(u64),
    Target,
}

pub const TAKE: u64 = 0;
pub const SPEAK: u64 = 1;
pub const PERMIT: u64 = 2;
pub const DROP: u64 = 3;

pub fn step(rule: u64, place: u64) -> u8 {
    let mut fields = Writer::default();
    fields.put(rule, 2);
    fields.put(place, 6);
    fields.bytes()[0]
}

/// The rule and the place of a step.
pub fn fields(step: u8) -> (u64, u64) {
    let bytes = [step];
    let mut fields = Reader::new(&bytes);
    (fields.take(2), fields.take(6))
}

/// Ours for the newest n frames: take n, rule 1 at places 0 to n - 1, rule 2 likewise, then n drops.
pub fn ours(n: u64) -> Vec<u8> {
    let mut steps = vec![step(TAKE, n)];
    steps.extend((0..n).map(|place| step(SPEAK, place)));
    steps.extend((0..n).map(|place| step(PERMIT, place)));
    steps.extend((0..n).map(|_| step(DROP, 0)));
    steps
}
