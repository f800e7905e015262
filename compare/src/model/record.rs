//! The belief record: for each frame and target the lengths of the chains held.

use super::beliefs::{Belief, Chain, Principal};
use super::bits::{beyond, has, with};
use super::policy::Policy;
use super::refusals::{refuse, No};
use super::rules::Rules;
use super::sets::{self, Set, Stack};
use super::walk::FRAMES;
use super::words::{Answer, Operation, Word};

const FRAME_WORDS: usize = 65;
pub const WORDS: usize = 1 + FRAME_WORDS * FRAMES;

/// The value as it crosses the boundary.
pub struct Record {
    words: Vec<u64>,
}

impl Record {
    pub fn from_words(words: Vec<u64>) -> Record {
        Record { words }
    }

    /// The record of a stack of literal belief sets.
    pub fn of(stack: &Stack) -> Record {
        let mut record = Record { words: vec![0; WORDS] };
        for (frame, set) in &stack.0 {
            record.push(frame.signer, set);
        }
        record
    }

    pub fn is_of(&self, stack: &Stack) -> bool {
        self.words == Record::of(stack).words
    }

    pub fn words(self) -> Vec<u64> {
        self.words
    }

    pub fn depth(&self) -> u64 {
        self.words[0]
    }

    /// The words of the frame at a depth (the bottom's is 1): its signer, then its lengths.
    fn frame(&self, depth: u64) -> &[u64] {
        let end = 1 + FRAME_WORDS * depth as usize;
        &self.words[end - FRAME_WORDS..end]
    }

    /// Number 14 is given exactly where this is false.
    pub fn valid(&self, rules: &Rules, policy: &Policy) -> bool {
        if self.depth() > FRAMES as u64 {
            return false;
        }
        let above = &self.words[1 + FRAME_WORDS * self.depth() as usize..];
        (1..=self.depth()).all(|d| self.frame_inside(rules, policy, d)) && (rules.above_clear)(above)
    }

    fn frame_inside(&self, rules: &Rules, policy: &Policy, depth: u64) -> bool {
        let (signer, lengths) = (self.frame(depth)[0], &self.frame(depth)[1..]);
        let (ours, others) = lengths.split_at(policy.targets.min(64) as usize);
        !(rules.outside)(signer, policy.signers)
            && ours.iter().all(|&held| !beyond(held, (rules.lengths)(depth)))
            && others.iter().all(|&held| held == 0)
    }

    fn newest(&self) -> Principal {
        Principal { place: self.depth() - 1, signer: self.frame(self.depth())[0] }
    }

    /// The chain of that length which the newest frame holds: the frames just below it.
    fn chain(&self, length: u64) -> Chain {
        let below = self.depth() - length..self.depth();
        below.fold(Chain::EMPTY, |chain, d| chain.behind(Principal { place: d - 1, signer: self.frame(d)[0] }))
    }

    /// The newest frame's beliefs, literally.
    fn beliefs(&self) -> Set {
        let lengths = &self.frame(self.depth())[1..];
        let mut set = Set::new();
        for length in 0..self.depth() {
            let holding: Vec<u64> = (0..64).filter(|&t| has(lengths[t as usize], length)).collect();
            if !holding.is_empty() {
                let chain = self.chain(length);
                set.extend(holding.into_iter().map(|target| Belief { chain: chain.clone(), target }));
            }
        }
        set
    }

    fn push(&mut self, signer: u64, set: &[Belief]) {
        self.words[0] += 1;
        self.store(signer, set);
    }

    fn store(&mut self, signer: u64, set: &[Belief]) {
        let end = 1 + FRAME_WORDS * self.depth() as usize;
        let frame = &mut self.words[end - FRAME_WORDS..end];
        frame.fill(0);
        frame[0] = signer;
        for belief in set {
            let held = &mut frame[1 + belief.target as usize];
            *held = with(*held, belief.chain.frames().count() as u64);
        }
    }

    fn pop(&mut self) {
        self.store(0, &[]);
        self.words[0] -= 1;
    }

    /// An operation that is not refused.
    pub fn perform(&mut self, rules: &Rules, policy: &Policy, operation: Operation) -> Answer {
        if let Operation::Call(signer) = operation {
            self.call(rules, policy, signer);
            return Answer::Done;
        }
        let (frame, mut set) = (self.newest(), self.beliefs());
        match operation {
            Operation::Enable(t) => sets::enable(&mut set, t),
            Operation::Disable(t) => sets::disable(rules, &mut set, t),
            Operation::Revert(t) => sets::revert(rules, &mut set, t),
            Operation::Check(t) => return Answer::verdict(sets::granted(policy, frame, &set, t), 0),
            Operation::Return | Operation::Call(_) => {
                self.pop();
                return Answer::Done;
            }
        }
        self.store(frame.signer, &set);
        Answer::Done
    }

    fn call(&mut self, rules: &Rules, policy: &Policy, signer: u64) {
        let set = match self.depth() {
            0 => sets::bottom(rules, policy),
            _ => sets::called(rules, self.newest(), &self.beliefs()),
        };
        self.push(signer, &set);
    }
}

/// One operation on a lent state value.
pub fn operate(rules: &Rules, policy: &Policy, words: &mut Vec<u64>, word: u16) -> Result<Answer, No> {
    let (mut record, word) = (Record::from_words(words.clone()), Word::read(word));
    refuse(&rules.operation, |no| match no {
        No::BadPolicy => !policy.valid(),
        No::BadState => !record.valid(rules, policy),
        _ => word.refused(rules, policy, record.depth(), no),
    })?;
    let answer = record.perform(rules, policy, word.operation());
    *words = record.words();
    Ok(answer)
}
