//! The walk over marks, newest to oldest, and the operations on its state.

use super::bits::{beyond, has};
use super::marks::Frame;
use super::policy::Policy;
use super::refusals::{refuse, No};
use super::rules::Rules;
use super::words::{Answer, Operation, Word};

pub const FRAMES: usize = 63;
pub const WORDS: usize = 1 + 3 * FRAMES;

#[derive(Clone)]
pub struct Walk {
    pub depth: u64,
    pub frames: Vec<Frame>,
}

pub struct Verdict {
    pub granted: bool,
    pub looked: u64,
}

impl Walk {
    pub fn fresh() -> Walk {
        Walk { depth: 0, frames: vec![Frame::default(); FRAMES] }
    }

    pub fn from_words(words: &[u64]) -> Walk {
        let frames = words[1..WORDS].chunks(3).map(|w| Frame { signer: w[0], enabled: w[1], disabled: w[2] });
        Walk { depth: words[0], frames: frames.collect() }
    }

    pub fn words(&self) -> Vec<u64> {
        let mut words = vec![self.depth];
        self.frames.iter().for_each(|f| words.extend([f.signer, f.enabled, f.disabled]));
        words
    }

    /// Number 14 is given exactly where this is false.
    pub fn valid(&self, rules: &Rules, policy: &Policy) -> bool {
        if self.depth > FRAMES as u64 {
            return false;
        }
        let inside =
            |f: &Frame| !(rules.outside)(f.signer, policy.signers) && !beyond(f.enabled | f.disabled, policy.targets);
        self.newest_first().all(inside) && (rules.above_clear)(&self.words()[1 + 3 * self.depth as usize..])
    }

    pub fn newest_first(&self) -> impl Iterator<Item = &Frame> {
        self.frames[..self.depth as usize].iter().rev()
    }

    /// The walk, newest to oldest; past the bottom, forbidden with the depth as its count.
    pub fn check(&self, rules: &Rules, policy: &Policy, t: u64) -> Verdict {
        for (before, frame) in self.newest_first().enumerate() {
            let permitted = policy.permits(frame.signer, t);
            if let Some(granted) = (rules.decide)(permitted, has(frame.enabled, t), has(frame.disabled, t)) {
                return Verdict { granted, looked: (rules.looked)(before as u64) };
            }
        }
        Verdict { granted: false, looked: self.depth }
    }

    /// An operation that is not refused.
    pub fn perform(&mut self, rules: &Rules, policy: &Policy, operation: Operation) -> Answer {
        match operation {
            Operation::Call(signer) => self.call(rules, policy, signer),
            Operation::Return => {
                (rules.returned)(self.newest());
                self.depth -= 1;
            }
            Operation::Enable(t) => {
                let frame = self.newest();
                (rules.enable)(frame, t, policy.permits(frame.signer, t));
            }
            Operation::Disable(t) => (rules.disable)(self.newest(), t),
            Operation::Revert(t) => (rules.revert)(self.newest(), t),
            Operation::Check(t) => {
                let verdict = self.check(rules, policy, t);
                return Answer::verdict(verdict.granted, verdict.looked);
            }
        }
        Answer::Done
    }

    fn newest(&mut self) -> &mut Frame {
        &mut self.frames[self.depth as usize - 1]
    }

    fn call(&mut self, rules: &Rules, policy: &Policy, signer: u64) {
        let start = if self.depth == 0 { policy.at_start(rules) } else { 0 };
        self.depth += 1;
        (rules.called)(self.newest(), signer, start);
    }
}

/// One operation on a lent state value.
pub fn operate(rules: &Rules, policy: &Policy, words: &mut Vec<u64>, word: u16) -> Result<Answer, No> {
    let (mut walk, word) = (Walk::from_words(words), Word::read(word));
    refuse(&rules.operation, |no| match no {
        No::BadPolicy => !policy.valid(),
        No::BadState => !walk.valid(rules, policy),
        _ => word.refused(rules, policy, walk.depth, no),
    })?;
    let answer = walk.perform(rules, policy, word.operation());
    *words = walk.words();
    Ok(answer)
}
