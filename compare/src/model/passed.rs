//! The passed state: what a frame needs to know of its callers, one bit for each target.

use super::beliefs::Belief;
use super::bits::{beyond, has, with};
use super::policy::Policy;
use super::refusals::{refuse, No};
use super::rules::Rules;
use super::sets::Stack;
use super::words::{Answer, Operation};

pub const WORDS: usize = 4;

#[derive(Clone, Copy, Default, PartialEq, Eq, Debug)]
pub struct Passed {
    pub depth: u64,
    pub signer: u64,
    pub own: u64,
    pub callers: u64,
}

impl Passed {
    pub fn from_words(words: &[u64]) -> Passed {
        Passed { depth: words[0], signer: words[1], own: words[2], callers: words[3] }
    }

    pub fn words(&self) -> Vec<u64> {
        vec![self.depth, self.signer, self.own, self.callers]
    }

    /// The state of a stack's newest frame: `own` are its empty chains, `callers` the targets of which it holds a
    /// longer chain whose frames are all permitted.
    pub fn of(policy: &Policy, stack: &Stack) -> Passed {
        let (frame, set) = match stack.0.last() {
            Some(newest) => newest,
            None => return Passed::default(),
        };
        let collect =
            |kept: &dyn Fn(&Belief) -> bool| set.iter().filter(|b| kept(b)).fold(0, |bits, b| with(bits, b.target));
        let handed = |b: &Belief| !b.chain.is_empty() && b.chain.frames().all(|f| policy.permits(f.signer, b.target));
        Passed {
            depth: stack.depth(),
            signer: frame.signer,
            own: collect(&|b| b.chain.is_empty()),
            callers: collect(&handed),
        }
    }

    /// Number 14 is given exactly where this is false.
    pub fn valid(&self, rules: &Rules, policy: &Policy) -> bool {
        match self.depth {
            0 => (rules.above_clear)(&[self.signer, self.own, self.callers]),
            1..=63 => self.inside(rules, policy),
            _ => false,
        }
    }

    /// A caller's bit is a chain of length 1 at least, too long for the bottom frame.
    fn inside(&self, rules: &Rules, policy: &Policy) -> bool {
        let fits = self.callers == 0 || (rules.lengths)(self.depth) > 1;
        fits && !(rules.outside)(self.signer, policy.signers) && !beyond(self.own | self.callers, policy.targets)
    }

    fn called(&self, rules: &Rules, policy: &Policy, signer: u64) -> Passed {
        let (own, callers) = match self.depth {
            0 => (policy.at_start(rules), 0),
            _ => (0, (rules.passed_down)(policy.rows[self.signer as usize], self.own | self.callers)),
        };
        Passed { depth: self.depth + 1, signer, own, callers }
    }

    /// An operation that is not refused; a return has no form here.
    pub fn perform(&mut self, rules: &Rules, policy: &Policy, operation: Operation) -> Answer {
        match operation {
            Operation::Call(signer) => *self = self.called(rules, policy, signer),
            Operation::Enable(t) => self.own = with(self.own, t),
            Operation::Disable(t) => (self.own, self.callers) = (rules.passed_disable)(self.own, self.callers, t),
            Operation::Revert(t) => (self.own, self.callers) = (rules.passed_revert)(self.own, self.callers, t),
            Operation::Check(t) => {
                let held = has(self.own | self.callers, t);
                return Answer::verdict((rules.passed_grants)(policy.permits(self.signer, t), held), 0);
            }
            Operation::Return => unreachable!("the passed state has no return"),
        }
        Answer::Done
    }
}

/// One operation on a lent state value; its number is a signer or a target of any size.
pub fn operate(rules: &Rules, policy: &Policy, words: &mut Vec<u64>, operation: Operation) -> Result<Answer, No> {
    let mut passed = Passed::from_words(words);
    refuse(&rules.operation, |no| match (no, operation) {
        (No::BadPolicy, _) => !policy.valid(),
        (No::BadState, _) => !passed.valid(rules, policy),
        (No::NoSigner, Operation::Call(signer)) => (rules.outside)(signer, policy.signers),
        (No::TooDeep, Operation::Call(_)) => passed.depth >= rules.deepest,
        (_, Operation::Call(_)) => false,
        (No::NoTarget, _) => (rules.outside)(target(operation), policy.targets),
        (No::NoFrame, _) => passed.depth == 0,
        _ => false,
    })?;
    let answer = passed.perform(rules, policy, operation);
    *words = passed.words();
    Ok(answer)
}

fn target(operation: Operation) -> u64 {
    match operation {
        Operation::Enable(t) | Operation::Disable(t) | Operation::Revert(t) | Operation::Check(t) => t,
        Operation::Call(_) | Operation::Return => unreachable!("neither has a target"),
    }
}
