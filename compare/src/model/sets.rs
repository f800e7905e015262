//! Belief sets, literally, and what moves them: a set is a list of beliefs.

use super::beliefs::{Belief, Chain, Principal};
use super::bits::has;
use super::policy::Policy;
use super::rules::Rules;
use super::words::{Answer, Operation};

pub type Set = Vec<Belief>;

/// The set of a bottom frame: under a full start Ok(T) for each target as its own.
pub fn bottom(rules: &Rules, policy: &Policy) -> Set {
    let own = policy.at_start(rules);
    (0..64).filter(|&t| has(own, t)).map(|target| Belief { chain: Chain::EMPTY, target }).collect()
}

/// Every belief of the caller with the caller's name put in front.
pub fn called(rules: &Rules, caller: Principal, set: &[Belief]) -> Set {
    set.iter().map(|belief| (rules.handed_down)(caller, belief)).collect()
}

pub fn enable(set: &mut Set, target: u64) {
    let belief = Belief { chain: Chain::EMPTY, target };
    if !set.contains(&belief) {
        set.push(belief);
    }
}

pub fn disable(rules: &Rules, set: &mut Set, target: u64) {
    set.retain(|belief| !(rules.disable_removes)(belief, target));
}

pub fn revert(rules: &Rules, set: &mut Set, target: u64) {
    set.retain(|belief| !(rules.revert_removes)(belief, target));
}

/// Is there a belief on T such that every frame of F followed by its chain has a signer permitted T?
pub fn granted(policy: &Policy, frame: Principal, set: &[Belief], target: u64) -> bool {
    let permitted = |frame: Principal| policy.permits(frame.signer, target);
    permitted(frame) && set.iter().any(|belief| belief.target == target && belief.chain.frames().all(permitted))
}

/// The frames, bottom first, each with its belief set.
#[derive(Clone, Default)]
pub struct Stack(pub Vec<(Principal, Set)>);

impl Stack {
    pub fn depth(&self) -> u64 {
        self.0.len() as u64
    }

    /// An operation that is not refused. The caller's set stays below, so it has at return what it had at the call.
    pub fn perform(&mut self, rules: &Rules, policy: &Policy, operation: Operation) -> Answer {
        if let Operation::Call(signer) = operation {
            self.call(rules, policy, signer);
            return Answer::Done;
        }
        let (frame, set) = self.0.last_mut().expect("7 was tested");
        match operation {
            Operation::Enable(t) => enable(set, t),
            Operation::Disable(t) => disable(rules, set, t),
            Operation::Revert(t) => revert(rules, set, t),
            Operation::Check(t) => return Answer::verdict(granted(policy, *frame, set, t), 0),
            Operation::Return | Operation::Call(_) => drop(self.0.pop()),
        }
        Answer::Done
    }

    fn call(&mut self, rules: &Rules, policy: &Policy, signer: u64) {
        let set = match self.0.last() {
            None => bottom(rules, policy),
            Some((caller, set)) => called(rules, *caller, set),
        };
        self.0.push((Principal { place: self.depth(), signer }, set));
    }
}
