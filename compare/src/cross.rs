//! What the model's own parts must say of each other: marks, records and passed states follow the literal belief sets,
//! and derivations exist exactly where these grant.

use crate::model::derivation;
use crate::model::passed::Passed;
use crate::model::policy::Policy;
use crate::model::record::{self, Record};
use crate::model::rules::LAW;
use crate::model::runs::Run;
use crate::model::sets::Stack;
use crate::model::walk::Walk;
use crate::model::words::{Answer, Operation};
use crate::request::{Function, Reply, Request};

/// What was looked at, and what of it did not hold.
#[derive(Default)]
pub struct Crossed {
    pub verdicts: Tally,
    pub states: Tally,
    pub written: Tally,
    pub accepted: Tally,
}

#[derive(Default)]
pub struct Tally {
    pub held: u64,
    pub failed: u64,
}

impl Tally {
    fn note(&mut self, holds: bool) {
        if holds {
            self.held += 1;
        } else {
            self.failed += 1;
        }
    }
}

/// Without the count of frames.
fn verdict(answer: Answer) -> Answer {
    match answer {
        Answer::Done => Answer::Done,
        Answer::Granted { .. } => Answer::Granted { looked: 0 },
        Answer::Forbidden { .. } => Answer::Forbidden { looked: 0 },
    }
}

impl Crossed {
    /// The walk's verdict equals that of the belief sets, word by word.
    pub fn run(&mut self, run: &Run) {
        for answers in run.answers.iter().filter(|answers| answers.beliefs != Answer::Done) {
            self.verdicts.note(verdict(answers.walk) == answers.beliefs);
        }
    }

    /// A derivation is accepted only for a granted check, and none is shorter than ours over the frames looked at.
    pub fn call(&mut self, request: &Request, reply: &Reply) {
        if request.function != Function::DerivationCheck || reply.number != 0 {
            return;
        }
        let (policy, walk) = (Policy::from_words(&request.policy), Walk::from_words(&request.state));
        let check = walk.check(&LAW, &policy, request.argument.into());
        self.accepted.note(check.granted && request.bytes.len() as u64 > 3 * check.looked);
    }

    /// Every engine's state along a sound trace, held against the literal stack.
    pub fn follow(&mut self, policy: &Policy, trace: &[Operation]) {
        let (mut stack, mut walk) = (Stack::default(), Walk::fresh());
        let mut record = Record::from_words(vec![0; record::WORDS]);
        let mut passed = vec![Passed::default()];
        for &operation in trace {
            let answer = stack.perform(&LAW, policy, operation);
            let by_walk = walk.perform(&LAW, policy, operation);
            let by_record = record.perform(&LAW, policy, operation);
            let by_passed = pass(policy, &mut passed, operation);
            self.verdicts.note(verdict(by_walk) == answer && by_record == answer && by_passed == answer);
            self.states.note(record.is_of(&stack) && passed.last() == Some(&Passed::of(policy, &stack)));
            if let Operation::Check(t) = operation {
                self.derive(policy, &walk, t, answer);
            }
        }
    }

    fn derive(&mut self, policy: &Policy, walk: &Walk, t: u64, answer: Answer) {
        let granted = answer == Answer::verdict(true, 0);
        self.written.note(match derivation::write(&LAW, policy, walk, t, usize::MAX) {
            Ok(steps) => granted && derivation::check(&LAW, policy, walk, t, &steps).is_ok(),
            Err(_) => !granted,
        });
    }
}

/// A call hands a new state down; the caller's own is still there at return.
fn pass(policy: &Policy, states: &mut Vec<Passed>, operation: Operation) -> Answer {
    if operation == Operation::Return {
        states.pop();
        return Answer::Done;
    }
    let mut state = *states.last().expect("a fresh state at least");
    let answer = state.perform(&LAW, policy, operation);
    if !matches!(operation, Operation::Call(_)) {
        states.pop();
    }
    states.push(state);
    answer
}
