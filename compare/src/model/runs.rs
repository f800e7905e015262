//! A trace from a fresh start.

use super::policy::Policy;
use super::refusals::{refuse, No};
use super::rules::Rules;
use super::sets::Stack;
use super::walk::Walk;
use super::words::{Answer, Word};

/// What a word is answered: by the walk over marks, and by the literal belief sets, which count no frames.
pub struct Answers {
    pub walk: Answer,
    pub beliefs: Answer,
}

/// The answers up to the first refused word, and its number; the run stops there.
#[derive(Default)]
pub struct Run {
    pub answers: Vec<Answers>,
    pub refused: Option<No>,
}

/// What is tested before the first word.
pub fn begin(rules: &Rules, policy: &Policy, trace: &[u8], room: usize) -> Result<(), No> {
    refuse(&rules.run, |no| match no {
        No::BadPolicy => !policy.valid(),
        No::TooFew => trace.len() % 2 == 1,
        No::NoRoom => room < trace.len() / 2,
        _ => false,
    })
}

/// The words of a trace, one after the other.
pub fn run(rules: &Rules, policy: &Policy, trace: &[u8]) -> Run {
    let (mut walk, mut stack, mut run) = (Walk::fresh(), Stack::default(), Run::default());
    for bytes in trace.chunks_exact(2) {
        let word = Word::read(u16::from_be_bytes([bytes[0], bytes[1]]));
        let refused = refuse(&rules.operation, |no| word.refused(rules, policy, stack.depth(), no));
        if let Err(no) = refused {
            run.refused = Some(no);
            break;
        }
        let operation = word.operation();
        let walk = walk.perform(rules, policy, operation);
        run.answers.push(Answers { walk, beliefs: stack.perform(rules, policy, operation) });
    }
    run
}
