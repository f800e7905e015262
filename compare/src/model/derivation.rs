//! Derivations over a policy, a walk state and a target: checked, and written.

use super::policy::Policy;
use super::refusals::{refuse, No};
use super::rules::Rules;
use super::steps::{fields, ours, Entry, DROP, SPEAK, TAKE};
use super::walk::Walk;

/// What a derivation is over, and the chain so far, newest first; none at the outset.
struct Checker<'a> {
    rules: &'a Rules,
    policy: &'a Policy,
    walk: &'a Walk,
    target: u64,
    chain: Option<Vec<Entry>>,
}

impl Checker<'_> {
    /// Takes a step; false where it is not allowed.
    fn allowed(&mut self, step: u8) -> bool {
        let (rule, place) = fields(step);
        if rule == TAKE {
            return self.take(place as usize);
        }
        match &mut self.chain {
            None => false,
            Some(chain) if rule == DROP => place == 0 && (self.rules.drop)(chain),
            Some(chain) => match chain.get_mut(place as usize) {
                None => false,
                Some(entry) if rule == SPEAK => speak(entry),
                Some(entry) => permit(self.rules, self.policy, self.target, entry),
            },
        }
    }

    fn take(&mut self, n: usize) -> bool {
        let newest: Vec<_> = self.walk.newest_first().take(n).collect();
        let allowed = n >= 1 && newest.len() == n && (self.rules.take_allowed)(&newest, self.target);
        if allowed {
            self.chain = Some(newest.iter().map(|f| Entry::Frame(f.signer)).collect());
        }
        allowed
    }
}

/// A frame becomes its signer.
fn speak(entry: &mut Entry) -> bool {
    if let Entry::Frame(signer) = *entry {
        *entry = Entry::Signer(signer);
        return true;
    }
    false
}

/// A signer becomes T where the policy permits.
fn permit(rules: &Rules, policy: &Policy, target: u64, entry: &mut Entry) -> bool {
    match *entry {
        Entry::Signer(signer) if (rules.becomes_target)(policy.permits(signer, target)) => {
            *entry = Entry::Target;
            true
        }
        _ => false,
    }
}

/// A refusal with its figure: a step's index for 10, else 0.
pub type Refused = (No, u64);

pub fn check(rules: &Rules, policy: &Policy, walk: &Walk, target: u64, steps: &[u8]) -> Result<(), Refused> {
    refuse(&rules.checking, |no| before(rules, policy, walk, target, no)).map_err(|no| (no, 0))?;
    let mut checker = Checker { rules, policy, walk, target, chain: None };
    match steps.iter().position(|&step| !checker.allowed(step)) {
        Some(index) => Err((No::StepNotAllowed, index as u64)),
        None if (rules.accepted)(checker.chain.as_deref()) => Ok(()),
        None => Err((No::ChainLeft, 0)),
    }
}

fn before(rules: &Rules, policy: &Policy, walk: &Walk, target: u64, no: No) -> bool {
    match no {
        No::BadPolicy => !policy.valid(),
        No::BadState => !walk.valid(rules, policy),
        No::NoTarget => (rules.outside)(target, policy.targets),
        No::NoFrame => walk.depth == 0,
        _ => false,
    }
}

/// The derivation for a granted check, over the frames that the walk looked at.
pub fn write(rules: &Rules, policy: &Policy, walk: &Walk, target: u64, room: usize) -> Result<Vec<u8>, No> {
    let steps = || match walk.check(rules, policy, target) {
        verdict if verdict.granted => Some(ours(verdict.looked)),
        _ => None,
    };
    refuse(&rules.deriving, |no| match no {
        No::Forbidden => steps().is_none(),
        No::NoRoom => steps().map_or(false, |steps| room < steps.len()),
        _ => before(rules, policy, walk, target, no),
    })?;
    Ok(steps().expect("12 was tested"))
}
