//! Document 01's orders, and those of its sentences which an error likes, one function each. `LAW` is the document's
//! own reading; the self-test puts a wrong one in a place and looks whether the comparison notices.

use super::beliefs::{Belief, Principal};
use super::bits::{first, has, with, without};
use super::marks::Frame;
use super::refusals::No::{self, *};
use super::steps::Entry;

/// What is tested when a policy is read; two of the numbers stand for two tests each.
#[derive(Clone, Copy, PartialEq, Eq)]
pub enum Reading {
    HeaderLength,
    HeaderSpare,
    TooShort,
    LeftOver,
    Padding,
}

impl Reading {
    pub fn number(self) -> No {
        match self {
            Reading::HeaderLength | Reading::TooShort => TooFew,
            Reading::HeaderSpare | Reading::Padding => SpareBit,
            Reading::LeftOver => LeftOver,
        }
    }
}

#[derive(Clone, Copy)]
pub struct Rules {
    pub reading: [Reading; 5],
    pub writing: [No; 2],
    /// A run's words are tested by this too; 13 and 14 are behind it by then.
    pub operation: [No; 8],
    pub run: [No; 3],
    pub deriving: [No; 6],
    /// 10 and 11 come with the steps.
    pub checking: [No; 4],
    pub deepest: u64,
    pub outside: fn(u64, u64) -> bool,
    pub above_clear: fn(&[u64]) -> bool,
    pub lengths: fn(u64) -> u64,
    pub row_bit: fn(u64) -> u64,
    pub start: fn(bool, u64) -> u64,
    pub handed_down: fn(Principal, &Belief) -> Belief,
    pub disable_removes: fn(&Belief, u64) -> bool,
    pub revert_removes: fn(&Belief, u64) -> bool,
    pub called: fn(&mut Frame, u64, u64),
    pub returned: fn(&mut Frame),
    pub enable: fn(&mut Frame, u64, bool),
    pub disable: fn(&mut Frame, u64),
    pub revert: fn(&mut Frame, u64),
    pub decide: fn(bool, bool, bool) -> Option<bool>,
    pub looked: fn(u64) -> u64,
    pub passed_down: fn(u64, u64) -> u64,
    pub passed_disable: fn(u64, u64, u64) -> (u64, u64),
    pub passed_revert: fn(u64, u64, u64) -> (u64, u64),
    pub passed_grants: fn(bool, bool) -> bool,
    pub take_allowed: fn(&[&Frame], u64) -> bool,
    pub becomes_target: fn(bool) -> bool,
    pub drop: fn(&mut Vec<Entry>) -> bool,
    pub accepted: fn(Option<&[Entry]>) -> bool,
}

pub const LAW: Rules = Rules {
    reading: [Reading::HeaderLength, Reading::HeaderSpare, Reading::TooShort, Reading::LeftOver, Reading::Padding],
    writing: [BadPolicy, NoRoom],
    operation: [BadPolicy, BadState, Unknown, SpareBit, NoSigner, NoTarget, NoFrame, TooDeep],
    run: [BadPolicy, TooFew, NoRoom],
    deriving: [BadPolicy, BadState, NoTarget, NoFrame, Forbidden, NoRoom],
    checking: [BadPolicy, BadState, NoTarget, NoFrame],
    deepest: 63,
    outside,
    above_clear,
    lengths,
    row_bit,
    start,
    handed_down,
    disable_removes,
    revert_removes,
    called,
    returned,
    enable,
    disable,
    revert,
    decide,
    looked,
    passed_down,
    passed_disable,
    passed_revert,
    passed_grants,
    take_allowed,
    becomes_target,
    drop: drop_last,
    accepted,
};

/// "signer S or above", "target N or above"
fn outside(field: u64, size: u64) -> bool {
    field >= size
}

/// "anything but zero in room above the depth"
fn above_clear(words: &[u64]) -> bool {
    words.iter().all(|&word| word == 0)
}

/// "A frame at depth d (bottom is 1) holds chains of length 0 to d - 1": how many lengths these are.
fn lengths(depth: u64) -> u64 {
    depth
}

/// "a row is N bits, target 0 first": which target the t-th bit is for.
fn row_bit(t: u64) -> u64 {
    t
}

/// "A full start is a bottom frame with all N enabled."
fn start(full: bool, targets: u64) -> u64 {
    if full {
        first(targets)
    } else {
        0
    }
}

/// "every belief of the caller with the caller's name put in front"
fn handed_down(caller: Principal, belief: &Belief) -> Belief {
    Belief { chain: belief.chain.behind(caller), target: belief.target }
}

/// "Disable removes every belief that mentions Ok(T)."
fn disable_removes(belief: &Belief, t: u64) -> bool {
    belief.target == t
}

/// "Revert removes only Ok(T) itself, with the empty chain."
fn revert_removes(belief: &Belief, t: u64) -> bool {
    belief.target == t && belief.chain.is_empty()
}

/// A new frame has no mark but those of a full start.
fn called(frame: &mut Frame, signer: u64, start: u64) {
    *frame = Frame { signer, enabled: start, disabled: 0 };
}

/// "Return drops the frame", and what is above the depth is zero.
fn returned(frame: &mut Frame) {
    *frame = Frame::default();
}

/// "Enable sets the first", "whether or not the policy permits the signer".
fn enable(frame: &mut Frame, t: u64, _permitted: bool) {
    frame.enabled = with(frame.enabled, t);
}

/// "Disable clears the first and sets the second."
fn disable(frame: &mut Frame, t: u64) {
    frame.enabled = without(frame.enabled, t);
    frame.disabled = with(frame.disabled, t);
}

/// "Revert clears the first only".
fn revert(frame: &mut Frame, t: u64) {
    frame.enabled = without(frame.enabled, t);
}

/// "signer not permitted, forbidden; else enabled, granted; else disabled, forbidden; else go on"
fn decide(permitted: bool, enabled: bool, disabled: bool) -> Option<bool> {
    match (permitted, enabled, disabled) {
        (false, _, _) => Some(false),
        (_, true, _) => Some(true),
        (_, _, true) => Some(false),
        _ => None,
    }
}

/// "counts each frame visited, the deciding one included": from the number visited before it.
fn looked(before: u64) -> u64 {
    before + 1
}

/// What the callers would be granted at the call: the caller's signer is asked too.
fn passed_down(permitted: u64, held: u64) -> u64 {
    permitted & held
}

/// A disable takes a target from both; a revert leaves what the callers would be granted.
fn passed_disable(own: u64, callers: u64, t: u64) -> (u64, u64) {
    (without(own, t), without(callers, t))
}

fn passed_revert(own: u64, callers: u64, t: u64) -> (u64, u64) {
    (without(own, t), callers)
}

/// The frame's own signer is asked, whoever enabled.
fn passed_grants(permitted: bool, held: bool) -> bool {
    permitted && held
}

/// "Allowed if the n-th has T enabled and none of the first n - 1 has T disabled."
fn take_allowed(newest: &[&Frame], t: u64) -> bool {
    match newest.split_last() {
        None => false,
        Some((nth, first)) => has(nth.enabled, t) && !first.iter().any(|frame| has(frame.disabled, t)),
    }
}

/// "Allowed if the policy permits."
fn becomes_target(permitted: bool) -> bool {
    permitted
}

/// "the chain's last entry, if it is T, is dropped"
fn drop_last(chain: &mut Vec<Entry>) -> bool {
    let allowed = chain.last() == Some(&Entry::Target);
    if allowed {
        chain.pop();
    }
    allowed
}

/// "at the end, a chain was taken and is empty"
fn accepted(chain: Option<&[Entry]>) -> bool {
    chain.map_or(false, |chain| chain.is_empty())
}
