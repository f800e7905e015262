//! Models that are wrong on purpose, one sentence of document 01 each, and the functions that must show it.

use crate::model::beliefs::Belief;
use crate::model::bits::{has, with, without};
use crate::model::marks::Frame;
use crate::model::refusals::No::*;
use crate::model::rules::{Reading, Rules, LAW};
use crate::model::steps::Entry;
use crate::request::{Function, Function::*, FUNCTIONS, PASSED, RUNS};

pub struct Mutant {
    pub name: &'static str,
    pub rules: Rules,
    pub shown_by: Vec<Function>,
}

fn mutant(name: &'static str, rules: Rules, shown_by: &[Function]) -> Mutant {
    Mutant { name, rules, shown_by: shown_by.to_vec() }
}

const WALKS: [Function; 3] = [WalkRun, WalkOperate, DerivationWrite];
const BY_BELIEFS: [Function; 3] = [RecordRun, PassedRun, RecordOperate];
const WORDS: [Function; 5] = [WalkRun, RecordRun, PassedRun, WalkOperate, RecordOperate];
const OPERATES: [Function; 2] = [WalkOperate, RecordOperate];
const CALLS: [Function; 6] = [WalkRun, RecordRun, PassedRun, WalkOperate, RecordOperate, PassedCall];

pub fn mutants() -> Vec<Mutant> {
    [walks(), beliefs(), derivations(), values(), orders(), operation_orders(), derivation_orders()]
        .into_iter()
        .flatten()
        .collect()
}

fn walks() -> Vec<Mutant> {
    let marks = [WalkRun, WalkOperate];
    vec![
        mutant("revert clears the disabled mark", Rules { revert: clear_both, ..LAW }, &marks),
        mutant("enabled is tested before the policy", Rules { decide: enabled_first, ..LAW }, &WALKS),
        mutant("disable blocks a later enable", Rules { decide: disabled_before_enabled, ..LAW }, &WALKS),
        mutant("enable asks the policy first", Rules { enable: enable_if_permitted, ..LAW }, &[WalkOperate]),
        mutant("disable leaves the enabled mark", Rules { disable: disable_only, ..LAW }, &marks),
        mutant("marks of a returned frame found again", Rules { returned: |_| {}, called: called_over, ..LAW }, &marks),
        mutant("the deciding frame is not counted", Rules { looked: |before| before, ..LAW }, &WALKS),
        mutant("a full start is taken as empty", Rules { start: |_, _| 0, ..LAW }, &CALLS),
    ]
}

fn beliefs() -> Vec<Mutant> {
    let passed_down = |_, held| held;
    vec![
        mutant("disable removes the own belief only", Rules { disable_removes: own, ..LAW }, &BY_BELIEFS),
        mutant("revert removes every belief on T", Rules { revert_removes: |b, t| b.target == t, ..LAW }, &BY_BELIEFS),
        mutant("a call leaves out the caller's name", Rules { handed_down: |_, b| b.clone(), ..LAW }, &BY_BELIEFS),
        mutant("a passed state asks no caller", Rules { passed_down, ..LAW }, &[PassedCall]),
        mutant(
            "a disable leaves the callers' bit",
            Rules { passed_disable: LAW.passed_revert, ..LAW },
            &[PassedDisable],
        ),
        mutant("a revert takes the callers' bit", Rules { passed_revert: LAW.passed_disable, ..LAW }, &[PassedRevert]),
        mutant("a passed state asks no signer", Rules { passed_grants: |_, held| held, ..LAW }, &[PassedCheck]),
    ]
}

fn derivations() -> Vec<Mutant> {
    let shown = |name, rules| mutant(name, rules, &[DerivationCheck]);
    vec![
        shown("a drop of T from the middle", Rules { drop: drop_any, ..LAW }),
        shown("an acceptance with no take", Rules { accepted: |c| c.map_or(true, |c| c.is_empty()), ..LAW }),
        shown("an acceptance with a chain left", Rules { accepted: |c| c.is_some(), ..LAW }),
        shown("a take past a disabled frame", Rules { take_allowed: nth_enabled, ..LAW }),
        shown("a signer becomes T unasked", Rules { becomes_target: |_| true, ..LAW }),
    ]
}

fn values() -> Vec<Mutant> {
    let fields: Vec<_> = FUNCTIONS.into_iter().filter(|f| f.refusals().iter().any(|&no| no == 5 || no == 6)).collect();
    let states: Vec<_> = FUNCTIONS.into_iter().filter(|f| f.refusals().contains(&14)).collect();
    let chains: Vec<_> = [RecordOperate].into_iter().chain(PASSED).collect();
    vec![
        mutant("target 0 comes last in a byte", Rules { row_bit: |t| t ^ 7, ..LAW }, &[PolicyRead, PolicyWrite]),
        mutant("signer S, target N are inside where odd", Rules { outside: outside_even, ..LAW }, &fields),
        mutant("a call at depth 62 is refused", Rules { deepest: 62, ..LAW }, &CALLS),
        mutant("a chain may be as long as the depth", Rules { lengths: |depth| depth + 1, ..LAW }, &chains),
        mutant("room above the depth is not looked at", Rules { above_clear: |_| true, ..LAW }, &states),
    ]
}

fn orders() -> Vec<Mutant> {
    use Reading::*;
    let reading = |name, reading| mutant(name, Rules { reading, ..LAW }, &[PolicyRead]);
    let run = |name, run| mutant(name, Rules { run, ..LAW }, &RUNS);
    vec![
        reading("reading: short before spare", [HeaderLength, TooShort, HeaderSpare, LeftOver, Padding]),
        reading("reading: padding before left over", [HeaderLength, HeaderSpare, TooShort, Padding, LeftOver]),
        mutant("writing a policy: 9 before 13", Rules { writing: [NoRoom, BadPolicy], ..LAW }, &[PolicyWrite]),
        run("a run: 1 before 13", [TooFew, BadPolicy, NoRoom]),
        run("a run: 9 before 13", [NoRoom, BadPolicy, TooFew]),
        run("a run: 9 before 1", [BadPolicy, NoRoom, TooFew]),
    ]
}

fn operation_orders() -> Vec<Mutant> {
    let order = |name, operation, shown_by: &[Function]| mutant(name, Rules { operation, ..LAW }, shown_by);
    let [p, s, u, b, i, t, f, d] = LAW.operation;
    let values: Vec<_> = OPERATES.into_iter().chain(PASSED).collect();
    let targets: Vec<_> = WORDS.into_iter().chain(PASSED).filter(|&f| f != PassedCall).collect();
    vec![
        order("an operation: 14 before 13", [s, p, u, b, i, t, f, d], &values),
        order("an operation: 4 before 14", [p, u, s, b, i, t, f, d], &OPERATES),
        order("an operation: 3 before 4", [p, s, b, u, i, t, f, d], &WORDS),
        order("an operation: 5 before 3", [p, s, u, i, b, t, f, d], &WORDS),
        order("an operation: 6 before 3", [p, s, u, t, b, i, f, d], &WORDS),
        order("an operation: 7 before 6", [p, s, u, b, i, f, t, d], &targets),
        order("an operation: 8 before 5", [p, s, u, b, d, i, t, f], &CALLS),
    ]
}

fn derivation_orders() -> Vec<Mutant> {
    let writing = |name, deriving| mutant(name, Rules { deriving, ..LAW }, &[DerivationWrite]);
    let checking = |name, checking| mutant(name, Rules { checking, ..LAW }, &[DerivationCheck]);
    vec![
        writing("writing: 14 before 13", [BadState, BadPolicy, NoTarget, NoFrame, Forbidden, NoRoom]),
        writing("writing: 6 before 14", [BadPolicy, NoTarget, BadState, NoFrame, Forbidden, NoRoom]),
        writing("writing: 7 before 6", [BadPolicy, BadState, NoFrame, NoTarget, Forbidden, NoRoom]),
        writing("writing: 12 before 7", [BadPolicy, BadState, NoTarget, Forbidden, NoFrame, NoRoom]),
        checking("checking: 14 before 13", [BadState, BadPolicy, NoTarget, NoFrame]),
        checking("checking: 6 before 14", [BadPolicy, NoTarget, BadState, NoFrame]),
        checking("checking: 7 before 6", [BadPolicy, BadState, NoFrame, NoTarget]),
    ]
}

fn clear_both(frame: &mut Frame, t: u64) {
    frame.enabled = without(frame.enabled, t);
    frame.disabled = without(frame.disabled, t);
}

fn enabled_first(permitted: bool, enabled: bool, disabled: bool) -> Option<bool> {
    if enabled {
        return Some(true);
    }
    (LAW.decide)(permitted, enabled, disabled)
}

fn disabled_before_enabled(permitted: bool, enabled: bool, disabled: bool) -> Option<bool> {
    if disabled {
        return Some(false);
    }
    (LAW.decide)(permitted, enabled, disabled)
}

fn enable_if_permitted(frame: &mut Frame, t: u64, permitted: bool) {
    if permitted {
        (LAW.enable)(frame, t, permitted);
    }
}

fn disable_only(frame: &mut Frame, t: u64) {
    frame.disabled = with(frame.disabled, t);
}

fn called_over(frame: &mut Frame, signer: u64, start: u64) {
    frame.signer = signer;
    frame.enabled |= start;
}

fn own(belief: &Belief, t: u64) -> bool {
    belief.target == t && belief.chain.is_empty()
}

fn drop_any(chain: &mut Vec<Entry>) -> bool {
    let found = chain.iter().rposition(|entry| *entry == Entry::Target);
    found.map(|at| chain.remove(at)).is_some()
}

fn nth_enabled(newest: &[&Frame], t: u64) -> bool {
    newest.last().map_or(false, |nth| has(nth.enabled, t))
}

/// One more than the size where that is odd: the largest sizes are even, and the model's arrays end there.
fn outside_even(field: u64, size: u64) -> bool {
    field >= size.saturating_add(size % 2)
}
