//! Document 01's own cases, written down by hand from its text: the model and the library must both answer so.

use crate::expect::Model;
use crate::host::Host;
use crate::model::rules::LAW;
use crate::request::{Function, Function::*, Made, Reply, Request};
use std::io;

/// A call with its answer: number, figure, and the bytes at the front of the lent buffer.
pub struct Case {
    name: &'static str,
    request: Request,
    number: u8,
    figure: u64,
    bytes: Vec<u8>,
}

const POLICY: [u8; 5] = [0x08, 0x10, 0xC0, 0x80, 0x00];
const TRACE_A: [u8; 22] = [
    0x00, 0x00, 0x40, 0x00, 0x01, 0x00, 0xA0, 0x00, 0xA0, 0x04, 0x60, 0x00, 0xA0, 0x00, 0x80, 0x00, 0xA0, 0x00, 0x20,
    0x00, 0xA0, 0x00,
];

/// Signer 0 permitted both targets, signer 1 target 0, signer 2 none.
fn value(start: u64) -> Vec<u64> {
    let mut words = vec![start, 3, 2, 0b11, 0b01, 0b00];
    words.resize(35, 0);
    words
}

fn run(
    name: &'static str,
    function: Function,
    start: u64,
    trace: &[u8],
    number: u8,
    figure: u64,
    answers: &[u8],
) -> Case {
    let mut request = Request::new(function, Made::Sound, &value(start));
    request.bytes = trace.to_vec();
    request.room = trace.len() / 2;
    Case { name, request, number, figure, bytes: answers.to_vec() }
}

fn walk(name: &'static str, start: u64, trace: &[u8], number: u8, figure: u64, answers: &[u8]) -> Case {
    run(name, WalkRun, start, trace, number, figure, answers)
}

/// Over the walk state at trace A's first check: call 0, enable 0, call 1.
fn derive(name: &'static str, function: Function, steps: &[u8], number: u8, figure: u64, bytes: &[u8]) -> Case {
    let mut request = Request::new(function, Made::Sound, &value(0));
    request.state[..7].copy_from_slice(&[2, 0, 0b01, 0, 1, 0, 0]);
    request.bytes = steps.to_vec();
    request.room = bytes.len();
    Case { name, request, number, figure, bytes: bytes.to_vec() }
}

/// Reading has no figure; what was lent for it stays.
fn read(name: &'static str, bytes: &[u8], number: u8) -> Case {
    let mut request = Request::new(PolicyRead, Made::Sound, &value(0));
    request.bytes = bytes.to_vec();
    let figure = request.untouched().figure;
    Case { name, request, number, figure, bytes: Vec::new() }
}

fn proved() -> Vec<Case> {
    const OURS: [u8; 7] = [0x02, 0x40, 0x41, 0x80, 0x81, 0xC0, 0xC0];
    vec![
        walk("P1", 0, &TRACE_A, 0, 11, &[0, 0, 0, 0x42, 0x81, 0, 0x81, 0, 0x81, 0, 0x41]),
        run("P1, by belief record", RecordRun, 0, &TRACE_A, 0, 11, &[0, 0, 0, 0x40, 0x80, 0, 0x80, 0, 0x80, 0, 0x40]),
        run("P1, by passed state", PassedRun, 0, &TRACE_A, 0, 11, &[0, 0, 0, 0x40, 0x80, 0, 0x80, 0, 0x80, 0, 0x40]),
        derive("P2, written", DerivationWrite, &[], 0, 7, &OURS),
        derive("P2, accepted", DerivationCheck, &OURS, 0, 7, &[]),
        derive("P3", DerivationCheck, &OURS[..6], 11, 0, &[]),
        derive("P4", DerivationCheck, &[], 11, 0, &[]),
        derive("P5", DerivationCheck, &[0x03], 10, 0, &[]),
        walk("P6", 0, &[0x02, 0x00, 0x40, 0x00, 0xA0, 0x00], 0, 3, &[0, 0, 0x81]),
        walk(
            "P7",
            0,
            &[0x00, 0x00, 0x60, 0x00, 0x40, 0x00, 0xA0, 0x00, 0x80, 0x00, 0xA0, 0x00],
            0,
            6,
            &[0, 0, 0, 0x41, 0, 0x81],
        ),
        walk("P8", 1, &[0x00, 0x00, 0xA0, 0x04, 0x80, 0x04, 0xA0, 0x04], 0, 4, &[0, 0x41, 0, 0x81]),
        walk("P9", 0, &[0x00, 0x00, 0xA0, 0x00], 0, 2, &[0, 0x81]),
        walk("P10", 0, &[0x20, 0x00], 7, 0, &[]),
    ]
}

fn others() -> Vec<Case> {
    let calls = |count: usize| [0x00, 0x00].repeat(count);
    vec![
        walk("63 calls pass", 0, &calls(63), 0, 63, &[0; 63]),
        walk("the 64th gives 8", 0, &calls(64), 8, 63, &[0; 63]),
        walk("call 0, return, call 0 passes", 0, &[0x00, 0x00, 0x20, 0x00, 0x00, 0x00], 0, 3, &[0; 3]),
        read("the policy is read", &POLICY, 0),
        read("header 08 11 gives 3", &[0x08, 0x11, 0xC0, 0x80, 0x00], 3),
        read("08 10 C0 80 gives 1", &POLICY[..4], 1),
        read("a sixth byte gives 2", &[0x08, 0x10, 0xC0, 0x80, 0x00, 0x00], 2),
        read("row A0 gives 3", &[0x08, 0x10, 0xA0, 0x80, 0x00], 3),
        walk("call 3 gives 5", 0, &[0x03, 0x00], 5, 0, &[]),
        walk("check 2 gives 6", 0, &[0x00, 0x00, 0xA0, 0x08], 6, 1, &[0]),
        walk("an empty trace is accepted with 0 words", 0, &[], 0, 0, &[]),
    ]
}

pub fn cases() -> Vec<Case> {
    let mut cases = proved();
    cases.extend(others());
    cases
}

impl Case {
    fn answered(&self, reply: &Reply) -> bool {
        let mut due = self.request.untouched();
        due.number = self.number;
        due.figure = self.figure;
        due.lent[..self.bytes.len()].copy_from_slice(&self.bytes);
        *reply == due
    }
}

/// Each case twice: by the model, and by the library.
pub fn parts(host: &mut Host) -> io::Result<Vec<(String, bool)>> {
    let (mut model, mut parts) = (Model::new(LAW), Vec::new());
    for case in cases() {
        let replies = host.ask(std::slice::from_ref(&case.request))?;
        parts.push((format!("{}: the model", case.name), case.answered(&model.expect(&case.request))));
        parts.push((format!("{}: the library", case.name), case.answered(&replies[0])));
    }
    Ok(parts)
}
