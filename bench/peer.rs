//! The same routines in Rust, as one would write them by hand for speed: the layouts and the answers are the library's, and so are the
//! algorithms (every refusal is tested, in document 01's order). The passed run calls itself at each call word. All of it is safe Rust but the
//! C boundary at the end, which makes slices of pointers.

use std::slice::{from_raw_parts, from_raw_parts_mut};

const DEPTH_MOST: usize = 63;

const TOO_FEW: u8 = 1;
const BIT_SET: u8 = 3;
const UNKNOWN: u8 = 4;
const NO_SIGNER: u8 = 5;
const NO_TARGET: u8 = 6;
const NO_FRAME: u8 = 7;
const TOO_DEEP: u8 = 8;
const NO_ROOM: u8 = 9;
const NOT_ALLOWED: u8 = 10;
const NOT_EMPTY: u8 = 11;
const FORBIDDEN: u8 = 12;
const BAD_POLICY: u8 = 13;
const BAD_STATE: u8 = 14;

const DONE: u8 = 0;
const YES: u8 = 64;
const NO: u8 = 128;

#[repr(C)]
pub struct Policy {
    start: u64,
    signers: u64,
    targets: u64,
    rows: [u64; 32],
}

/// A frame of the walk: signer, enabled, disabled. An array, so that many are one slice of words.
type Marks = [u64; 3];

#[repr(C)]
pub struct Walk {
    depth: u64,
    frames: [Marks; DEPTH_MOST],
}

#[derive(Clone, Copy)]
#[repr(C)]
struct Held {
    signer: u64,
    lengths: [u64; 64],
}

#[repr(C)]
pub struct Record {
    depth: u64,
    frames: [Held; DEPTH_MOST],
}

#[derive(Clone, Copy, Default)]
#[repr(C)]
pub struct Passed {
    depth: u64,
    signer: u64,
    own: u64,
    callers: u64,
}

enum Operation {
    Call(u8),
    Return,
    Enable(u8),
    Disable(u8),
    Revert(u8),
    Check(u8),
}

/// What a run reports: the words run, or the number for no and where.
type Report = Result<usize, (u8, usize)>;

fn bit(t: u8) -> u64 {
    1 << t
}

/// The bits at n and above.
fn from(n: u64) -> u64 {
    u64::MAX.checked_shl(n as u32).unwrap_or(0)
}

fn any(words: &[u64]) -> u64 {
    words.iter().fold(0, |together, word| together | word)
}

impl Policy {
    fn valid(&self) -> bool {
        if self.start > 1 || !(1..=32).contains(&self.signers) || !(1..=64).contains(&self.targets) {
            return false;
        }
        let (rows, room) = self.rows.split_at(self.signers as usize);
        any(rows) & from(self.targets) == 0 && any(room) == 0
    }

    fn permits(&self, signer: u64, asked: u64) -> bool {
        self.rows[signer as usize] & asked != 0
    }

    fn start_marks(&self) -> u64 {
        if self.start == 1 { !from(self.targets) } else { 0 }
    }

    fn target(&self, target: u8) -> Result<u8, u8> {
        if (target as u64) < self.targets { Ok(target) } else { Err(NO_TARGET) }
    }

    fn signer(&self, signer: u8) -> Result<u8, u8> {
        if (signer as u64) < self.signers { Ok(signer) } else { Err(NO_SIGNER) }
    }

    /// 4, 3, 5 or 6, else the operation.
    fn decode(&self, word: u16) -> Result<Operation, u8> {
        let signer = (word >> 8 & 31) as u8;
        let target = (word >> 2 & 63) as u8;
        let unused = match word >> 13 {
            0 => 0x00ff,
            1 => 0x1fff,
            2..=5 => 0x1f03,
            _ => return Err(UNKNOWN),
        };
        if word & unused != 0 {
            return Err(BIT_SET);
        }
        Ok(match word >> 13 {
            0 => Operation::Call(self.signer(signer)?),
            1 => Operation::Return,
            2 => Operation::Enable(self.target(target)?),
            3 => Operation::Disable(self.target(target)?),
            4 => Operation::Revert(self.target(target)?),
            _ => Operation::Check(self.target(target)?),
        })
    }

    fn run_refused(&self, trace: &[u8], answers: &[u8]) -> Result<(), (u8, usize)> {
        if !self.valid() {
            Err((BAD_POLICY, 0))
        } else if trace.len() % 2 != 0 {
            Err((TOO_FEW, 0))
        } else if answers.len() < trace.len() / 2 {
            Err((NO_ROOM, 0))
        } else {
            Ok(())
        }
    }
}

/// A trace from a fresh start, one word after another.
fn run(policy: &Policy, trace: &[u8], answers: &mut [u8], mut serve: impl FnMut(Operation) -> Result<u8, u8>) -> Report {
    policy.run_refused(trace, answers)?;
    for (i, (bytes, answer)) in trace.chunks_exact(2).zip(answers).enumerate() {
        let word = u16::from_be_bytes([bytes[0], bytes[1]]);
        *answer = policy.decode(word).and_then(&mut serve).map_err(|no| (no, i))?;
    }
    Ok(trace.len() / 2)
}

impl Walk {
    fn fresh() -> Self {
        Walk { depth: 0, frames: [[0; 3]; DEPTH_MOST] }
    }

    fn valid(&self, policy: &Policy) -> bool {
        let Some((used, room)) = self.frames.split_at_checked(self.depth as usize) else {
            return false;
        };
        let mut marks = 0;
        for &[signer, enabled, disabled] in used {
            if signer >= policy.signers {
                return false;
            }
            marks |= enabled | disabled;
        }
        marks & from(policy.targets) == 0 && any(room.as_flattened()) == 0
    }

    fn newest(&mut self) -> Result<&mut Marks, u8> {
        match self.depth {
            0 => Err(NO_FRAME),
            d => Ok(&mut self.frames[d as usize - 1]),
        }
    }

    fn call(&mut self, policy: &Policy, signer: u8) -> Result<u8, u8> {
        let enabled = if self.depth == 0 { policy.start_marks() } else { 0 };
        let frame = self.frames.get_mut(self.depth as usize).ok_or(TOO_DEEP)?;
        *frame = [signer as u64, enabled, 0];
        self.depth += 1;
        Ok(DONE)
    }

    fn check(&self, policy: &Policy, target: u8) -> u8 {
        let asked = bit(target);
        let mut looked = 0;
        for &[signer, enabled, disabled] in self.frames[..self.depth as usize].iter().rev() {
            looked += 1;
            if !policy.permits(signer, asked) {
                return NO + looked;
            }
            if enabled & asked != 0 {
                return YES + looked;
            }
            if disabled & asked != 0 {
                return NO + looked;
            }
        }
        NO + looked
    }

    fn serve(&mut self, policy: &Policy, op: Operation) -> Result<u8, u8> {
        if let Operation::Call(signer) = op {
            return self.call(policy, signer);
        }
        let [signer, enabled, disabled] = self.newest()?;
        match op {
            Operation::Call(_) => {}
            Operation::Return => {
                (*signer, *enabled, *disabled) = (0, 0, 0);
                self.depth -= 1;
            }
            Operation::Enable(t) => *enabled |= bit(t),
            Operation::Disable(t) => {
                *enabled &= !bit(t);
                *disabled |= bit(t);
            }
            Operation::Revert(t) => *enabled &= !bit(t),
            Operation::Check(t) => return Ok(self.check(policy, t)),
        }
        Ok(DONE)
    }

    fn operate(&mut self, policy: &Policy, word: u16) -> Result<u8, u8> {
        if !policy.valid() {
            return Err(BAD_POLICY);
        }
        if !self.valid(policy) {
            return Err(BAD_STATE);
        }
        self.serve(policy, policy.decode(word)?)
    }
}

impl Record {
    fn fresh() -> Self {
        Record { depth: 0, frames: [Held { signer: 0, lengths: [0; 64] }; DEPTH_MOST] }
    }

    fn valid(&self, policy: &Policy) -> bool {
        let Some((used, room)) = self.frames.split_at_checked(self.depth as usize) else {
            return false;
        };
        for (k, frame) in used.iter().enumerate() {
            let (held, outside) = frame.lengths.split_at(policy.targets as usize);
            if frame.signer >= policy.signers || any(held) & from(k as u64 + 1) != 0 || any(outside) != 0 {
                return false;
            }
        }
        room.iter().all(|f| f.signer | any(&f.lengths) == 0)
    }

    fn newest(&mut self) -> Result<&mut Held, u8> {
        match self.depth {
            0 => Err(NO_FRAME),
            d => Ok(&mut self.frames[d as usize - 1]),
        }
    }

    fn call(&mut self, policy: &Policy, signer: u8) -> Result<u8, u8> {
        let Some((below, [frame, ..])) = self.frames.split_at_mut_checked(self.depth as usize) else {
            return Err(TOO_DEEP);
        };
        frame.signer = signer as u64;
        match below.last() {
            Some(caller) => {
                for (word, callers) in frame.lengths.iter_mut().zip(&caller.lengths) {
                    *word = callers << 1;
                }
            }
            None => {
                let handed = if policy.start == 1 { policy.targets as usize } else { 0 };
                frame.lengths[..handed].fill(1);
                frame.lengths[handed..].fill(0);
            }
        }
        self.depth += 1;
        Ok(DONE)
    }

    /// Tries each length held, the shortest first: the first frame that is not permitted ends it.
    fn check(&self, policy: &Policy, target: u8) -> u8 {
        let asked = bit(target);
        let frames = &self.frames[..self.depth as usize];
        let mut lengths = frames.last().map_or(0, |f| f.lengths[target as usize]);
        for frame in frames.iter().rev() {
            if !policy.permits(frame.signer, asked) {
                return NO;
            }
            if lengths & 1 != 0 {
                return YES;
            }
            lengths >>= 1;
        }
        NO
    }

    fn serve(&mut self, policy: &Policy, op: Operation) -> Result<u8, u8> {
        if let Operation::Call(signer) = op {
            return self.call(policy, signer);
        }
        let frame = self.newest()?;
        match op {
            Operation::Call(_) => {}
            Operation::Return => {
                *frame = Held { signer: 0, lengths: [0; 64] };
                self.depth -= 1;
            }
            Operation::Enable(t) => frame.lengths[t as usize] |= 1,
            Operation::Disable(t) => frame.lengths[t as usize] = 0,
            Operation::Revert(t) => frame.lengths[t as usize] &= !1,
            Operation::Check(t) => return Ok(self.check(policy, t)),
        }
        Ok(DONE)
    }

    fn operate(&mut self, policy: &Policy, word: u16) -> Result<u8, u8> {
        if !policy.valid() {
            return Err(BAD_POLICY);
        }
        if !self.valid(policy) {
            return Err(BAD_STATE);
        }
        self.serve(policy, policy.decode(word)?)
    }
}

/// Where a frame's run was left: past its return, or at the trace's end.
enum Left {
    Back(usize),
    End(usize),
}

impl Passed {
    fn valid(&self, policy: &Policy) -> bool {
        match self.depth {
            0 => self.signer | self.own | self.callers == 0,
            1..=63 => {
                self.signer < policy.signers
                    && (self.own | self.callers) & from(policy.targets) == 0
                    && (self.depth > 1 || self.callers == 0)
            }
            _ => false,
        }
    }

    fn refused(&self, policy: &Policy) -> Result<(), u8> {
        if !policy.valid() {
            return Err(BAD_POLICY);
        }
        if !self.valid(policy) {
            return Err(BAD_STATE);
        }
        Ok(())
    }

    fn framed(self) -> Result<Self, u8> {
        if self.depth == 0 { Err(NO_FRAME) } else { Ok(self) }
    }

    fn granted(self, policy: &Policy) -> u64 {
        policy.rows[self.signer as usize] & (self.own | self.callers)
    }

    fn call(self, policy: &Policy, signer: u8) -> Result<Self, u8> {
        let signer = signer as u64;
        match self.depth {
            0 => Ok(Passed { depth: 1, signer, own: policy.start_marks(), callers: 0 }),
            63.. => Err(TOO_DEEP),
            depth => Ok(Passed { depth: depth + 1, signer, own: 0, callers: self.granted(policy) }),
        }
    }

    fn enable(mut self, target: u8) -> Self {
        self.own |= bit(target);
        self
    }

    fn disable(mut self, target: u8) -> Self {
        self.own &= !bit(target);
        self.callers &= !bit(target);
        self
    }

    fn revert(mut self, target: u8) -> Self {
        self.own &= !bit(target);
        self
    }

    fn check(self, policy: &Policy, target: u8) -> u8 {
        if self.granted(policy) & bit(target) != 0 { YES } else { NO }
    }

    /// One operation that stays in the frame.
    fn operate(&mut self, policy: &Policy, target: u8, change: impl Fn(Self, u8) -> Self) -> Result<(), u8> {
        self.refused(policy)?;
        let target = policy.target(target)?;
        *self = change(self.framed()?, target);
        Ok(())
    }

    /// An operation that neither calls nor returns.
    fn stay(&mut self, policy: &Policy, op: Operation) -> Result<u8, u8> {
        let frame = self.framed()?;
        match op {
            Operation::Enable(t) => *self = frame.enable(t),
            Operation::Disable(t) => *self = frame.disable(t),
            Operation::Revert(t) => *self = frame.revert(t),
            Operation::Check(t) => return Ok(frame.check(policy, t)),
            Operation::Call(_) | Operation::Return => {}
        }
        Ok(DONE)
    }

    fn frame_run(mut self, policy: &Policy, words: &[[u8; 2]], answers: &mut [u8], from: usize) -> Result<Left, (u8, usize)> {
        let mut i = from;
        while i < words.len() {
            let at = |no| (no, i);
            match policy.decode(u16::from_be_bytes(words[i])).map_err(at)? {
                Operation::Call(signer) => {
                    let callee = self.call(policy, signer).map_err(at)?;
                    answers[i] = DONE;
                    match callee.frame_run(policy, words, answers, i + 1)? {
                        Left::Back(next) => i = next,
                        end => return Ok(end),
                    }
                }
                Operation::Return => {
                    self.framed().map_err(at)?;
                    answers[i] = DONE;
                    return Ok(Left::Back(i + 1));
                }
                op => {
                    answers[i] = self.stay(policy, op).map_err(at)?;
                    i += 1;
                }
            }
        }
        Ok(Left::End(i))
    }
}

fn walk_run(policy: &Policy, trace: &[u8], answers: &mut [u8]) -> Report {
    let mut state = Walk::fresh();
    run(policy, trace, answers, |op| state.serve(policy, op))
}

fn record_run(policy: &Policy, trace: &[u8], answers: &mut [u8]) -> Report {
    let mut state = Record::fresh();
    run(policy, trace, answers, |op| state.serve(policy, op))
}

fn passed_run(policy: &Policy, trace: &[u8], answers: &mut [u8]) -> Report {
    policy.run_refused(trace, answers)?;
    let (words, _) = trace.as_chunks::<2>();
    match Passed::default().frame_run(policy, words, &mut answers[..words.len()], 0)? {
        Left::Back(at) | Left::End(at) => Ok(at),
    }
}

/// A chain: its length, and a bit for each place that has spoken and for each that is the target.
#[derive(Default)]
struct Chain {
    taken: bool,
    len: u8,
    spoken: u64,
    done: u64,
}

impl Chain {
    fn take(&mut self, walk: &Walk, asked: u64, n: u8) -> Option<()> {
        let frames = &walk.frames[..walk.depth as usize];
        let first = frames.len().checked_sub(n as usize)?;
        let ([_, enabled, _], newer) = frames[first..].split_first()?;
        if enabled & asked == 0 || newer.iter().any(|[_, _, disabled]| disabled & asked != 0) {
            return None;
        }
        *self = Chain { taken: true, len: n, spoken: 0, done: 0 };
        Some(())
    }

    /// One step, if it is allowed.
    fn follow(&mut self, policy: &Policy, walk: &Walk, asked: u64, step: u8) -> Option<()> {
        let place = step & 63;
        let here = bit(place);
        match step >> 6 {
            0 => return self.take(walk, asked, place),
            1 if place < self.len && (self.spoken | self.done) & here == 0 => self.spoken |= here,
            2 if place < self.len && self.spoken & !self.done & here != 0 => {
                let [signer, ..] = walk.frames[walk.depth as usize - 1 - place as usize];
                if !policy.permits(signer, asked) {
                    return None;
                }
                self.done |= here;
            }
            3 if place == 0 && self.len > 0 && self.done & bit(self.len - 1) != 0 => self.len -= 1,
            _ => return None,
        }
        Some(())
    }
}

fn derivation_refused(policy: &Policy, walk: &Walk, target: u8) -> Result<(), (u8, usize)> {
    if !policy.valid() {
        return Err((BAD_POLICY, 0));
    }
    if !walk.valid(policy) {
        return Err((BAD_STATE, 0));
    }
    policy.target(target).map_err(|no| (no, 0))?;
    if walk.depth == 0 { Err((NO_FRAME, 0)) } else { Ok(()) }
}

fn derivation_write(policy: &Policy, walk: &Walk, target: u8, steps: &mut [u8]) -> Report {
    derivation_refused(policy, walk, target)?;
    let found = walk.check(policy, target);
    if found & YES == 0 {
        return Err((FORBIDDEN, 0));
    }
    let n = found % 64;
    let size = 3 * n as usize + 1;
    let (take, rest) = steps.get_mut(..size).and_then(|s| s.split_first_mut()).ok_or((NO_ROOM, 0))?;
    let (frames, rest) = rest.split_at_mut(n as usize);
    let (signers, drops) = rest.split_at_mut(n as usize);
    *take = n;
    frames.iter_mut().zip(64..).for_each(|(step, at)| *step = at);
    signers.iter_mut().zip(128..).for_each(|(step, at)| *step = at);
    drops.fill(192);
    Ok(size)
}

fn derivation_check(policy: &Policy, walk: &Walk, target: u8, steps: &[u8]) -> Report {
    derivation_refused(policy, walk, target)?;
    let mut chain = Chain::default();
    for (i, &step) in steps.iter().enumerate() {
        chain.follow(policy, walk, bit(target), step).ok_or((NOT_ALLOWED, i))?;
    }
    if chain.taken && chain.len == 0 { Ok(steps.len()) } else { Err((NOT_EMPTY, 0)) }
}

/// The C boundary: what a result is to a C caller.
fn report(result: Report, figure: &mut u64) -> u8 {
    let (number, value) = match result {
        Ok(value) => (0, value),
        Err(refusal) => refusal,
    };
    *figure = value as u64;
    number
}

fn answered(result: Result<u8, u8>, answer: &mut u8) -> u8 {
    match result {
        Ok(byte) => {
            *answer = byte;
            0
        }
        Err(number) => number,
    }
}

fn moved(result: Result<(), u8>) -> u8 {
    result.err().unwrap_or(0)
}

macro_rules! runs {
    ($($name:ident => $run:ident),*) => {$(
        #[unsafe(no_mangle)]
        pub unsafe extern "C" fn $name(policy: &Policy, trace: *const u8, len: usize, answers: *mut u8, room: usize, figure: &mut u64) -> u8 {
            let (trace, answers) = unsafe { (from_raw_parts(trace, len), from_raw_parts_mut(answers, room)) };
            report($run(policy, trace, answers), figure)
        }
    )*};
}

runs!(rust_walk_run => walk_run, rust_record_run => record_run, rust_passed_run => passed_run);

#[unsafe(no_mangle)]
pub extern "C" fn rust_walk_operate(policy: &Policy, state: &mut Walk, word: u16, answer: &mut u8) -> u8 {
    answered(state.operate(policy, word), answer)
}

#[unsafe(no_mangle)]
pub extern "C" fn rust_record_operate(policy: &Policy, state: &mut Record, word: u16, answer: &mut u8) -> u8 {
    answered(state.operate(policy, word), answer)
}

#[unsafe(no_mangle)]
pub extern "C" fn rust_passed_call(policy: &Policy, state: &mut Passed, signer: u8) -> u8 {
    moved((|| {
        state.refused(policy)?;
        *state = state.call(policy, policy.signer(signer)?)?;
        Ok(())
    })())
}

#[unsafe(no_mangle)]
pub extern "C" fn rust_passed_enable(policy: &Policy, state: &mut Passed, target: u8) -> u8 {
    moved(state.operate(policy, target, Passed::enable))
}

#[unsafe(no_mangle)]
pub extern "C" fn rust_passed_disable(policy: &Policy, state: &mut Passed, target: u8) -> u8 {
    moved(state.operate(policy, target, Passed::disable))
}

#[unsafe(no_mangle)]
pub extern "C" fn rust_passed_revert(policy: &Policy, state: &mut Passed, target: u8) -> u8 {
    moved(state.operate(policy, target, Passed::revert))
}

#[unsafe(no_mangle)]
pub extern "C" fn rust_passed_check(policy: &Policy, state: &Passed, target: u8, answer: &mut u8) -> u8 {
    let asked = || {
        state.refused(policy)?;
        let target = policy.target(target)?;
        Ok(state.framed()?.check(policy, target))
    };
    answered(asked(), answer)
}

#[unsafe(no_mangle)]
pub unsafe extern "C" fn rust_derivation_write(
    policy: &Policy,
    state: &Walk,
    target: u8,
    steps: *mut u8,
    room: usize,
    figure: &mut u64,
) -> u8 {
    let steps = unsafe { from_raw_parts_mut(steps, room) };
    report(derivation_write(policy, state, target, steps), figure)
}

#[unsafe(no_mangle)]
pub unsafe extern "C" fn rust_derivation_check(
    policy: &Policy,
    state: &Walk,
    target: u8,
    steps: *const u8,
    len: usize,
    figure: &mut u64,
) -> u8 {
    let steps = unsafe { from_raw_parts(steps, len) };
    report(derivation_check(policy, state, target, steps), figure)
}
