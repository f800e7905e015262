//! A call of the library as a value, what it leaves, and how both cross the pipes.

use crate::model::{passed, policy, record, walk};

#[derive(Clone, Copy, PartialEq, Eq, Debug)]
#[repr(u8)]
pub enum Function {
    PolicyRead,
    PolicyWrite,
    PolicyCut,
    WalkRun,
    RecordRun,
    PassedRun,
    WalkOperate,
    RecordOperate,
    PassedCall,
    PassedEnable,
    PassedDisable,
    PassedRevert,
    PassedCheck,
    DerivationWrite,
    DerivationCheck,
}

use Function::*;

pub const FUNCTIONS: [Function; 15] = [
    PolicyRead,
    PolicyWrite,
    PolicyCut,
    WalkRun,
    RecordRun,
    PassedRun,
    WalkOperate,
    RecordOperate,
    PassedCall,
    PassedEnable,
    PassedDisable,
    PassedRevert,
    PassedCheck,
    DerivationWrite,
    DerivationCheck,
];

pub const RUNS: [Function; 3] = [WalkRun, RecordRun, PassedRun];
pub const PASSED: [Function; 5] = [PassedCall, PassedEnable, PassedDisable, PassedRevert, PassedCheck];

impl Function {
    pub fn state_words(self) -> usize {
        match self {
            WalkOperate | DerivationWrite | DerivationCheck => walk::WORDS,
            RecordOperate => record::WORDS,
            _ if PASSED.contains(&self) => passed::WORDS,
            _ => 0,
        }
    }

    pub fn takes_bytes(self) -> bool {
        matches!(self, PolicyRead | PolicyCut | WalkRun | RecordRun | PassedRun | DerivationCheck)
    }

    pub fn is_lent_bytes(self) -> bool {
        matches!(self, PolicyWrite | WalkRun | RecordRun | PassedRun | DerivationWrite)
    }

    /// The numbers that the function can answer.
    pub fn refusals(self) -> &'static [u8] {
        match self {
            PolicyRead => &[1, 2, 3],
            PolicyWrite => &[9, 13],
            PolicyCut => &[],
            WalkRun | RecordRun | PassedRun => &[1, 3, 4, 5, 6, 7, 8, 9, 13],
            WalkOperate | RecordOperate => &[3, 4, 5, 6, 7, 8, 13, 14],
            PassedCall => &[5, 8, 13, 14],
            PassedEnable | PassedDisable | PassedRevert | PassedCheck => &[6, 7, 13, 14],
            DerivationWrite => &[6, 7, 9, 12, 13, 14],
            DerivationCheck => &[6, 7, 10, 11, 13, 14],
        }
    }
}

/// Where the input came from; only the counts look at it.
#[derive(Clone, Copy, PartialEq, Eq, Debug)]
pub enum Made {
    Sound,
    Damaged,
    Invented,
}

#[derive(Clone, Debug)]
pub struct Request {
    pub function: Function,
    pub made: Made,
    /// How the buffers lie; host.c says what each number means.
    pub place: u8,
    /// What fills the lent buffers beforehand.
    pub fill: u8,
    /// The operation word, signer or target.
    pub argument: u16,
    pub room: usize,
    pub policy: Vec<u64>,
    pub state: Vec<u64>,
    pub bytes: Vec<u8>,
}

pub const PLACES: u64 = 11;
pub const NULL_IF_EMPTY: u8 = 10;

/// Everything that a call leaves behind. Words go without the zeros at their end.
#[derive(Clone, PartialEq, Eq, Debug)]
pub struct Reply {
    pub number: u8,
    pub guarded: u8,
    pub answer: u8,
    pub figure: u64,
    pub policy: Vec<u64>,
    pub state: Vec<u64>,
    pub lent: Vec<u8>,
}

pub fn trimmed(words: &[u64]) -> &[u64] {
    let end = words.iter().rposition(|&word| word != 0).map_or(0, |last| last + 1);
    &words[..end]
}

impl Request {
    pub fn new(function: Function, made: Made, policy: &[u64]) -> Request {
        Request {
            function,
            made,
            place: 0,
            fill: 0,
            argument: 0,
            room: 0,
            policy: policy.to_vec(),
            state: vec![0; function.state_words()],
            bytes: Vec::new(),
        }
    }

    /// What a call would leave that answered 0 and wrote nothing.
    pub fn untouched(&self) -> Reply {
        let filled = |i: usize| self.fill.wrapping_add((i as u8).wrapping_mul(29));
        let mut figure = [0; 8];
        figure.iter_mut().enumerate().for_each(|(i, byte)| *byte = filled(i));
        Reply {
            number: 0,
            guarded: 1,
            answer: self.fill,
            figure: u64::from_le_bytes(figure),
            policy: trimmed(&self.policy).to_vec(),
            state: trimmed(&self.state).to_vec(),
            lent: (0..self.room).map(filled).collect(),
        }
    }

    pub fn encode(&self, out: &mut Vec<u8>) {
        debug_assert!(self.policy.len() == policy::WORDS && self.state.len() == self.function.state_words());
        out.extend([self.function as u8, self.place, self.fill]);
        out.extend(self.argument.to_le_bytes());
        out.extend((self.room as u32).to_le_bytes());
        encode_words(&self.policy, out);
        encode_words(&self.state, out);
        out.extend((self.bytes.len() as u32).to_le_bytes());
        out.extend(&self.bytes);
    }
}

fn encode_words(words: &[u64], out: &mut Vec<u8>) {
    let words = trimmed(words);
    out.extend((words.len() as u16).to_le_bytes());
    words.iter().for_each(|word| out.extend(word.to_le_bytes()));
}

/// Replies out of a batch, one after the other; none where the batch is cut short.
pub struct Replies<'a>(pub &'a [u8]);

impl Replies<'_> {
    fn take(&mut self, count: usize) -> Option<&[u8]> {
        let taken = self.0.get(..count)?;
        self.0 = &self.0[count..];
        Some(taken)
    }

    fn number(&mut self, count: usize) -> Option<u64> {
        let bytes = self.take(count)?;
        Some(bytes.iter().rev().fold(0, |value, &byte| value << 8 | u64::from(byte)))
    }

    fn words(&mut self) -> Option<Vec<u64>> {
        let count = self.number(2)?;
        (0..count).map(|_| self.number(8)).collect()
    }

    pub fn reply(&mut self) -> Option<Reply> {
        let (number, guarded) = (self.number(1)? as u8, self.number(1)? as u8);
        let (answer, figure) = (self.number(1)? as u8, self.number(8)?);
        let (policy, state) = (self.words()?, self.words()?);
        let room = self.number(4)? as usize;
        Some(Reply { number, guarded, answer, figure, policy, state, lent: self.take(room)?.to_vec() })
    }
}
