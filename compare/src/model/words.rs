//! Operation words and answer bytes.

use super::bits::Reader;
use super::policy::Policy;
use super::refusals::No;
use super::rules::Rules;

#[derive(Clone, Copy, PartialEq, Eq, Debug)]
pub enum Operation {
    Call(u64),
    Return,
    Enable(u64),
    Disable(u64),
    Revert(u64),
    Check(u64),
}

pub struct Word {
    operation: u64,
    signer: u64,
    target: u64,
    spare: u64,
}

const CALL: u64 = 0;
const ENABLE: u64 = 2;
const CHECK: u64 = 5;

impl Word {
    pub fn read(word: u16) -> Word {
        let bytes = word.to_be_bytes();
        let mut fields = Reader::new(&bytes);
        Word { operation: fields.take(3), signer: fields.take(5), target: fields.take(6), spare: fields.take(2) }
    }

    fn uses_signer(&self) -> bool {
        self.operation == CALL
    }

    fn uses_target(&self) -> bool {
        (ENABLE..=CHECK).contains(&self.operation)
    }

    fn unused_set(&self) -> bool {
        !self.uses_signer() && self.signer != 0 || !self.uses_target() && self.target != 0
    }

    /// Would this word be refused by that number at that depth, were it the only one tested?
    pub fn refused(&self, rules: &Rules, policy: &Policy, depth: u64, no: No) -> bool {
        match no {
            No::Unknown => self.operation > CHECK,
            No::SpareBit => self.spare != 0 || self.unused_set(),
            No::NoSigner => self.uses_signer() && (rules.outside)(self.signer, policy.signers),
            No::NoTarget => self.uses_target() && (rules.outside)(self.target, policy.targets),
            No::NoFrame => depth == 0 && self.operation != CALL,
            No::TooDeep => depth >= rules.deepest && self.operation == CALL,
            _ => false,
        }
    }

    /// What a word that is not refused asks for.
    pub fn operation(&self) -> Operation {
        match self.operation {
            0 => Operation::Call(self.signer),
            1 => Operation::Return,
            2 => Operation::Enable(self.target),
            3 => Operation::Disable(self.target),
            4 => Operation::Revert(self.target),
            _ => Operation::Check(self.target),
        }
    }
}

#[derive(Clone, Copy, PartialEq, Eq, Debug)]
pub enum Answer {
    Done,
    Granted { looked: u64 },
    Forbidden { looked: u64 },
}

impl Answer {
    pub fn verdict(granted: bool, looked: u64) -> Answer {
        if granted {
            Answer::Granted { looked }
        } else {
            Answer::Forbidden { looked }
        }
    }

    pub fn byte(self) -> u8 {
        match self {
            Answer::Done => 0,
            Answer::Granted { looked } => 1 << 6 | looked as u8,
            Answer::Forbidden { looked } => 2 << 6 | looked as u8,
        }
    }
}
