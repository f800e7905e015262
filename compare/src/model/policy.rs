//! The policy: its value, what it permits, its byte form.

use super::bits::{beyond, has, Reader, Writer};
use super::refusals::{refuse, No};
use super::rules::{Reading, Rules};

pub const WORDS: usize = 35;
const FULL: u64 = 1;

#[derive(Clone, PartialEq, Eq)]
pub struct Policy {
    pub start: u64,
    pub signers: u64,
    pub targets: u64,
    pub rows: [u64; 32],
}

impl Policy {
    pub fn from_words(words: &[u64]) -> Policy {
        let mut rows = [0; 32];
        rows.copy_from_slice(&words[3..WORDS]);
        Policy { start: words[0], signers: words[1], targets: words[2], rows }
    }

    pub fn words(&self) -> Vec<u64> {
        let mut words = vec![self.start, self.signers, self.targets];
        words.extend(self.rows);
        words
    }

    /// Number 13 is given exactly where this is false.
    pub fn valid(&self) -> bool {
        self.start <= 1 && (1..=32).contains(&self.signers) && (1..=64).contains(&self.targets) && self.rows_inside()
    }

    fn rows_inside(&self) -> bool {
        let (ours, others) = self.rows.split_at(self.signers as usize);
        ours.iter().all(|&row| !beyond(row, self.targets)) && others.iter().all(|&row| row == 0)
    }

    pub fn permits(&self, signer: u64, target: u64) -> bool {
        self.rows.get(signer as usize).map_or(false, |&row| has(row, target))
    }

    /// The targets that a bottom frame begins with.
    pub fn at_start(&self, rules: &Rules) -> u64 {
        (rules.start)(self.start == FULL, self.targets)
    }
}

/// A row is N bits, padded to whole bytes.
fn row_bytes(targets: u64) -> usize {
    (targets / 8 + u64::from(targets % 8 != 0)) as usize
}

/// The bytes of a whole policy.
fn length(signers: u64, targets: u64) -> usize {
    (signers as usize).saturating_mul(row_bytes(targets)).saturating_add(2)
}

/// The header's fields; the bytes must be two at least.
struct Header {
    start: u64,
    signers: u64,
    targets: u64,
    spare: u64,
}

impl Header {
    fn read(bytes: &[u8]) -> Header {
        let mut fields = Reader::new(bytes);
        Header {
            start: fields.take(1),
            signers: fields.take(5) + 1,
            targets: fields.take(6) + 1,
            spare: fields.take(4),
        }
    }

    fn length(&self) -> usize {
        length(self.signers, self.targets)
    }
}

pub fn read(rules: &Rules, bytes: &[u8]) -> Result<Policy, No> {
    for test in rules.reading {
        if reading_refused(test, bytes) {
            return Err(test.number());
        }
    }
    let Header { start, signers, targets, .. } = Header::read(bytes);
    let mut rows = [0; 32];
    for (row, packed) in rows.iter_mut().zip(packed_rows(bytes)) {
        let mut fields = Reader::new(packed);
        *row = (0..targets).fold(0, |row, t| row | fields.take(1) << (rules.row_bit)(t));
    }
    Ok(Policy { start, signers, targets, rows })
}

fn reading_refused(test: Reading, bytes: &[u8]) -> bool {
    match test {
        Reading::HeaderLength => bytes.len() < 2,
        Reading::HeaderSpare => Header::read(bytes).spare != 0,
        Reading::TooShort => bytes.len() < Header::read(bytes).length(),
        Reading::LeftOver => bytes.len() > Header::read(bytes).length(),
        Reading::Padding => padding_set(bytes),
    }
}

fn packed_rows(bytes: &[u8]) -> impl Iterator<Item = &[u8]> {
    let header = Header::read(bytes);
    bytes[2..].chunks(row_bytes(header.targets)).take(header.signers as usize)
}

fn padding_set(bytes: &[u8]) -> bool {
    let targets = Header::read(bytes).targets as usize;
    packed_rows(bytes).any(|packed| {
        let mut fields = Reader::new(packed);
        fields.take(targets);
        fields.take(8 * packed.len() - targets) != 0
    })
}

/// The one byte form of a policy value.
pub fn write(rules: &Rules, policy: &Policy, room: usize) -> Result<Vec<u8>, No> {
    refuse(&rules.writing, |no| match no {
        No::BadPolicy => !policy.valid(),
        No::NoRoom => room < length(policy.signers, policy.targets),
        _ => false,
    })?;
    let mut fields = Writer::default();
    fields.put(policy.start, 1);
    fields.put(policy.signers - 1, 5);
    fields.put(policy.targets - 1, 6);
    fields.put(0, 4);
    for &row in &policy.rows[..policy.signers as usize] {
        (0..policy.targets).for_each(|t| fields.put(row >> (rules.row_bit)(t) & 1, 1));
        fields.pad();
    }
    Ok(fields.bytes())
}

/// How many bytes at the front of a recording are the policy's, by its header; all of them where they are too few.
pub fn cut(bytes: &[u8]) -> usize {
    if bytes.len() < 2 {
        return bytes.len();
    }
    bytes.len().min(Header::read(bytes).length())
}
