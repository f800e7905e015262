//! Fields packed into bytes, most significant bit first, and the bits of a 64-bit word, one for each target or length.

pub struct Reader<'a> {
    bytes: &'a [u8],
    at: usize,
}

impl<'a> Reader<'a> {
    pub fn new(bytes: &'a [u8]) -> Self {
        Reader { bytes, at: 0 }
    }

    pub fn take(&mut self, width: usize) -> u64 {
        (0..width).fold(0, |field, _| 2 * field + self.bit())
    }

    fn bit(&mut self) -> u64 {
        let bit = self.bytes[self.at / 8] >> (7 - self.at % 8) & 1;
        self.at += 1;
        u64::from(bit)
    }
}

#[derive(Default)]
pub struct Writer {
    bytes: Vec<u8>,
    at: usize,
}

impl Writer {
    pub fn put(&mut self, field: u64, width: usize) {
        for place in (0..width).rev() {
            self.bit(field >> place & 1);
        }
    }

    fn bit(&mut self, bit: u64) {
        if self.at % 8 == 0 {
            self.bytes.push(0);
        }
        self.bytes[self.at / 8] |= (bit as u8) << (7 - self.at % 8);
        self.at += 1;
    }

    /// Zero bits up to a whole byte.
    pub fn pad(&mut self) {
        self.at = 8 * self.bytes.len();
    }

    pub fn bytes(self) -> Vec<u8> {
        self.bytes
    }
}

pub fn has(word: u64, t: u64) -> bool {
    t < 64 && word >> t & 1 == 1
}

pub fn with(word: u64, t: u64) -> u64 {
    word | 1 << t
}

pub fn without(word: u64, t: u64) -> u64 {
    word & !(1 << t)
}

/// Bits 0 to n - 1.
pub fn first(n: u64) -> u64 {
    if n < 64 {
        (1 << n) - 1
    } else {
        u64::MAX
    }
}

/// Is a bit set at n or above?
pub fn beyond(word: u64, n: u64) -> bool {
    word & !first(n) != 0
}
