//! A small generator of numbers (splitmix64): the same seed and case give the same throws on every machine.

pub struct Dice {
    state: u64,
}

impl Dice {
    pub fn new(seed: u64, case: u64) -> Dice {
        let mut dice = Dice { state: seed };
        dice.state = dice.word() ^ case.wrapping_mul(0xD134_2543_DE82_EF95);
        dice
    }

    pub fn word(&mut self) -> u64 {
        self.state = self.state.wrapping_add(0x9E37_79B9_7F4A_7C15);
        let mut z = self.state;
        z = (z ^ z >> 30).wrapping_mul(0xBF58_476D_1CE4_E5B9);
        z = (z ^ z >> 27).wrapping_mul(0x94D0_49BB_1331_11EB);
        z ^ z >> 31
    }

    pub fn below(&mut self, n: u64) -> u64 {
        self.word() % n
    }

    pub fn size(&mut self, n: usize) -> usize {
        self.below(n as u64) as usize
    }

    pub fn one_in(&mut self, n: u64) -> bool {
        self.below(n) == 0
    }

    pub fn pick<T: Clone>(&mut self, of: &[T]) -> T {
        of[self.size(of.len())].clone()
    }

    /// A word in which each bit is set about never, one time in eight, in two, seven in eight, or always.
    pub fn bits(&mut self, density: Density) -> u64 {
        match density {
            Density::None => 0,
            Density::Few => self.word() & self.word() & self.word(),
            Density::Half => self.word(),
            Density::Most => self.word() | self.word() | self.word(),
            Density::All => u64::MAX,
        }
    }

    pub fn bytes(&mut self, count: usize) -> Vec<u8> {
        (0..count).map(|_| self.word() as u8).collect()
    }
}

#[derive(Clone, Copy)]
pub enum Density {
    None,
    Few,
    Half,
    Most,
    All,
}
