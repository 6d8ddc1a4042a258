//! SplitMix64 from fixed seeds.

pub struct Random(u64);

impl Random {
    pub fn new(seed: u64) -> Self {
        Random(seed)
    }

    pub fn word(&mut self) -> u64 {
        self.0 = self.0.wrapping_add(0x9E37_79B9_7F4A_7C15);
        let mut word = self.0;
        word = (word ^ (word >> 30)).wrapping_mul(0xBF58_476D_1CE4_E5B9);
        word = (word ^ (word >> 27)).wrapping_mul(0x94D0_49BB_1331_11EB);
        word ^ (word >> 31)
    }

    pub fn below(&mut self, bound: u64) -> u64 {
        self.word() % bound
    }

    pub fn index(&mut self, length: usize) -> usize {
        self.below(length as u64) as usize
    }

    pub fn number(&mut self, modulus: u32) -> u32 {
        self.below(u64::from(modulus)) as u32
    }

    pub fn pick<T: Copy>(&mut self, choices: &[T]) -> T {
        choices[self.index(choices.len())]
    }

    pub fn bytes(&mut self, length: usize) -> Vec<u8> {
        (0..length).map(|_| self.word() as u8).collect()
    }

    /// Numbers of all 32 bits.
    pub fn words(&mut self, length: usize) -> Vec<u32> {
        (0..length).map(|_| self.word() as u32).collect()
    }

    /// Numbers of all 64 bits.
    pub fn long_words(&mut self, length: usize) -> Vec<u64> {
        (0..length).map(|_| self.word()).collect()
    }

    pub fn permutation(&mut self, length: usize) -> Vec<u16> {
        let mut places: Vec<u16> = (0..length as u16).collect();
        for place in (1..length).rev() {
            places.swap(place, self.index(place + 1));
        }
        places
    }

    pub fn dice(&mut self) -> Vec<u8> {
        (0..30).map(|_| b'1' + self.below(6) as u8).collect()
    }

    pub fn sides(&mut self, n: usize) -> Vec<u8> {
        (0..n).map(|_| self.below(2) as u8).collect()
    }

    /// Any mask with m ones among 2m bits.
    pub fn mask(&mut self, m: u32) -> u32 {
        let lists = self.permutation(2 * m as usize);
        lists[..m as usize].iter().fold(0, |mask, &list| mask | 1 << list)
    }
}
