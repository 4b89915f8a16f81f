//! A seeded source of numbers: the same seed gives the same numbers everywhere.

pub struct Random(u64);

impl Random {
    /// The source of one input: a seed, and the number of the input.
    pub fn new(seed: u64, input: u64) -> Random {
        let mut random = Random(seed.wrapping_mul(0x9e37_79b9_7f4a_7c15) ^ input.wrapping_mul(0xd134_2543_de82_ef95));
        random.next();
        random
    }

    /// Splitmix64.
    pub fn next(&mut self) -> u64 {
        self.0 = self.0.wrapping_add(0x9e37_79b9_7f4a_7c15);
        let mut z = self.0;
        z = (z ^ (z >> 30)).wrapping_mul(0xbf58_476d_1ce4_e5b9);
        z = (z ^ (z >> 27)).wrapping_mul(0x94d0_49bb_1331_11eb);
        z ^ (z >> 31)
    }

    /// A number below `count`.
    pub fn below(&mut self, count: u64) -> u64 {
        ((u128::from(self.next()) * u128::from(count)) >> 64) as u64
    }

    /// A number from `least` to `most`.
    pub fn range(&mut self, least: i64, most: i64) -> i64 {
        least + self.below((most - least + 1) as u64) as i64
    }

    /// True once in `count` times.
    pub fn one_in(&mut self, count: u64) -> bool {
        self.below(count) == 0
    }

    pub fn pick<T: Copy>(&mut self, items: &[T]) -> T {
        items[self.below(items.len() as u64) as usize]
    }

    /// A place in a list of this length.
    pub fn place(&mut self, length: usize) -> usize {
        self.below(length as u64) as usize
    }

    pub fn shuffle<T>(&mut self, items: &mut [T]) {
        for i in (1..items.len()).rev() {
            items.swap(i, self.place(i + 1));
        }
    }

    /// Bytes, some of them from the edges of the signed range.
    pub fn bytes(&mut self, length: usize) -> Vec<u8> {
        let mut bytes = Vec::with_capacity(length + 8);
        while bytes.len() < length {
            let mut word = self.next();
            if word % 4 == 0 {
                word =
                    self.pick(&[0, u64::MAX, 0x8000_0000_0000_0000, 0x7fff_ffff_ffff_ffff, 0x0080_0100_8000_7f01, 0x7f80_ff00_0000_0001]);
            }
            bytes.extend(word.to_le_bytes());
        }
        bytes.truncate(length);
        bytes
    }

    /// Bytes of few values, so that many lanes are equal.
    pub fn few_bytes(&mut self, length: usize) -> Vec<u8> {
        let values = [0; 3].map(|_| self.pick(&[0x00, 0x01, 0x7f, 0x80, 0xff]));
        (0..length).map(|_| self.pick(&values)).collect()
    }
}
