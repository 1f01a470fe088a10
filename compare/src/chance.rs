//! Numbers by chance (xorshift64*). Every case draws from a seed of its own, so that it can be played again by itself.

pub struct Chance(u64);

/// Spreads a number over all 64 bits (splitmix64), so that seeds side by side draw nothing alike.
fn spread(number: u64) -> u64 {
    let mut mixed = number.wrapping_add(0x9e37_79b9_7f4a_7c15);
    mixed = (mixed ^ mixed >> 30).wrapping_mul(0xbf58_476d_1ce4_e5b9);
    mixed = (mixed ^ mixed >> 27).wrapping_mul(0x94d0_49bb_1331_11eb);
    mixed ^ mixed >> 31
}

/// The seed of a case, from the run's base seed, the part that the case belongs to and its number there. Short enough to type.
pub fn seed(base: u64, part: &str, number: u64) -> u64 {
    let named = part.bytes().fold(spread(base), |so_far, byte| spread(so_far ^ u64::from(byte)));
    spread(named ^ spread(number)) >> 24
}

impl Chance {
    pub fn new(seed: u64) -> Self {
        Chance(spread(seed) | 1 << 63)
    }

    pub fn next(&mut self) -> u64 {
        self.0 ^= self.0 >> 12;
        self.0 ^= self.0 << 25;
        self.0 ^= self.0 >> 27;
        self.0.wrapping_mul(0x2545_f491_4f6c_dd1d)
    }

    /// From low to high, both included.
    pub fn between(&mut self, low: u64, high: u64) -> u64 {
        low + self.next() % (high - low + 1)
    }

    pub fn one_in(&mut self, n: u64) -> bool {
        self.next() % n == 0
    }

    pub fn bytes(&mut self, count: usize) -> Vec<u8> {
        let mut all = vec![0; count];
        for piece in all.chunks_mut(8) {
            piece.copy_from_slice(&self.next().to_le_bytes()[..piece.len()]);
        }
        all
    }

    pub fn words(&mut self, count: u64) -> Vec<u64> {
        (0..count).map(|_| self.next()).collect()
    }

    /// A number from low to high, now and then at an end of the range or just outside it, or any number at all.
    pub fn near(&mut self, low: u64, high: u64) -> u64 {
        match self.between(0, 23) {
            0 => low.wrapping_sub(1) & 0xffff_ffff,
            1 => low,
            2 => high,
            3 => high + 1,
            4 => self.next() & 0xffff_ffff,
            _ => self.between(low, high),
        }
    }

    /// A number of a range, mostly up to what is usual, now and then at an end of the whole range.
    pub fn cornered(&mut self, low: u64, usual: u64, high: u64) -> u64 {
        match self.between(0, 19) {
            0 | 1 => low,
            2 => high,
            _ => self.between(low, usual),
        }
    }
}
