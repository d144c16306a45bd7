//! Numbers that look random and depend on a seed alone (splitmix64).

/// A stream of numbers fixed by its seed.
#[derive(Clone)]
pub struct Rng(u64);

impl Rng {
    pub fn new(seed: u64) -> Self {
        let mut rng = Self(seed);
        // Seeds that lie close together part after one step.
        rng.0 = rng.next();
        rng
    }

    #[allow(clippy::should_implement_trait)]
    pub fn next(&mut self) -> u64 {
        self.0 = self.0.wrapping_add(0x9E37_79B9_7F4A_7C15);
        let mut z = self.0;
        z = (z ^ (z >> 30)).wrapping_mul(0xBF58_476D_1CE4_E5B9);
        z = (z ^ (z >> 27)).wrapping_mul(0x94D0_49BB_1331_11EB);
        z ^ (z >> 31)
    }

    /// A number below `limit`, which is above 0.
    pub fn below(&mut self, limit: usize) -> usize {
        ((u128::from(self.next()) * limit as u128) >> 64) as usize
    }

    /// A number from `low` to `high`, both allowed.
    pub fn between(&mut self, low: usize, high: usize) -> usize {
        low + self.below(high - low + 1)
    }

    /// True once in `times`, on average.
    pub fn once_in(&mut self, times: usize) -> bool {
        self.below(times) == 0
    }

    pub fn byte(&mut self) -> u8 {
        self.next() as u8
    }

    pub fn pick<'a, T: ?Sized>(&mut self, of: &[&'a T]) -> &'a T {
        of[self.below(of.len())]
    }

    pub fn pick_byte(&mut self, of: &[u8]) -> u8 {
        of[self.below(of.len())]
    }

    /// A number whose length in bits is random, often next to a power of two.
    pub fn number(&mut self) -> u64 {
        let bits = self.below(65);
        let top = if bits == 64 { 0 } else { 1u64 << bits };
        match self.below(3) {
            0 => top.wrapping_add(self.below(5) as u64).wrapping_sub(2),
            1 => self.next() & top.wrapping_sub(1),
            _ => self.next() >> (64 - bits.clamp(1, 64)),
        }
    }
}
