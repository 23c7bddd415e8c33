//! A small generator of numbers (xorshift, the result multiplied).

#[derive(Clone, Debug)]
pub struct Rng(u64);

impl Rng {
    /// The seed is not 0.
    pub fn new(seed: u64) -> Self {
        assert_ne!(seed, 0);
        Rng(seed)
    }

    /// Prints the seed, so that a failed test can be found again.
    pub fn announced(name: &str, seed: u64) -> Self {
        println!("{name}: seed {seed:#x}");
        Rng::new(seed)
    }

    pub fn next(&mut self) -> u64 {
        self.0 ^= self.0 >> 12;
        self.0 ^= self.0 << 25;
        self.0 ^= self.0 >> 27;
        self.0.wrapping_mul(0x2545_F491_4F6C_DD1D)
    }

    /// A number below this one, which is not 0.
    pub fn below(&mut self, end: usize) -> usize {
        (self.next() >> 16) as usize % end
    }

    /// A number from first to last, both with it.
    pub fn within(&mut self, first: usize, last: usize) -> usize {
        first + self.below(last - first + 1)
    }

    /// True once in so many times.
    pub fn once_in(&mut self, times: usize) -> bool {
        self.below(times) == 0
    }

    pub fn pick<T: Copy>(&mut self, from: &[T]) -> T {
        from[self.below(from.len())]
    }

    pub fn byte(&mut self) -> u8 {
        self.next() as u8
    }

    pub fn capital(&mut self) -> u8 {
        b'A' + self.below(26) as u8
    }

    pub fn digit(&mut self) -> u8 {
        b'0' + self.below(10) as u8
    }
}
