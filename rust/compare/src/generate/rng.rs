//! `SplitMix64`: a few lines, and the same numbers on every machine.

/// A source of numbers that its seed fixes.
pub struct Rng(u64);

impl Rng {
    /// The source that begins at this seed.
    pub const fn new(seed: u64) -> Self {
        Self(seed)
    }

    /// The next number.
    pub const fn draw(&mut self) -> u64 {
        self.0 = self.0.wrapping_add(0x9E37_79B9_7F4A_7C15);
        let mixed = (self.0 ^ self.0 >> 30).wrapping_mul(0xBF58_476D_1CE4_E5B9);
        let mixed = (mixed ^ mixed >> 27).wrapping_mul(0x94D0_49BB_1331_11EB);
        mixed ^ mixed >> 31
    }

    /// A number below the bound, which isn't 0.
    pub fn below(&mut self, bound: usize) -> usize {
        // The remainder's bias is far below what these bounds could show.
        let bound = u64::try_from(bound).expect("a bound fits 64 bits");
        usize::try_from(self.draw() % bound).expect("it is below a usize")
    }

    /// A number between two bounds, both included.
    pub fn between(&mut self, low: usize, high: usize) -> usize {
        low + self.below(high - low + 1)
    }

    /// Yes, this many times in a hundred.
    pub fn percent(&mut self, chance: usize) -> bool {
        self.below(100) < chance
    }

    /// One of the items.
    pub fn pick<T: Copy>(&mut self, items: &[T]) -> T {
        items[self.below(items.len())]
    }

    /// A 16-bit number below the bound, which isn't 0.
    pub fn small(&mut self, bound: u16) -> u16 {
        u16::try_from(self.below(usize::from(bound))).expect("it is below a u16")
    }

    /// Any 32-bit word.
    pub fn word(&mut self) -> u32 {
        u32::try_from(self.draw() >> 32).expect("it has 32 bits")
    }

    /// As many of the items as asked for, at most all, in some order.
    pub fn choose<T: Copy>(&mut self, items: &[T], count: usize) -> Vec<T> {
        let mut left = items.to_vec();
        let count = count.min(left.len());
        (0..count)
            .map(|_| left.swap_remove(self.below(left.len())))
            .collect()
    }
}
