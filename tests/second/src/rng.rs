//! A seeded generator of numbers (splitmix64), the same on every machine.

/// The generator.
#[derive(Clone, Debug)]
pub struct Rng(u64);

impl Rng {
    /// A generator that always makes the same numbers from the same seed.
    pub fn new(seed: u64) -> Rng {
        Rng(seed)
    }

    /// Any qword, the next 64 bits.
    pub fn qword(&mut self) -> u64 {
        self.0 = self.0.wrapping_add(0x9E37_79B9_7F4A_7C15);
        let mut mixed = self.0;
        mixed = (mixed ^ mixed >> 30).wrapping_mul(0xBF58_476D_1CE4_E5B9);
        mixed = (mixed ^ mixed >> 27).wrapping_mul(0x94D0_49BB_1331_11EB);
        mixed ^ mixed >> 31
    }

    /// A number below `end`, which isn't 0.
    pub fn below(&mut self, end: u64) -> u64 {
        (self.qword() >> 16) % end
    }

    /// An index below `end`, which isn't 0.
    pub fn index(&mut self, end: usize) -> usize {
        self.below(end as u64) as usize
    }

    /// True once in so many times.
    pub fn one_in(&mut self, times: u64) -> bool {
        self.below(times) == 0
    }

    /// One of the choices.
    pub fn pick<T: Copy>(&mut self, choices: &[T]) -> T {
        choices[self.index(choices.len())]
    }

    /// Any byte.
    pub fn byte(&mut self) -> u8 {
        self.qword() as u8
    }

    /// Any dword.
    pub fn dword(&mut self) -> u32 {
        self.qword() as u32
    }

    /// A dword of a kind that tends to matter: all bits, none, one, all but
    /// one, ones from a place upward, or any.
    pub fn telling_dword(&mut self) -> u32 {
        let place = self.below(32);
        match self.below(8) {
            0 => 0,
            1 => u32::MAX,
            2 => 1 << place,
            3 => !(1 << place),
            4 => u32::MAX << place,
            _ => self.dword(),
        }
    }
}
