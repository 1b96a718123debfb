//! A seeded generator (xorshift64*), so that a run can be repeated from its seed.

pub struct Generator {
    state: u64,
}

impl Generator {
    pub fn new(seed: u64) -> Self {
        // Zero would stay zero.
        let mut generator = Generator { state: seed ^ 0x9E37_79B9_7F4A_7C15 };
        if generator.state == 0 {
            generator.state = 1;
        }
        // Near seeds part company.
        for _ in 0..8 {
            generator.draw();
        }
        generator
    }

    pub fn draw(&mut self) -> u64 {
        self.state ^= self.state >> 12;
        self.state ^= self.state << 25;
        self.state ^= self.state >> 27;
        self.state.wrapping_mul(0x2545_F491_4F6C_DD1D)
    }

    /// 0 to `bound` - 1.
    pub fn below(&mut self, bound: usize) -> usize {
        ((self.draw() >> 33) % bound as u64) as usize
    }

    pub fn between(&mut self, low: usize, high: usize) -> usize {
        low + self.below(high - low + 1)
    }

    pub fn byte(&mut self) -> u8 {
        (self.draw() >> 40) as u8
    }

    /// True in `percent` of 100 calls.
    pub fn chance(&mut self, percent: usize) -> bool {
        self.below(100) < percent
    }

    pub fn pick<'a, T>(&mut self, choices: &'a [T]) -> &'a T {
        &choices[self.below(choices.len())]
    }

    pub fn shuffle<T>(&mut self, items: &mut [T]) {
        for last in (1..items.len()).rev() {
            items.swap(last, self.below(last + 1));
        }
    }

    /// `length` capital hexadecimal digits.
    pub fn hex(&mut self, length: usize) -> Vec<u8> {
        (0..length).map(|_| b"0123456789ABCDEF"[self.below(16)]).collect()
    }

    /// `length` bytes that a value of a card may have.
    pub fn value(&mut self, length: usize) -> Vec<u8> {
        let bytes: Vec<u8> = (0x20..=0x7D).filter(|byte| !b";|".contains(byte)).collect();
        (0..length).map(|_| *self.pick(&bytes)).collect()
    }

    /// A timestamp in the years 2001 to 2040.
    pub fn timestamp(&mut self) -> [u8; 16] {
        let text = format!(
            "{:04}{:02}{:02}T{:02}{:02}{:02}Z",
            self.between(2001, 2040),
            self.between(1, 12),
            self.between(1, 28),
            self.below(24),
            self.below(60),
            self.below(60)
        );
        text.into_bytes().try_into().expect("sixteen bytes")
    }
}
