//! Seeded inputs: numbers of every kind, lists of one mood, lengths around a boundary.

/// xorshift64*.
pub struct Rng(u64);

const SPECIAL: [u32; 20] = [
    0x0000_0000, // both zeros
    0x8000_0000,
    0x0000_0001, // the smallest and the largest subnormal, the smallest normal
    0x8000_0001,
    0x007f_ffff,
    0x807f_ffff,
    0x0080_0000,
    0x8080_0000,
    0x7f7f_ffff, // the largest, and the infinities
    0xff7f_ffff,
    0x7f80_0000,
    0xff80_0000,
    0x7fc0_0000, // NaNs: quiet and signalling
    0xffc0_0000,
    0x7f80_0001,
    0xff80_0001,
    0x3f80_0000, // 1, −1
    0xbf80_0000,
    0x3d23_d70a, // f32 0.04
    0x3f19_999a, // f32 0.6
];

/// What the numbers of a list are like.
#[derive(Clone, Copy, PartialEq)]
pub enum Mood {
    /// As samples of 16 bits.
    Audio,
    /// From −1 to 1.
    Small,
    /// From 0 to 1.
    Unit,
    /// Small whole numbers, whose sums cancel.
    Whole,
    /// As audio or small, with a few special numbers.
    Sprinkled,
    /// Near the largest.
    Huge,
    /// Subnormal, or nearly.
    Tiny,
    /// Zeros of both signs.
    Zeros,
    /// Any bits at all.
    Any,
}

impl Rng {
    pub fn new(seed: u64) -> Rng {
        // splitmix64, so that neighbouring seeds have nothing in common
        let mut z = seed.wrapping_add(0x9e37_79b9_7f4a_7c15);
        z = (z ^ (z >> 30)).wrapping_mul(0xbf58_476d_1ce4_e5b9);
        z = (z ^ (z >> 27)).wrapping_mul(0x94d0_49bb_1331_11eb);
        Rng((z ^ (z >> 31)) | 1)
    }

    pub fn bits(&mut self) -> u64 {
        self.0 ^= self.0 >> 12;
        self.0 ^= self.0 << 25;
        self.0 ^= self.0 >> 27;
        self.0.wrapping_mul(0x2545_f491_4f6c_dd1d)
    }

    /// A number below n.
    pub fn below(&mut self, n: usize) -> usize {
        (((self.bits() >> 32) * n as u64) >> 32) as usize
    }

    /// True once in n times.
    pub fn once_in(&mut self, n: usize) -> bool {
        self.below(n) == 0
    }

    pub fn pick<T: Copy>(&mut self, from: &[T]) -> T {
        from[self.below(from.len())]
    }

    /// From 0 up to 1.
    pub fn unit(&mut self) -> f32 {
        (self.bits() >> 40) as f32 / 16_777_216.0
    }

    pub fn special(&mut self) -> f32 {
        f32::from_bits(self.pick(&SPECIAL))
    }

    /// A number of this mood.
    pub fn of(&mut self, mood: Mood) -> f32 {
        let sign = (self.bits() >> 63 << 31) as u32;
        match mood {
            Mood::Audio => (self.unit() * 2.0 - 1.0) * 32768.0,
            Mood::Small => self.unit() * 2.0 - 1.0,
            Mood::Unit => self.unit(),
            Mood::Whole => self.below(9) as f32 - 4.0,
            Mood::Sprinkled => match self.below(64) {
                0 => self.special(),
                k if k % 2 == 0 => self.of(Mood::Audio),
                _ => self.of(Mood::Small),
            },
            Mood::Huge => f32::from_bits(sign | (0x7000_0000 + self.below(0x0f80_0000) as u32)),
            Mood::Tiny => f32::from_bits(sign | self.below(0x0100_0000) as u32),
            Mood::Zeros => f32::from_bits(sign),
            Mood::Any => f32::from_bits(self.bits() as u32),
        }
    }

    pub fn mood(&mut self) -> Mood {
        use Mood::*;
        self.pick(&[
            Audio, Audio, Audio, Small, Small, Unit, Whole, Sprinkled, Sprinkled, Sprinkled, Huge, Tiny, Zeros, Any,
        ])
    }

    /// One number, of any kind.
    pub fn float(&mut self) -> f32 {
        if self.once_in(8) {
            return self.special();
        }
        let mood = self.mood();
        self.of(mood)
    }

    /// A list of one mood; now and then one of its numbers is special.
    pub fn list(&mut self, len: usize) -> Vec<f32> {
        let mood = self.mood();
        let mut list = self.list_of(len, mood);
        if len > 0 && self.once_in(6) {
            list[self.below(len)] = self.special();
        }
        list
    }

    pub fn list_of(&mut self, len: usize, mood: Mood) -> Vec<f32> {
        (0..len).map(|_| self.of(mood)).collect()
    }

    pub fn bytes(&mut self, len: usize) -> Vec<u8> {
        (0..len).map(|_| self.bits() as u8).collect()
    }

    /// Mostly n, else a length beside it, or none, or another.
    pub fn near(&mut self, n: usize) -> usize {
        match self.below(40) {
            0 => n.saturating_sub(1),
            1 => n + 1,
            2 => 0,
            3 => self.below(2 * n + 2),
            _ => n,
        }
    }
}
