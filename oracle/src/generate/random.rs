//! Random numbers, fixed by a seed.

/// Steele, Lea and Flood's splitmix64.
pub struct Random(u64);

impl Random {
    pub fn new(seed: u64) -> Self {
        Self(seed)
    }

    /// Another stream; drawing from it leaves this one where it is.
    pub fn apart(&self) -> Self {
        Self(!self.0)
    }

    /// A stream for one buffer; drawing from it leaves this one where it is. Other places of
    /// this stream give others.
    pub fn aside(&self) -> Self {
        Self(!Self(self.0).word())
    }

    /// One more stream; drawing from it leaves this one where it is.
    pub fn beside(&self) -> Self {
        self.apart().aside()
    }

    pub fn word(&mut self) -> u64 {
        self.0 = self.0.wrapping_add(0x9e37_79b9_7f4a_7c15);
        let z = (self.0 ^ (self.0 >> 30)).wrapping_mul(0xbf58_476d_1ce4_e5b9);
        let z = (z ^ (z >> 27)).wrapping_mul(0x94d0_49bb_1331_11eb);
        z ^ (z >> 31)
    }

    pub fn below(&mut self, count: usize) -> usize {
        (self.word() % count as u64) as usize
    }

    /// A whole number from `low` to `high`, both included.
    pub fn between(&mut self, low: i32, high: i32) -> i32 {
        low + self.below((high - low + 1) as usize) as i32
    }

    pub fn percent(&mut self, chance: usize) -> bool {
        self.below(100) < chance
    }

    pub fn pick<T: Copy>(&mut self, from: &[T]) -> T {
        from[self.below(from.len())]
    }

    /// From 0 to 1, 1 not included.
    pub fn unit(&mut self) -> f64 {
        (self.word() >> 11) as f64 / (1_u64 << 53) as f64
    }

    /// From -1 to 1, 1 not included.
    pub fn signed(&mut self) -> f64 {
        2. * self.unit() - 1.
    }

    /// Eighths from -2 to 2: sums and products of few of them are exact, so ties arise.
    pub fn eighth(&mut self) -> f64 {
        f64::from(self.between(-16, 16)) / 8.
    }

    /// A power of two whose exponent lies from `low` to `high`.
    pub fn power(&mut self, low: i32, high: i32) -> f64 {
        power(self.between(low, high))
    }

    /// A number from the rim of the format, not finite in about a third of the cases.
    pub fn special(&mut self) -> f64 {
        match self.below(12) {
            0 => f64::NAN,
            1 => f64::from_bits(0x7ff0_0000_0000_0000 | self.word() >> 12 | 1),
            2 => f64::INFINITY,
            3 => f64::NEG_INFINITY,
            4 => f64::from_bits(self.word()),
            _ => self.rim(),
        }
    }

    /// A finite number from the rim of the format.
    pub fn rim(&mut self) -> f64 {
        let size = match self.below(8) {
            0 => 0.,
            1 => power(-1074),
            2 => f64::MIN_POSITIVE,
            3 => f64::MAX,
            4 => 1e308,
            5 => 1.7e308,
            _ => self.power(-1074, 1023),
        };
        if self.percent(50) { size } else { -size }
    }
}

/// 2 to the given power, from -1074 to 1023.
pub fn power(exponent: i32) -> f64 {
    if exponent < -1022 {
        f64::from_bits(1 << (exponent + 1074))
    } else {
        f64::from_bits(((exponent + 1023) as u64) << 52)
    }
}
