//! Writes the answers that Rust's own f64 methods give, for `vectors` to replay.
//!
//! A record is six words of 64 bits, the lowest byte first: the kind, which names the call, the 4
//! words that follow, the bits of three arguments (0 where it takes fewer), and those of the answer.
//! A bool is 0 or 1, and every NaN answer is written as one pattern, since Rust leaves a NaN's bits
//! open.

use std::hint::black_box;
use std::io::{stdout, Result, Write};

const SEED: u64 = 0x666c_6f61_7436_3421;

const SIGN: u64 = 1 << 63;
const INFINITY: u64 = 0x7ff0_0000_0000_0000;
const NAN: u64 = 0x7ff8_0000_0000_0000;
const SMALLEST_NORMAL: u64 = 1 << 52;
const LARGEST: u64 = INFINITY - 1;
const ONE: u64 = 0x3ff0_0000_0000_0000;

/// The patterns with no sign that stand at an end of their kind, 1, and the NaN that is not one.
const ENDS: [u64; 10] = [
    0,
    1,
    SMALLEST_NORMAL - 1,
    SMALLEST_NORMAL,
    ONE,
    LARGEST,
    INFINITY,
    INFINITY + 1,
    NAN,
    SIGN - 1,
];

/// A turn in several units, and widths of domains down to the smallest.
const PERIODS: [f64; 12] = [
    1.0,
    2.0,
    3.0,
    0.1,
    360.0,
    400.0,
    std::f64::consts::PI,
    std::f64::consts::TAU,
    std::f64::consts::FRAC_PI_2,
    1e-6,
    1e300,
    f64::from_bits(1),
];

/// Sebastiano Vigna's splitmix64.
struct Random(u64);

impl Random {
    fn word(&mut self) -> u64 {
        self.0 = self.0.wrapping_add(0x9e37_79b9_7f4a_7c15);
        let z = (self.0 ^ (self.0 >> 30)).wrapping_mul(0xbf58_476d_1ce4_e5b9);
        let z = (z ^ (z >> 27)).wrapping_mul(0x94d0_49bb_1331_11eb);
        z ^ (z >> 31)
    }

    fn below(&mut self, n: u64) -> u64 {
        self.word() % n
    }

    /// A number of exactly `size` binary digits.
    fn sized(&mut self, size: u32) -> u64 {
        (self.word() >> (64 - size)) | (1 << (size - 1))
    }

    /// A double of either sign with 2^low <= |x| < 2^high.
    fn between(&mut self, low: i64, high: i64) -> u64 {
        let field = (low + 1023) as u64 + self.below((high - low) as u64);
        self.sign() | (field << 52) | (self.word() >> 12)
    }

    fn sign(&mut self) -> u64 {
        self.word() & SIGN
    }
}

struct Answers {
    bytes: Vec<u8>,
    random: Random,
}

impl Answers {
    fn put(&mut self, kind: u64, arguments: [u64; 3], answer: u64) {
        let [x, y, z] = arguments;
        for word in [kind, 4, x, y, z, answer] {
            self.bytes.extend(word.to_le_bytes());
        }
    }

    fn put_float(&mut self, kind: u64, arguments: [u64; 3], answer: f64) {
        let bits = if answer.is_nan() {
            NAN
        } else {
            answer.to_bits()
        };
        self.put(kind, arguments, bits);
    }

    fn is_finite(&mut self, x: u64) {
        self.put(15, [x, 0, 0], float(x).is_finite() as u64);
    }

    fn abs(&mut self, x: u64) {
        self.put_float(16, [x, 0, 0], float(x).abs());
    }

    /// Rust leaves open which of two zeros of unlike sign is the larger, so no record has them.
    fn max(&mut self, x: u64, y: u64) {
        if x ^ y == SIGN && x | y == SIGN {
            return;
        }
        self.put_float(17, [x, y, 0], float(x).max(float(y)));
    }

    /// Rust panics unless lo <= hi, so no record has other ends.
    fn clamp(&mut self, x: u64, lo: u64, hi: u64) {
        if float(lo) <= float(hi) {
            self.put_float(18, [x, lo, hi], float(x).clamp(float(lo), float(hi)));
        }
    }

    fn root(&mut self, x: u64) {
        self.put_float(19, [x, 0, 0], float(x).sqrt());
    }

    fn round(&mut self, x: u64) {
        self.put_float(20, [x, 0, 0], float(x).round());
    }

    fn rem_euclid(&mut self, x: u64, y: u64) {
        self.put_float(21, [x, y, 0], float(x).rem_euclid(float(y)));
    }

    fn signs(&mut self) {
        for x in specials() {
            self.is_finite(x);
            self.abs(x);
        }
        for _ in 0..600 {
            let x = self.random.word();
            self.is_finite(x);
            self.abs(x);
        }
        // The two largest exponents, where a number, an infinity and a NaN meet.
        for _ in 0..100 {
            let x = self.random.word() | 0x7fe0_0000_0000_0000;
            self.is_finite(x);
            self.abs(x);
        }
    }

    fn orders(&mut self) {
        for x in specials() {
            for y in specials() {
                self.max(x, y);
                for z in specials() {
                    self.clamp(x, y, z);
                }
            }
        }
        for _ in 0..200 {
            let [x, y, z] = [(); 3].map(|()| self.random.word());
            self.order(x, y, z);
            let [x, y, z] = [(); 3].map(|()| self.random.between(-4, 4));
            self.order(x, y, z);
        }
    }

    /// Three numbers, and neighbours of two of them.
    fn order(&mut self, x: u64, lo: u64, hi: u64) {
        self.max(x, lo);
        self.max(x, x ^ 1);
        self.clamp(x, lo, hi);
        for end in [lo, hi] {
            self.clamp(end, lo, hi);
            self.clamp(end ^ 1, lo, hi);
        }
    }

    fn roots(&mut self) {
        for x in specials() {
            self.root(x);
        }
        self.roots_of_squares();
        self.roots_near_a_half();
        // Every power of two: the subnormal ones, then the others.
        for x in (0..52).map(|k| 1 << k).chain((1..2047).map(|k| k << 52)) {
            self.root(x);
        }
        for size in 6..=52 {
            for _ in 0..6 {
                let subnormal = self.random.sized(size);
                self.root(subnormal);
            }
        }
        for k in 0..32 {
            self.root(k);
            self.root(SMALLEST_NORMAL - 16 + k);
            self.root(INFINITY - 16 + k);
        }
        for _ in 0..1000 {
            let x = self.random.word() >> 1;
            self.root(x);
        }
        for _ in 0..50 {
            let x = self.random.word() | SIGN;
            self.root(x);
        }
    }

    /// Squares of whole numbers times a power of 4, and one ulp to each side.
    fn roots_of_squares(&mut self) {
        for size in 1..=26 {
            for _ in 0..12 {
                let n = self.random.sized(size);
                let scale = power(2 * (self.random.below(900) as i64 - 450));
                let x = ((n * n) as f64 * scale).to_bits();
                self.root(x - 1);
                self.root(x);
                self.root(x + 1);
            }
        }
    }

    /// The doubles whose roots come nearest to the middle of two doubles: middle is 2 m + 1 for an m
    /// of 53 digits, and middle^2 - r is a number of 53 digits times 2^cut.
    fn roots_near_a_half(&mut self) {
        for r in (-1023..1024).step_by(8) {
            for cut in [54, 55] {
                let s = root_modulo(r, cut);
                for middle in [s, -s, s + (1 << (cut - 1)), -s - (1 << (cut - 1))] {
                    let middle = middle.rem_euclid(1 << cut);
                    let digits = (middle * middle - r) >> cut;
                    if (1 << 52..1 << 53).contains(&digits) {
                        let field = cut + 2 * self.random.below(900);
                        self.root((field << 52) + digits as u64);
                    }
                }
            }
        }
    }

    fn rounds(&mut self) {
        for x in specials() {
            self.round(x);
        }
        for n in 0..32 {
            self.round_about(n as f64);
            self.round_about(n as f64 + 0.5);
        }
        for size in 6..=52 {
            for _ in 0..3 {
                let n = self.random.sized(size);
                self.round_about(n as f64);
                self.round_about(n as f64 + 0.5);
            }
        }
        // About 2^52 the doubles come to lie a whole step apart.
        for exponent in [51, 52, 53, 54, 63, 64] {
            for k in 0..32 {
                self.round_both(power(exponent).to_bits() - 16 + k);
            }
        }
        for _ in 0..300 {
            let [x, tiny, any] = [(-2, 55), (-1022, -1), (-1022, 1023)]
                .map(|(low, high)| self.random.between(low, high));
            self.round(x);
            self.round(tiny);
            self.round(any);
        }
    }

    fn round_both(&mut self, x: u64) {
        self.round(x);
        self.round(x ^ SIGN);
    }

    /// x and its neighbours, with either sign.
    fn round_about(&mut self, x: f64) {
        let bits = x.to_bits();
        self.round_both(bits.saturating_sub(1));
        self.round_both(bits);
        self.round_both(bits + 1);
    }

    fn remainders(&mut self) {
        for x in specials() {
            for y in specials() {
                self.rem_euclid(x, y);
            }
        }
        for period in PERIODS {
            self.turns(period.to_bits());
        }
        for _ in 0..40 {
            let width = self.random.between(-30, 30);
            self.turns(width);
        }
        for _ in 0..150 {
            self.multiples();
            self.apart();
        }
    }

    /// By one divisor: from a tiny part of it to many turns, and near a few whole turns.
    fn turns(&mut self, y: u64) {
        for _ in 0..12 {
            let ratio = self.random.between(-8, 8);
            self.rem_euclid((float(y) * float(ratio)).to_bits(), y);
        }
        let tiny = self.random.between(-200, -60);
        self.rem_euclid((float(y) * float(tiny)).to_bits(), y);
        for turns in [-3.0, -2.0, -1.0, 1.0, 2.0, 3.0] {
            let x = (float(y) * turns).to_bits();
            self.rem_euclid(x - 1, y);
            self.rem_euclid(x, y);
            self.rem_euclid(x + 1, y);
        }
    }

    /// Exact multiples of a divisor of 30 digits, and their neighbours.
    fn multiples(&mut self) {
        let divisor = self.random.sized(30) as f64;
        let scale = power(self.random.below(1000) as i64 - 500);
        let y = (divisor * scale).to_bits() | self.random.sign();
        let size = 1 + self.random.below(23) as u32;
        let x = (float(y) * self.random.sized(size) as f64).to_bits();
        let sign = self.random.sign();
        for x in [x - 1, x, x + 1] {
            self.rem_euclid(x ^ sign, y);
        }
    }

    /// Numbers far apart: huge quotients, divisors that are subnormal, infinite or zero, and
    /// divisors above the dividend.
    fn apart(&mut self) {
        let large = self.random.between(60, 1023);
        let small = self.random.between(-1022, 0);
        let any = self.random.word();
        let size = 1 + self.random.below(52) as u32;
        let subnormal = self.random.sized(size) | self.random.sign();
        let sign = self.random.sign();
        self.rem_euclid(large, small);
        self.rem_euclid(small, large);
        self.rem_euclid(large, subnormal);
        self.rem_euclid(small, subnormal);
        self.rem_euclid(subnormal, subnormal >> 1);
        self.rem_euclid(any, large);
        self.rem_euclid(small, INFINITY | sign);
        self.rem_euclid(large, sign);
    }
}

/// The double of a pattern, hidden from the optimizer, so that each answer is computed at run time.
fn float(bits: u64) -> f64 {
    black_box(f64::from_bits(bits))
}

/// 2^exponent, a normal number.
fn power(exponent: i64) -> f64 {
    f64::from_bits(((exponent + 1023) as u64) << 52)
}

/// The ends with either sign.
fn specials() -> impl Iterator<Item = u64> {
    ENDS.iter().flat_map(|&x| [x, x | SIGN])
}

/// A number with the square r modulo 2^n, for r = 1 modulo 8: each turn puts one more digit right.
fn root_modulo(r: i128, n: u64) -> i128 {
    (3..n).fold(1, |s, k| s + ((s * s - r) >> k & 1) * (1 << (k - 1)))
}

fn main() -> Result<()> {
    let mut answers = Answers {
        bytes: Vec::new(),
        random: Random(SEED),
    };
    answers.signs();
    answers.orders();
    answers.roots();
    answers.rounds();
    answers.remainders();
    stdout().write_all(&answers.bytes)
}
