//! A repeatable source of numbers, and the kinds of f32 that find faults. Only whole-number work, exact operations and
//! single roundings, so that every machine makes the same calls from one seed.

use crate::model::BOUND;

pub struct Source {
    state: u64,
}

/// 2^k for k from -1022 to 1023.
pub fn power_of_two(k: i32) -> f64 {
    f64::from_bits(((k + 1023) as u64) << 52)
}

impl Source {
    pub fn new(seed: u64) -> Source {
        Source { state: seed }
    }

    /// The next 64 bits (the mixing of splitmix64).
    pub fn bits(&mut self) -> u64 {
        self.state = self.state.wrapping_add(0x9e37_79b9_7f4a_7c15);
        let a = (self.state ^ (self.state >> 30)).wrapping_mul(0xbf58_476d_1ce4_e5b9);
        let b = (a ^ (a >> 27)).wrapping_mul(0x94d0_49bb_1331_11eb);
        b ^ (b >> 31)
    }

    /// A whole number below n.
    pub fn below(&mut self, n: u32) -> u32 {
        (((self.bits() >> 32) * u64::from(n)) >> 32) as u32
    }

    pub fn between(&mut self, low: i32, high: i32) -> i32 {
        low + self.below((high - low + 1) as u32) as i32
    }

    /// True once in n.
    pub fn once_in(&mut self, n: u32) -> bool {
        self.below(n) == 0
    }

    pub fn pick<T: Copy>(&mut self, from: &[T]) -> T {
        from[self.below(from.len() as u32) as usize]
    }

    /// From 0 to just below 1, by 24 bits.
    pub fn unit(&mut self) -> f32 {
        (self.bits() >> 40) as f32 / 16_777_216.0
    }

    /// From -1 to 1.
    pub fn signed(&mut self) -> f32 {
        self.unit() * 2.0 - 1.0
    }

    fn sign(&mut self) -> f32 {
        if self.bits() & 1 == 0 {
            1.0
        } else {
            -1.0
        }
    }

    /// A positive number with an exponent from low to high, subnormals by rounding.
    pub fn sized(&mut self, low: i32, high: i32) -> f32 {
        let digits = 1.0 + f64::from(self.unit());
        (digits * power_of_two(self.between(low, high))) as f32
    }

    /// Any number within 2^20, its exponent anywhere, or a zero of either sign.
    pub fn wild(&mut self) -> f32 {
        let sign = self.sign();
        match self.below(16) {
            0 => sign * 0.0,
            1 => sign * self.pick(&[1.0, 2.0, 0.5, BOUND, f32::MIN_POSITIVE, 1.0e-45]),
            _ => sign * self.sized(-149, 19),
        }
    }

    /// A small whole number or a half of one, of either sign.
    pub fn whole(&mut self, most: i32) -> f32 {
        let n = self.between(-most, most) as f32;
        if self.once_in(8) {
            n * 0.5
        } else {
            n
        }
    }

    /// x moved by at most n neighbours up or down.
    pub fn near(&mut self, x: f32, n: i32) -> f32 {
        neighbour(x, self.between(-n, n))
    }
}

/// The n-th f32 above x, or below it where n is negative; both zeros are one place. It stays finite.
pub fn neighbour(x: f32, n: i32) -> f32 {
    const LARGEST: i64 = 0x7f7f_ffff;
    let size = i64::from(x.to_bits() & 0x7fff_ffff);
    let place = if x.is_sign_negative() { -size } else { size };
    let moved = (place + i64::from(n)).clamp(-LARGEST, LARGEST);
    let bits = moved.unsigned_abs() as u32;
    f32::from_bits(if moved < 0 { bits | 0x8000_0000 } else { bits })
}
