//! Distances of given points in exact arithmetic: a length is a whole number of units of 2^-149, as every finite f32
//! is. Nothing here knows how a norm is computed.

mod check;
mod whole;

pub use self::check::holds;
pub use self::whole::Whole;

use std::cmp::Ordering;

use crate::model::{cross, Point, Points};

/// The size of a finite number in units.
pub fn units(x: f32) -> Whole {
    assert!(x.is_finite(), "{x} has no units");
    let (exponent, digits) = (x.to_bits() >> 23 & 0xff, x.to_bits() & 0x7f_ffff);
    match exponent {
        0 => Whole::new(u64::from(digits)),
        _ => Whole::new(u64::from(digits | 0x80_0000)).shifted(exponent - 1),
    }
}

/// The size of the difference of two numbers.
pub fn apart(a: f32, b: f32) -> Whole {
    if a.is_sign_negative() == b.is_sign_negative() {
        units(a).apart(&units(b))
    } else {
        units(a).plus(&units(b))
    }
}

/// The square of the distance of two points.
pub fn squared_distance((a, b): (Point, Point)) -> Whole {
    let [p, q, r] = [0, 1, 2].map(|i| {
        let d = apart(a[i], b[i]);
        d.times(&d)
    });
    p.plus(&q).plus(&r)
}

/// The largest square of a distance over the cross pairs.
pub fn largest(x: &Points, split: u32) -> Whole {
    cross(x, split).map(squared_distance).max().expect("there are cross pairs")
}

fn squared(length: f32) -> Whole {
    let n = units(length);
    n.times(&n)
}

/// How a length from zero up stands to the root of a square.
pub fn compared(length: f32, square: &Whole) -> Ordering {
    squared(length).cmp(square)
}

/// Whether it is not below it.
pub fn reaches(length: f32, square: &Whole) -> bool {
    compared(length, square) != Ordering::Less
}

/// Whether a length from zero up is not above the root of a square times 1 + 2^-20: whether its own square times 2^40
/// is not above the other times (2^20 + 1)^2.
pub fn keeps_within(length: f32, square: &Whole) -> bool {
    let factor = Whole::new((1 << 20) + 1);
    squared(length).shifted(40) <= square.times(&factor.times(&factor))
}

/// By how much a length exceeds the root of a square above zero, in parts of 2^-24 of it: what the exact difference of
/// the squares makes, l/r - 1 = (l^2 - r^2)/r^2 / (l/r + 1).
pub fn excess(length: f32, square: &Whole) -> f64 {
    let size = squared(length).apart(square).about() / square.about();
    let signed = if reaches(length, square) { size } else { -size };
    signed / (1.0 + (1.0 + signed).sqrt()) * 16_777_216.0
}
