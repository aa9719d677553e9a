//! Where multiplying all coordinates by 2^k multiplies the source norm by 2^k: nothing that it computes is rounded
//! otherwise than before.

use crate::generate::power_of_two;
use crate::model::{cross, Point, Points, Rules, BOUND, SLOWEST};

/// A pair and the same multiplied by 2^k, and the source norms of both.
pub struct Multiplied {
    pub x: Points,
    pub y: Points,
    pub split: u32,
    pub k: i32,
    pub norms: [f32; 2],
}

/// A part of the condition.
#[derive(Clone, Copy, PartialEq, Eq)]
pub enum Part {
    /// Each coordinate, before and after, is normal or zero.
    Coordinates,
    /// No product with 2^k is rounded.
    Products,
    /// Each difference is normal, or the two are equal.
    Differences,
    /// Each square is normal, or the difference is zero.
    Squares,
    /// Each sum is normal, or both its terms are zero.
    Sums,
    /// Each number of the multiplied pair is at most 2^20 in size.
    Bound,
}

const PARTS: [Part; 6] = [Part::Coordinates, Part::Products, Part::Differences, Part::Squares, Part::Sums, Part::Bound];

/// The squares of the three differences.
pub fn squares((a, b): (Point, Point)) -> Point {
    [0, 1, 2].map(|i| (a[i] - b[i]) * (a[i] - b[i]))
}

/// A number times 2^k for k from -300 to 300, rounded once.
pub fn times(x: f32, k: i32) -> f32 {
    exactly(x, k) as f32
}

/// The product with 2^k itself, for the same k: an f64 has room for it.
pub fn exactly(x: f32, k: i32) -> f64 {
    f64::from(x) * power_of_two(k)
}

impl Multiplied {
    pub fn new(x: Points, split: u32, k: i32) -> Multiplied {
        let y = x.map(|column| column.map(|n| times(n, k)));
        let norms = [x, y].map(|points| Rules::DOCUMENT.source_norm(&points, split));
        Multiplied { x, y, split, k, norms }
    }

    /// Whether one of the source norms is below 2^-60, and the other not.
    pub fn across(&self) -> bool {
        let [before, after] = self.norms;
        (before < SLOWEST) != (after < SLOWEST)
    }

    /// Whether a number that is not zero has become zero.
    pub fn vanished(&self) -> bool {
        self.numbers().any(|(before, after)| before != 0.0 && after == 0.0)
    }

    /// Each number before and after.
    fn numbers(&self) -> impl Iterator<Item = (f32, f32)> + '_ {
        self.x.iter().flatten().copied().zip(self.y.iter().flatten().copied())
    }

    /// The parts of the condition that do not hold.
    pub fn failing(&self) -> Vec<Part> {
        PARTS.into_iter().filter(|&part| !self.holds(part)).collect()
    }

    fn holds(&self, part: Part) -> bool {
        let normal_or_zero = |n: f32| n.is_normal() || n == 0.0;
        let each_cross =
            |test: fn((Point, Point)) -> bool| cross(&self.x, self.split).chain(cross(&self.y, self.split)).all(test);
        match part {
            Part::Coordinates => self.numbers().all(|(a, b)| normal_or_zero(a) && normal_or_zero(b)),
            Part::Products => self.numbers().all(|(a, b)| f64::from(b) == exactly(a, self.k)),
            Part::Differences => each_cross(|(a, b)| (0..3).all(|i| (a[i] - b[i]).is_normal() || a[i] == b[i])),
            Part::Squares => each_cross(|(a, b)| (0..3).all(|i| squares((a, b))[i].is_normal() || a[i] - b[i] == 0.0)),
            Part::Sums => each_cross(|both| {
                let [p, q, r] = squares(both);
                let normal = |a: f32, b: f32| (a + b).is_normal() || a == 0.0 && b == 0.0;
                normal(p, q) && normal(p + q, r)
            }),
            Part::Bound => self.numbers().all(|(_, b)| b.abs() <= BOUND),
        }
    }
}
