//! The numbers allowed (docs/01-scope.md, "What callers hand over"): refusal 1 where some number is NaN or infinite,
//! else refusal 2 where one is beyond its range or the split or the allowance is another number.

use super::{Points, Refusal, BOUND, FASTEST, FULL_ALLOWANCE, SLOWEST};

#[derive(Clone, Copy)]
pub struct Admission {
    not_finite: bool,
    beyond: bool,
}

impl Admission {
    pub fn new() -> Self {
        Admission { not_finite: false, beyond: false }
    }

    pub fn number(mut self, x: f32, low: f32, high: f32) -> Self {
        self.not_finite |= !x.is_finite();
        self.beyond |= !(low <= x && x <= high);
        self
    }

    /// Coordinates, displacements, coefficients.
    pub fn sized(self, numbers: &[f32]) -> Self {
        numbers.iter().fold(self, |so_far, &x| so_far.number(x, -BOUND, BOUND))
    }

    pub fn points(self, x: &Points) -> Self {
        x.iter().fold(self, |so_far, column| so_far.sized(column))
    }

    /// Offset, clearance, epsilon, a scale factor.
    pub fn length(self, x: f32) -> Self {
        self.number(x, 0.0, BOUND)
    }

    /// A time limit, a moved point's time, a ratio.
    pub fn time(self, x: f32) -> Self {
        self.number(x, 0.0, 1.0)
    }

    /// The range t of a polynomial.
    pub fn range(mut self, t: f32) -> Self {
        self.beyond |= t == 0.0;
        self.number(t, 0.0, 1.0)
    }

    /// u_max.
    pub fn speed(self, x: f32) -> Self {
        self.number(x, SLOWEST, FASTEST)
    }

    pub fn split(mut self, split: u32) -> Self {
        self.beyond |= split != 2 && split != 3;
        self
    }

    /// The number of probes allowed.
    pub fn allowance(mut self, allowance: u32, least: u32) -> Self {
        self.beyond |= allowance < least || FULL_ALLOWANCE < allowance;
        self
    }

    pub fn done(self) -> Result<(), Refusal> {
        match (self.not_finite, self.beyond) {
            (true, _) => Err(1),
            (false, true) => Err(2),
            (false, false) => Ok(()),
        }
    }
}
