//! The norm (docs/01-scope.md, "Square root and norm"): the source norm, and what is answered for it.

use super::distance::{dot, minus};
use super::{admission::Admission, Points, Refusal, Rules};
use crate::cover::{met, Branch};

/// The squared difference of two columns.
pub fn squared_difference(x: &Points, i: usize, j: usize) -> f32 {
    let d = minus(x[i], x[j]);
    dot(d, d)
}

impl Rules {
    /// The source norm: the root of the largest squared difference over columns before and from the split.
    pub fn source_norm(&self, x: &Points, split: u32) -> f32 {
        let split = split as usize;
        let mut largest = 0.0;
        for i in 0..split {
            for j in split..4 {
                let squared = (self.of_columns)(x, i, j);
                if largest < squared {
                    if largest != 0.0 {
                        met(Branch::NormLater);
                    }
                    largest = squared;
                }
            }
        }
        if largest == 0.0 {
            met(Branch::NormZero);
        }
        self.root(largest)
    }

    /// The norm: the source norm where that is small, and otherwise its product with a factor above 1.
    pub fn norm(&self, x: &Points, split: u32) -> f32 {
        let source = self.source_norm(x, split);
        if source < self.raised_from {
            met(Branch::NormStands);
            return source;
        }
        met(Branch::NormRaised);
        if source == self.raised_from {
            met(Branch::NormAtLeast);
        }
        source * self.raised_by
    }

    /// The public `max_relative_norm`.
    pub fn max_relative_norm(&self, x: &Points, split: u32) -> Result<f32, Refusal> {
        Admission::new().points(x).split(split).done()?;
        Ok(self.norm(x, split))
    }
}
