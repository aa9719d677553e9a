//! Single arguments: splits, points, an argument of the square root, times, lengths, allowances.

use super::numbers::{neighbour, Source};
use crate::model::{Points, BOUND, FULL_ALLOWANCE};

impl Source {
    pub fn split(&mut self) -> u32 {
        2 + self.below(2)
    }

    /// The points of a pair, or its displacements.
    pub fn placed(&mut self, split: u32) -> Points {
        let motion = self.motion(split);
        if self.once_in(4) {
            motion.dx
        } else {
            motion.x
        }
    }

    /// An argument of the square root: of any size, near a square, or near the midpoint of two squares.
    pub fn rooted(&mut self) -> f32 {
        match self.below(6) {
            0 => self.sized(-149, 127),
            1 => self.sized(-149, -126),
            2 => {
                let root = self.sized(-70, 62);
                self.near(root * root, 3)
            }
            3 => {
                let root = self.between(1, 5000) as f32;
                self.near(root * root, 1)
            }
            4 => f32::from_bits(self.below(0x7f80_0000)),
            _ => self.pick(&[0.0, -0.0, 1.0, 2.25, 2.0, f32::MAX, f32::MIN_POSITIVE, 1.0e-45]),
        }
    }

    /// A time, a ratio: mostly 1.
    pub fn time(&mut self) -> f32 {
        match self.below(12) {
            0 => self.pick(&[0.0, -0.0, 1.0e-45, f32::MIN_POSITIVE]),
            1 => neighbour(1.0, -1),
            2 => self.sized(-149, -1),
            3 | 4 => self.unit(),
            5 => self.pick(&[0.5, 0.25, 0.75]),
            _ => 1.0,
        }
    }

    /// A length or a factor from 0 to 2^20.
    pub fn length(&mut self) -> f32 {
        match self.below(8) {
            0 => self.pick(&[0.0, -0.0, 1.0e-45, BOUND]),
            1 => self.sized(-149, 19),
            2 => self.sized(-20, 10),
            _ => self.sized(-12, 0),
        }
    }

    /// A number of probes allowed: the ends of its range, mostly few.
    pub fn allowance(&mut self) -> u32 {
        match self.below(8) {
            0 => FULL_ALLOWANCE,
            1 => FULL_ALLOWANCE - 1,
            2 => 1 + self.below(FULL_ALLOWANCE),
            3 | 4 => 1 + self.below(64),
            _ => 1 + self.below(3),
        }
    }
}
