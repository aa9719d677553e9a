//! Pairs that are hard for the bounds of the norm: what it rounds adds up, its number lies about 2^-60 or another power
//! of two, squares underflow, or several cross pairs are nearly equal.

use super::numbers::{neighbour, power_of_two, Source};
use crate::calls::Call;
use crate::functions::Function;
use crate::model::{Point, Points, BOUND};
use crate::norm_corners::CORNERS;
use crate::words::Words;

impl Source {
    /// A call of the norm: of a hard pair, or one that the laws are tried on.
    pub fn hard_norm(&mut self) -> Call {
        let split = self.split();
        let x = match self.below(16) {
            0..=3 => return self.norm().0,
            4 | 5 => self.about_least(split),
            6 | 7 => self.about_a_power(split),
            8 | 9 => self.rounding(split),
            10 | 11 => self.just_above(split),
            12 => self.underflowing(split),
            13 => self.nearly_equal(split),
            14 => self.points(Source::largest),
            _ => return self.about_a_corner(),
        };
        Call::new(Function::MaxRelativeNorm, Words::new().points(&x).word(split))
    }

    /// A pair whose source norm is 2^-60, or nearly.
    pub fn about_least(&mut self, split: u32) -> Points {
        let d = self.of_length(power_of_two(-60));
        self.apart_by(d, split)
    }

    /// A pair of which the source norm or its square is a power of two, or nearly.
    fn about_a_power(&mut self, split: u32) -> Points {
        let power = power_of_two(self.between(-59, 18));
        let root = self.pick(&[1.0, 2.0f64.sqrt()]);
        let d = self.of_length(power * root);
        self.apart_by(d, split)
    }

    /// A difference of this length, or nearly: along an axis, in a plane, with like coordinates, with squares that are
    /// powers of two, or any.
    fn of_length(&mut self, length: f64) -> Point {
        let any = [(); 3].map(|_| f64::from(self.signed()));
        let flat = [any[0], any[1], 0.0];
        let axis = [1.0, 0.0, 0.0];
        let squares = [1.0, 1.0, 2.0f64.sqrt()];
        let d = self.pick(&[axis, axis, [3.0, 4.0, 0.0], [1.0, 1.0, 1.0], squares, flat, any, any]);
        let own = (d[0] * d[0] + d[1] * d[1] + d[2] * d[2]).sqrt().max(0.001);
        let mut d = d.map(|n| (n / own * length) as f32);
        d.rotate_left(self.below(3) as usize);
        d.map(|n| if n == 0.0 { n } else { self.near(n, 3) * self.pick(&[1.0, -1.0]) })
    }

    /// A pair with this difference across the split, and no larger one: of one column, of two halves, of a whole side.
    fn apart_by(&mut self, d: Point, split: u32) -> Points {
        let mut x = [[0.0; 3]; 4];
        let split = split as usize;
        let (i, j) = (self.below(split as u32) as usize, split + self.below(4 - split as u32) as usize);
        match self.below(4) {
            0 => x[i] = d,
            1 => x[j] = d,
            2 => {
                x[i] = d.map(|n| n * 0.5);
                x[j] = d.map(|n| n * -0.5);
            }
            _ => x[..split].iter_mut().for_each(|column| *column = d),
        }
        x
    }

    /// Numbers of one size on one side, with smaller ones of any exponent on the other: the differences are rounded.
    fn rounding(&mut self, split: u32) -> Points {
        let exponent = self.between(-61, 19);
        let mut x = self.points(|s| s.sized(exponent - 26, exponent) * s.pick(&[1.0, -1.0]));
        let sides = x.split_at_mut(split as usize);
        let side = if self.once_in(2) { sides.0 } else { sides.1 };
        side.iter_mut().flatten().for_each(|n| *n = self.sized(exponent, exponent));
        x
    }

    /// Differences just above a power of two, each rounded by half of its last digit or nearly, and the same of their
    /// squares and sums: three of like size, or one beside small ones.
    fn just_above(&mut self, split: u32) -> Points {
        let unit = power_of_two(self.between(-61, 18));
        let root = 2.0f64.sqrt();
        let small = power_of_two(-12);
        let sizes = self.pick(&[[1.0, 1.0, 1.0], [1.0, 1.0, root], [1.0, 1.0, 2.0], [1.0, small, small]]);
        let digits = self.pick(&[4, 64, 4096, 1 << 20]);
        let far = sizes.map(|n| neighbour((unit * n) as f32, self.between(0, digits)));
        let half = |s: &mut Source| power_of_two(-24) * (1.0 + f64::from(s.signed()) / 16.0);
        let near = sizes.map(|n| (unit * n * half(self)) as f32 * self.pick(&[1.0, -1.0]));
        let mut x = [far; 4];
        x[split as usize..].iter_mut().for_each(|column| *column = near);
        x
    }

    /// One coordinate about 2^-60 or above it, beside others whose squares are subnormal or zero.
    fn underflowing(&mut self, split: u32) -> Points {
        let mut d = [self.sized(-60, -52), self.sized(-76, -62), self.sized(-149, -62)];
        d.rotate_left(self.below(3) as usize);
        let x = self.apart_by(d, split);
        if self.once_in(2) {
            return x;
        }
        x.map(|column| column.map(|n| if n == 0.0 { self.sized(-149, -66) } else { n }))
    }

    /// One difference for every cross pair, in another order of its coordinates, with other signs and last digits, and
    /// moved away from the origin: the cross pairs are nearly equal.
    fn nearly_equal(&mut self, split: u32) -> Points {
        let length = power_of_two(self.between(-60, 18));
        let d = self.of_length(length);
        let away = length * self.pick(&[0.25, 0.5, 1.0]);
        let mut x = [self.of_length(away); 4];
        let sides = x.split_at_mut(split as usize);
        let side = if self.once_in(2) { sides.0 } else { sides.1 };
        for column in side {
            let mut d = d.map(|n| self.near(n, 1) * self.pick(&[1.0, -1.0]));
            d.rotate_left(self.below(3) as usize);
            (0..3).for_each(|i| column[i] += d[i]);
        }
        x
    }

    /// A number of 2^20 in size, or nearly.
    fn largest(&mut self) -> f32 {
        let size = match self.below(4) {
            0 => BOUND,
            1 => neighbour(BOUND, -self.between(1, 3)),
            _ => self.sized(15, 19),
        };
        size * self.pick(&[1.0, -1.0])
    }

    /// A corner of the norm, or the same times a power of two, with some last digits changed.
    fn about_a_corner(&mut self) -> Call {
        let corner = &CORNERS[self.below(CORNERS.len() as u32) as usize];
        let mut call = Call::from_text(corner.call);
        let power = power_of_two(if self.once_in(2) { 0 } else { self.between(-64, 16) });
        for place in 0..12 {
            let digits = if self.once_in(4) { 2 } else { 0 };
            let number = (f64::from(call.arguments.number(place)) * power) as f32;
            call.arguments.set(place, self.near(number, digits).to_bits());
        }
        call
    }
}
