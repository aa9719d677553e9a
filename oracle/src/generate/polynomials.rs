//! Polynomials: random ones over many exponents, repeated roots, coefficients at the degree limits, short ranges.

use super::numbers::{neighbour, Source};
use super::rare;
use crate::model::{Coefficients, BOUND};
use crate::words::Words;

/// 2^-23, below which a coefficient counts as missing.
const MISSING: f32 = 1.0 / 8_388_608.0;

pub struct Polynomial {
    pub c: Coefficients,
    pub t: f32,
    pub epsilon: f32,
}

impl Source {
    pub fn polynomial(&mut self) -> Polynomial {
        if self.once_in(40) {
            return self.rare_polynomial();
        }
        let t = self.range();
        let mut c = match self.below(13) {
            0 | 1 => [(); 4].map(|()| self.signed() * 2.0),
            2 => [(); 4].map(|()| self.wild()),
            3 | 4 => self.from_roots(t),
            5 => self.turning(t),
            6 => [(); 4].map(|()| self.whole(4)),
            7 => self.short(),
            8 => [(); 4].map(|()| self.signed() * BOUND),
            9 => self.faint(),
            10 => self.even(t),
            11 => self.straight(t),
            _ => self.low_degree(),
        };
        if self.once_in(8) {
            let place = self.below(4) as usize;
            c[place] = self.pick(&[0.0, -0.0, 1.0e-45, -1.0e-45, MISSING, -MISSING]);
        }
        for n in &mut c {
            *n = n.max(-BOUND).min(BOUND);
        }
        Polynomial { c, t, epsilon: self.epsilon() }
    }

    /// The range: mostly 1.
    fn range(&mut self) -> f32 {
        match self.below(12) {
            0 => self.unit().max(1.0e-45),
            1 => self.sized(-149, -1),
            2 => self.pick(&[0.5, 0.25, 0.75, 1.0e-45, f32::MIN_POSITIVE, neighbour(1.0, -1)]),
            3 => self.sized(-12, -1),
            _ => 1.0,
        }
    }

    fn epsilon(&mut self) -> f32 {
        match self.below(12) {
            0 => 1.0 / 1_048_576.0,
            1 => 1.0e-8,
            2 => self.sized(-40, 0),
            3 => self.pick(&[1.0e-45, -0.0, 1.0, BOUND]),
            _ => 0.0,
        }
    }

    /// Three roots in or about the range, often repeated or near each other.
    fn from_roots(&mut self, t: f32) -> Coefficients {
        let mut roots = [(); 3].map(|()| match self.below(8) {
            0 => 0.0,
            1 => t,
            2 => self.pick(&[0.5, 0.25, 0.75]) * t,
            _ => (self.unit() * 1.5 - 0.25) * t,
        });
        if self.once_in(2) {
            let steps = self.pick(&[1, 1, 16, 4096]);
            roots[1] = self.near(roots[0], steps);
        }
        if self.once_in(3) {
            roots[2] = roots[self.below(2) as usize];
        }
        let lead = f64::from(self.pick(&[1.0, -1.0, 2.0, 1.0e-6, 1.0e3]));
        let [a, b, c] = roots.map(f64::from);
        let exact = [-(a * b * c), a * b + a * c + b * c, -(a + b + c), 1.0];
        exact.map(|n| (n * lead) as f32)
    }

    /// Turning points at or near the ends of the range, a value near zero at one of them.
    fn turning(&mut self, t: f32) -> Coefficients {
        let mut place = || match self.below(6) {
            0 => 0.0,
            1 => t,
            2 => self.near(t, 2),
            3 => self.unit() * t,
            4 => -self.sized(-149, -100),
            _ => self.signed(),
        };
        let (e0, e1) = (f64::from(place()), f64::from(place()));
        let lead = f64::from(self.pick(&[1.0, -1.0, 0.5, 4.0, 1000.0]));
        // the derivative 3 lead (x - e0)(x - e1)
        let (c3, c2, c1) = (lead, -1.5 * lead * (e0 + e1), 3.0 * lead * e0 * e1);
        let at = if self.once_in(2) { e0 } else { e1 };
        let mut c0 = (-(((c3 * at + c2) * at + c1) * at)) as f32;
        if self.once_in(3) {
            c0 = self.near(c0, 3);
        }
        [c0, c1 as f32, c2 as f32, c3 as f32]
    }

    /// Each coefficient at the limit of missing, or a little off it.
    fn short(&mut self) -> Coefficients {
        [(); 4].map(|()| {
            let sign = self.pick(&[1.0, -1.0]);
            match self.below(6) {
                0 => sign * MISSING,
                1 => sign * neighbour(MISSING, -1),
                2 => sign * self.near(MISSING, 4),
                3 => sign * self.sized(-26, -20),
                4 => sign * self.sized(-149, -20),
                _ => self.signed(),
            }
        })
    }

    /// Only the highest coefficients are of ordinary size.
    fn faint(&mut self) -> Coefficients {
        let mut small = || self.sized(-149, -60) * self.pick(&[1.0, -1.0, 0.0, -0.0]);
        let (c0, c1, c2) = (small(), small(), small());
        let c2 = if self.once_in(2) { self.signed() } else { c2 };
        [c0, c1, c2, self.signed() * self.pick(&[1.0, MISSING * 4.0])]
    }

    /// A value of nearly zero at both ends.
    fn even(&mut self, t: f32) -> Coefficients {
        let (c3, c2) = (self.signed() * 4.0, self.signed() * 4.0);
        let c1 = -((c3 * t + c2) * t);
        let c0 = self.pick(&[0.0, -0.0, 1.0e-45, -1.0e-45, 1.0e-38, 1.0e-10, -1.0e-10]);
        [c0, self.near(c1, 2), c2, c3]
    }

    /// Linear, with a root in or about the range, often at its end.
    fn straight(&mut self, t: f32) -> Coefficients {
        let root = match self.below(8) {
            0 => t,
            1 => self.near(t, 2),
            2 => t * t,
            3 => self.unit(),
            _ => (self.unit() * 1.5 - 0.25) * t,
        };
        let c1 = match self.below(4) {
            0 => self.pick(&[1.0, -1.0, BOUND, -BOUND, MISSING, -MISSING]),
            1 => self.sized(-23, 19) * self.pick(&[1.0, -1.0]),
            _ => self.signed(),
        };
        let mut rest = || self.pick(&[0.0, 0.0, -0.0, neighbour(MISSING, -1), -1.0e-8]);
        [-(c1 * root), c1, rest(), rest()]
    }

    /// A quadratic, linear or constant polynomial.
    fn low_degree(&mut self) -> Coefficients {
        let mut c = if self.once_in(2) { [(); 4].map(|()| self.signed()) } else { [(); 4].map(|()| self.whole(3)) };
        for place in (1 + self.below(3) as usize)..4 {
            c[place] = self.pick(&[0.0, -0.0, neighbour(MISSING, -1), -1.0e-8, 1.0e-45]);
        }
        if self.once_in(4) {
            let double = self.unit();
            c = [double * double, -2.0 * double, 1.0, 0.0];
        }
        if self.once_in(8) {
            c[0] = self.pick(&[0.0, -0.0, MISSING, neighbour(MISSING, -1), -1.0e-45]);
        }
        c
    }

    /// A polynomial of the list of rare ones, as it stands or a little moved.
    fn rare_polynomial(&mut self) -> Polynomial {
        let words = Words::from_hex(self.pick(&rare::POLYNOMIALS));
        let mut c = [0, 1, 2, 3].map(|i| words.number(i));
        if self.once_in(2) {
            let place = self.below(4) as usize;
            c[place] = self.near(c[place], 2);
        }
        Polynomial { c, t: words.number(4), epsilon: words.number(5) }
    }
}
