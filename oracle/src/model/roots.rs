//! Roots of polynomials (docs/01-scope.md, "Roots").

use super::{admission::Admission, clamp, plus_zero, Refusal, Rules};
use crate::cover::{met, Branch};

/// From c0 up.
pub type Coefficients = [f32; 4];

/// At most three roots and how many there are, unused places zero.
#[derive(Clone, Copy, Default)]
pub struct Roots {
    pub count: u32,
    pub places: [f32; 3],
}

/// What is made of the fraction of the range 0..t that a linear root is.
#[derive(Clone, Copy)]
pub enum Linear {
    /// Its product with t, held to 0..t: the rule.
    TimesRange,
    /// Nothing.
    Alone,
    /// It is held to 0..t, then comes the product.
    HeldFirst,
}

impl Roots {
    fn with(mut self, root: f32) -> Roots {
        if root == 0.0 && root.is_sign_negative() {
            met(Branch::MinusZeroRoot);
        }
        self.places[self.count as usize] = plus_zero(root);
        self.count += 1;
        self
    }
}

/// 2^-23, below which a coefficient counts as missing.
pub fn missing(c: f32) -> bool {
    c.abs() < 1.0 / 8_388_608.0
}

fn value(c: Coefficients, r: f32) -> f32 {
    ((c[3] * r + c[2]) * r + c[1]) * r + c[0]
}

fn slope(c: Coefficients, r: f32) -> f32 {
    c[1] + 2.0 * c[2] * r + 3.0 * c[3] * r * r
}

fn same_side(a: f32, b: f32) -> bool {
    (a < 0.0 && b < 0.0) || (a > 0.0 && b > 0.0)
}

impl Rules {
    /// Both roots, the lower first, or none that is real; c2 is not 0.
    fn quadratic(&self, c0: f32, c1: f32, c2: f32) -> Option<[f32; 2]> {
        let det = c1 * c1 - 4.0 * c2 * c0;
        if det < 0.0 {
            met(Branch::QuadraticNone);
            return None;
        }
        let root = self.root(det);
        let sum = -(c1 + if c1 < 0.0 { -root } else { root });
        let one = sum / (2.0 * c2);
        let other = if sum == 0.0 {
            met(Branch::QuadraticSumZero);
            one
        } else {
            2.0 * c0 / sum
        };
        if other < one {
            Some([other, one])
        } else {
            met(if one == other { Branch::QuadraticDouble } else { Branch::QuadraticSwapped });
            Some([one, other])
        }
    }

    /// The public `quadratic_root`.
    pub fn quadratic_root(&self, c0: f32, c1: f32, c2: f32) -> Result<Roots, Refusal> {
        Admission::new().sized(&[c0, c1, c2]).done()?;
        if c2 == 0.0 {
            return Err(9);
        }
        Ok(match self.quadratic(c0, c1, c2) {
            None => Roots::default(),
            Some([lower, upper]) => {
                if lower.is_infinite() || upper.is_infinite() {
                    met(Branch::QuadraticInfinite);
                }
                Roots::default().with(lower).with(upper)
            }
        })
    }

    /// The public `cubic_roots_in_range_zero_to_t`.
    pub fn cubic_roots(&self, c: Coefficients, t: f32, epsilon: f32) -> Result<Roots, Refusal> {
        Admission::new().sized(&c).range(t).length(epsilon).done()?;
        self.roots(c, t, epsilon)
    }

    /// The roots in 0..t, by degree.
    pub fn roots(&self, c: Coefficients, t: f32, epsilon: f32) -> Result<Roots, Refusal> {
        if !missing(c[3]) {
            self.cubic(c, t, epsilon)
        } else if !missing(c[2]) {
            Ok(self.square(c, t))
        } else if !missing(c[1]) {
            self.linear(c, t)
        } else if missing(c[0]) {
            met(Branch::ConstantRoot);
            Ok(Roots::default().with(0.0))
        } else {
            met(Branch::ConstantNone);
            Ok(Roots::default())
        }
    }

    /// The quadratic case: both roots kept that lie in 0..t.
    fn square(&self, c: Coefficients, t: f32) -> Roots {
        let [lower, upper] = match self.quadratic(c[0], c[1], c[2]) {
            Some(roots) => roots,
            None => {
                met(Branch::SquareNone);
                return Roots::default();
            }
        };
        let within = |r: f32| 0.0 <= r && r <= t;
        let repeated = self.drops_repeated && lower == upper;
        match (within(lower), within(upper) && !repeated) {
            (true, true) => {
                met(Branch::SquareBoth);
                Roots::default().with(lower).with(upper)
            }
            (true, false) => {
                met(Branch::SquareFirst);
                Roots::default().with(lower)
            }
            (false, true) => {
                met(Branch::SquareSecond);
                Roots::default().with(upper)
            }
            (false, false) => {
                met(Branch::SquareOutside);
                Roots::default()
            }
        }
    }

    /// The linear case: with the ends on opposite sides or zero, a fraction of the range, times t, held to 0..t.
    fn linear(&self, c: Coefficients, t: f32) -> Result<Roots, Refusal> {
        let (at_zero, at_t) = (c[0], value(c, t));
        if same_side(at_zero, at_t) {
            let between_t_and_one = !same_side(at_zero, value(c, 1.0));
            met(if between_t_and_one { Branch::LinearBeyond } else { Branch::LinearNone });
            return Ok(Roots::default());
        }
        if at_zero == at_t {
            met(Branch::LinearBothZero);
            return Err(6);
        }
        let fraction = at_zero / (at_zero - at_t);
        met(if t == 1.0 {
            Branch::LinearAtOne
        } else if fraction == 1.0 {
            Branch::LinearEnd
        } else if fraction > t {
            Branch::LinearAbove
        } else {
            Branch::LinearBelow
        });
        Ok(Roots::default().with(match self.linear {
            Linear::TimesRange => clamp(fraction * t, 0.0, t),
            Linear::Alone => fraction,
            Linear::HeldFirst => clamp(fraction, 0.0, t) * t,
        }))
    }

    /// The cubic case: spans cut at the derivative's roots, one root a span at most.
    fn cubic(&self, c: Coefficients, t: f32, epsilon: f32) -> Result<Roots, Refusal> {
        let mut found = Roots::default();
        let mut span = |name: Branch, from: f32, to: f32| -> Result<(), Refusal> {
            met(name);
            if let Some(root) = self.span(c, t, epsilon, from, to)? {
                found = found.with(root);
            }
            Ok(())
        };
        match self.quadratic(c[1], 2.0 * c[2], 3.0 * c[3]) {
            None => span(Branch::CubicMonotone, 0.0, t)?,
            Some([e0, e1]) => {
                let at_least_zero = |e: f32| if 0.0 < e { e } else { 0.0 };
                let at_most_t = |e: f32| if e < t { e } else { t };
                if 0.0 <= e0 {
                    span(Branch::CubicFirstSpan, 0.0, at_most_t(e0))?;
                }
                if e0 <= t && 0.0 <= e1 {
                    span(Branch::CubicMiddleSpan, at_least_zero(e0), at_most_t(e1))?;
                }
                if e1 <= t {
                    span(Branch::CubicLastSpan, at_least_zero(e1), t)?;
                }
            }
        }
        met(match found.count {
            0 => Branch::CubicNone,
            1 => Branch::CubicOne,
            2 => Branch::CubicTwo,
            _ => Branch::CubicThree,
        });
        if (1..found.count as usize).any(|i| found.places[i] < found.places[i - 1]) {
            met(Branch::CubicDescending);
        }
        Ok(found)
    }

    /// The root between two places of a cubic, where it has one: a secant start, then Newton steps held to 0..t.
    fn span(&self, c: Coefficients, t: f32, epsilon: f32, from: f32, to: f32) -> Result<Option<f32>, Refusal> {
        let (at_from, at_to) = (value(c, from), value(c, to));
        if same_side(at_from, at_to) {
            met(Branch::SpanSameSide);
            return Ok(None);
        }
        if from == to {
            // one place has one value, and it is on neither side: zero
            met(Branch::SpanPoint);
            return Ok(Some(from));
        }
        if at_from == at_to {
            met(Branch::SpanBothZero);
            return Err(6);
        }
        let guess = (at_from * to - at_to * from) / (at_from - at_to);
        if !(0.0 <= guess && guess <= t) {
            met(Branch::SpanGuessOutside);
            return Err(7);
        }
        self.newton(c, t, epsilon, guess).map(Some)
    }

    fn newton(&self, c: Coefficients, t: f32, epsilon: f32, guess: f32) -> Result<f32, Refusal> {
        let mut r = guess;
        for steps in 0..self.newton_steps {
            let (v, s) = (value(c, r), slope(c, r));
            if v.abs() < epsilon {
                met(if steps == 0 { Branch::NewtonAtOnce } else { Branch::NewtonStops });
                return Ok(r);
            }
            if s == 0.0 {
                met(if v == 0.0 { Branch::NewtonNoSlope } else { Branch::NewtonFlat });
                if v == 0.0 {
                    return Err(8);
                }
            }
            let next = r - v / s;
            r = if next < 0.0 {
                met(Branch::NewtonLow);
                0.0
            } else if t < next {
                met(Branch::NewtonHigh);
                t
            } else {
                next
            };
        }
        met(Branch::NewtonAll);
        Ok(r)
    }
}
