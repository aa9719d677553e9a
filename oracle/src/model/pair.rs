//! Four points as a whole, the scaling and the coplanar times (docs/01-scope.md, "Scaling a pair", "Roots").

use super::distance::minus;
use super::{admission::Admission, larger, Coefficients, Point, Points, Refusal, Roots, Rules};
use crate::cover::{met, Branch};

/// Each of the twelve numbers by f of it and of its place.
fn each(f: impl Fn(usize, usize) -> f32) -> Points {
    let column = |i| [f(i, 0), f(i, 1), f(i, 2)];
    [column(0), column(1), column(2), column(3)]
}

pub fn moved(x: &Points, dx: &Points, t: f32) -> Points {
    each(|i, j| x[i][j] + t * dx[i][j])
}

fn scaled(x: &Points, s: f32) -> Points {
    each(|i, j| x[i][j] * s)
}

fn all_finite(x: &Points) -> bool {
    x.iter().flatten().all(|n| n.is_finite())
}

/// a0 (b1 c2 - b2 c1) + a1 (b2 c0 - b0 c2) + a2 (b0 c1 - b1 c0)
fn triple(a: Point, b: Point, c: Point) -> f32 {
    let part = |i: usize, j: usize, k: usize| a[i] * (b[j] * c[k] - b[k] * c[j]);
    part(0, 1, 2) + part(1, 2, 0) + part(2, 0, 1)
}

/// A scaled pair with the product of its factors.
pub struct Scaled {
    pub factor: f32,
    pub x: Points,
    pub dx: Points,
}

impl Rules {
    /// The public `add_scaled`.
    pub fn add_scaled(&self, x0: &Points, dx: &Points, t: f32) -> Result<Points, Refusal> {
        Admission::new().points(x0).points(dx).time(t).done()?;
        Ok(moved(x0, dx, t))
    }

    /// The public `centerize`: each point minus a quarter of their sum.
    pub fn centerize(&self, x: &Points) -> Result<Points, Refusal> {
        Admission::new().points(x).done()?;
        Ok(each(|i, j| x[i][j] - (x[0][j] + x[1][j] + x[2][j] + x[3][j]) * 0.25))
    }

    /// The public `scale_in_place`.
    pub fn scale_in_place(&self, x: &Points, s: f32) -> Result<Points, Refusal> {
        Admission::new().points(x).length(s).done()?;
        Ok(scaled(x, s))
    }

    /// The public `normalize_centerized_configuration`.
    pub fn normalize(&self, x: &Points, dx: &Points, max_t: f32) -> Result<Scaled, Refusal> {
        Admission::new().points(x).points(dx).time(max_t).done()?;
        let entries = |points: &Points| points.iter().flatten().fold(0.0, |a, n| larger(a, n.abs()));
        let (here, there) = (entries(x), entries(&moved(x, dx, max_t)));
        if here < there {
            met(Branch::ScaleByMoved);
        }
        let mut f = 0.99 / larger(here, there);
        if !(f.is_finite() && f > 0.0) {
            return Err(4);
        }
        let mut now = Scaled { factor: 1.0, x: *x, dx: *dx };
        let mut multiplications = 1;
        while f > 8.0 {
            now = now.times(8.0);
            f /= 8.0;
            multiplications += 1;
        }
        if f == 8.0 {
            met(Branch::ScaleExactlyEight);
        }
        met(match multiplications {
            1 => Branch::ScaleOnce,
            43 => Branch::ScaleMost,
            _ => Branch::ScaleSeveral,
        });
        now = now.times(f);
        if all_finite(&now.x) && all_finite(&now.dx) {
            Ok(now)
        } else {
            Err(5)
        }
    }

    /// The public `coplanar_time_mat3x4`: the roots in 0..1 of the volume that the four moving points span.
    pub fn coplanar(&self, x0: &Points, dx: &Points) -> Result<Roots, Refusal> {
        Admission::new().points(x0).points(dx).done()?;
        let side = |p: &Points, i: usize| minus(p[i], p[0]);
        let (x1, x2, x3) = (side(x0, 1), side(x0, 2), side(x0, 3));
        let (v1, v2, v3) = (side(dx, 1), side(dx, 2), side(dx, 3));
        let c: Coefficients = [
            triple(x3, x1, x2),
            triple(v3, x1, x2) + triple(x3, v1, x2) + triple(x3, x1, v2),
            triple(v3, v1, x2) + triple(v3, x1, v2) + triple(x3, v1, v2),
            triple(v3, v1, v2),
        ];
        if Admission::new().sized(&c).done().is_err() {
            met(Branch::CoplanarAbove);
            return Err(2);
        }
        self.roots(c, 1.0, 0.0)
    }
}

impl Scaled {
    fn times(self, s: f32) -> Scaled {
        Scaled { factor: self.factor * s, x: scaled(&self.x, s), dx: scaled(&self.dx, s) }
    }
}
