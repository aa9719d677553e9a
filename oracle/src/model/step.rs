//! The step of a walk (docs/01-scope.md, "The walk", "The directional step").

use super::distance::{dot, minus};
use super::walk::Walk;
use super::{larger, Distance, Points};
use crate::cover::{met, Branch};

impl Walk<'_> {
    /// The plain step, or the directional one where that is tried and longer.
    pub fn step(&self, x: &Points, at: Distance, toi: f32, inverse: f32) -> f32 {
        let root = self.rules.root(at.squared);
        let plain = (root - self.dip) * inverse;
        if toi + plain > self.max_t {
            met(Branch::PlainOnly);
            return plain;
        }
        let directional = self.directional(x, at, root * (1.0 + 1.0 / 4_194_304.0));
        let kept = plain < 0.0 && self.rules.plain_below_zero;
        if plain < directional && !kept {
            met(Branch::DirectionTaken);
            if plain < 0.0 {
                met(Branch::PlainBelowZero);
            }
            directional
        } else {
            met(Branch::PlainTaken);
            plain
        }
    }

    fn directional(&self, x: &Points, at: Distance, w_norm: f32) -> f32 {
        let w = at.direction;
        let sizes = |v: [f32; 3]| v.map(f32::abs);
        let split = self.split as usize;
        let mut least = f32::MAX;
        for i in 0..split {
            for j in split..4 {
                let gap = minus(x[j], x[i]);
                let rel = minus(self.dx[i], self.dx[j]);
                let reach = dot(sizes(w), sizes(gap)) + self.max_t * dot(sizes(w), sizes(rel)) + self.park * w_norm;
                let err = self.rules.round_slack * reach + self.rules.coordinate_slack * w_norm;
                let projected = dot(w, gap) - err;
                if projected <= self.dip * w_norm {
                    met(Branch::DirectionStopped);
                    return 0.0;
                }
                let rate = dot(w, rel);
                if rate > 0.0 {
                    let free = larger(projected - self.park * w_norm, 0.0);
                    let quotient = free / rate;
                    if free == 0.0 {
                        met(Branch::DirectionHeld);
                    }
                    if quotient.is_infinite() {
                        met(Branch::DirectionInfinite);
                    }
                    if quotient < least {
                        least = quotient;
                    }
                } else {
                    met(Branch::DirectionReceding);
                }
            }
        }
        if least == f32::MAX {
            met(Branch::DirectionNone);
        }
        least
    }
}
