//! The halving that ends a walk with a contact (docs/01-scope.md, "The walk").

use super::pair::moved;
use super::walk::{Kind, SafeTime, Walk};
use super::{plus_zero, FULL_ALLOWANCE};
use crate::cover::{met, Branch};

impl Walk<'_> {
    /// Halves between the last time above the threshold and one that is not, until the computed window repeats.
    pub fn contact(&self, last_above: f32, first_below: f32, probes: u32) -> SafeTime {
        let (mut lower, mut upper) = (last_above, first_below);
        let mut halvings = 0;
        loop {
            let window = upper - lower;
            let middle = 0.5 * (upper + lower);
            halvings += 1;
            let squared = self.rules.distance(&moved(self.x0, self.dx, middle), self.split).squared;
            if squared > self.threshold {
                lower = middle;
            } else {
                if squared == self.threshold {
                    met(Branch::HalvingExact);
                }
                upper = middle;
            }
            if upper - lower == window || upper - lower < self.rules.least_window {
                break;
            }
        }
        met(match probes {
            1 => Branch::ContactFirst,
            FULL_ALLOWANCE => Branch::ContactLast,
            _ => Branch::ContactLater,
        });
        self.last_allowed(probes, Branch::AllowanceContact);
        if lower == 0.0 {
            met(Branch::ContactAtZero);
        }
        if halvings == 1 {
            met(Branch::HalvingsFew);
        }
        if halvings > 100 {
            met(Branch::HalvingsMany);
        }
        SafeTime { kind: Kind::Contact, time: plus_zero(lower), probes, halvings }
    }
}
