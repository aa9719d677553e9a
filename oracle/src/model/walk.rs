//! The safe time (docs/01-scope.md, "The walk", "The allowance").

use super::pair::moved;
use super::start::Start;
use super::{admission::Admission, plus_zero, Distance, Points, Refusal, Rules, FULL_ALLOWANCE};
use crate::cover::{met, Branch};

/// What travels together beside the pair.
#[derive(Clone, Copy)]
pub struct Limits {
    pub offset: f32,
    pub clearance: f32,
    pub max_t: f32,
    pub u_max: f32,
}

#[derive(Clone, Copy, PartialEq, Eq, Debug)]
pub enum Kind {
    Touching,
    Contact,
    Clear,
    Budget,
}

#[derive(Clone, Copy)]
pub struct SafeTime {
    pub kind: Kind,
    pub time: f32,
    pub probes: u32,
    pub halvings: u32,
}

/// A pair in motion and the distances that bound it.
pub struct Walk<'a> {
    pub rules: &'a Rules,
    pub x0: &'a Points,
    pub dx: &'a Points,
    pub split: u32,
    pub max_t: f32,
    pub park: f32,
    pub dip: f32,
    pub threshold: f32,
    allowance: u32,
}

impl Rules {
    /// The public `maximum_safe_time_accurate`, and where a number of probes is given `maximum_safe_time_allowing`.
    pub fn safe_time(
        &self,
        x0: &Points,
        dx: &Points,
        split: u32,
        limits: Limits,
        given: Option<u32>,
    ) -> Result<SafeTime, Refusal> {
        let Limits { offset, clearance, max_t, u_max } = limits;
        let allowance = given.unwrap_or(FULL_ALLOWANCE);
        let numbers = Admission::new().points(x0).points(dx).length(offset).length(clearance).time(max_t).speed(u_max);
        let allowed = Admission::new().allowance(allowance, self.least_allowance).done();
        if allowed.is_err() && numbers.done() == Err(1) {
            met(Branch::AllowanceAfterOne);
        }
        numbers.split(split).done().and(allowed)?;
        let first = self.distance(x0, split);
        let start = Start::new(self, first.squared, offset, clearance);
        if start.touches(self) {
            return Ok(SafeTime { kind: Kind::Touching, time: 0.0, probes: 0, halvings: 0 });
        }
        if let Some(given) = given {
            met(branch_of(given));
        }
        let (park, dip, threshold) = (start.step_park(self), start.dip, start.threshold(self));
        let end = Walk { rules: self, x0, dx, split, max_t, park, dip, threshold, allowance }.from(first, u_max);
        start.note_end(&end);
        Ok(end)
    }
}

/// The branch of a walk with a given number of probes.
fn branch_of(given: u32) -> Branch {
    match given {
        1 => Branch::AllowanceOne,
        2 => Branch::AllowanceTwo,
        3 => Branch::AllowanceThree,
        4095 => Branch::AllowanceOneLess,
        FULL_ALLOWANCE => Branch::AllowanceFull,
        _ => Branch::AllowanceOther,
    }
}

impl Walk<'_> {
    /// Steps while the distance is above the threshold.
    fn from(&self, first: Distance, u_max: f32) -> SafeTime {
        let (mut at, mut x, mut toi, mut probes) = (first, *self.x0, 0.0, 0);
        let mut moving = true;
        loop {
            let next = toi + self.step(&x, at, toi, 1.0 / u_max);
            if next > self.max_t {
                return self.clear(probes);
            }
            if probes == (self.rules.probes)(self.allowance) {
                met(if moving { Branch::BudgetMoved } else { Branch::BudgetStuck });
                if !moving && toi > 0.0 {
                    met(Branch::BudgetStuckLater);
                }
                let short = if self.allowance == 4095 { Branch::AllowanceOneShort } else { Branch::AllowanceBudget };
                self.last_allowed(probes, short);
                return SafeTime { kind: Kind::Budget, time: toi, probes, halvings: 0 };
            }
            probes += 1;
            moving = next != toi;
            if !moving {
                met(Branch::StepNoMove);
            }
            x = moved(self.x0, self.dx, next);
            at = self.rules.distance(&x, self.split);
            if at.squared > self.threshold {
                toi = next;
            } else {
                return self.contact(toi, next, probes);
            }
        }
    }

    /// Notes the branch of an end after the last probe allowed, where fewer than 4,096 are.
    pub fn last_allowed(&self, probes: u32, branch: Branch) {
        if probes == self.allowance && self.allowance < FULL_ALLOWANCE {
            met(branch);
        }
    }

    fn clear(&self, probes: u32) -> SafeTime {
        met(match probes {
            0 => Branch::ClearAtOnce,
            FULL_ALLOWANCE => Branch::ClearLast,
            _ => Branch::ClearLater,
        });
        self.last_allowed(probes, Branch::AllowanceClear);
        if self.max_t == 0.0 && self.max_t.is_sign_negative() {
            met(Branch::MinusZeroTime);
        }
        SafeTime { kind: Kind::Clear, time: plus_zero(self.max_t), probes, halvings: 0 }
    }
}
