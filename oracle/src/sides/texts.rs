//! The original's safe time by each of its texts: as it stands, with its constant set, and hinted.

use std::cell::Cell;

use original::ccd3::{self, SquareDistance};

use super::original::{guarded, Outcome};
use super::{allowance_of, in_band, limits_of};
use crate::calls::Call;
use crate::model::{Kind, Limits, Points, Rules, FULL_ALLOWANCE};
use crate::words::Words;

/// The hinted text's answer. Outside of the band the text as it stands has to give the same one: with its constant set
/// where the call says how many probes are allowed, and with its own constant where they are 4,096.
pub fn safe_time(call: &Call) -> Outcome {
    let given = allowance_of(call);
    let allowance = given.unwrap_or(FULL_ALLOWANCE);
    let hinted = guarded(|| hinted(call, allowance));
    if in_band(call) {
        return hinted.map_or(Outcome::Stopped, Outcome::Hinted);
    }
    let set = given.map(|n| guarded(|| allowing(call, n)));
    let stands = (allowance == FULL_ALLOWANCE).then(|| as_it_stands(call));
    let same = |other: Option<Words>| other.as_ref().map(Words::as_slice) == hinted.as_ref().map(Words::as_slice);
    if [set, stands].into_iter().flatten().all(same) {
        hinted.map_or(Outcome::Stopped, Outcome::Answered)
    } else {
        Outcome::Parted
    }
}

/// What the text as it stands answers, with its constant of 4,096 probes, where it does not stop.
pub fn as_it_stands(call: &Call) -> Option<Words> {
    let time = |rule: &Rule, x0: &Points, dx: &Points, Limits { offset, clearance, max_t, u_max }| match rule.split {
        2 => ccd3::maximum_safe_time_accurate::<_, 2>(x0, dx, u_max, rule, offset, clearance, max_t),
        _ => ccd3::maximum_safe_time_accurate::<_, 3>(x0, dx, u_max, rule, offset, clearance, max_t),
    };
    guarded(|| counted(call, time))
}

/// The text with its constant set.
fn allowing(call: &Call, allowance: u32) -> Words {
    let n = allowance as usize;
    counted(call, |rule, x0, dx, Limits { offset, clearance, max_t, u_max }| match rule.split {
        2 => ccd3::allowing::maximum_safe_time_accurate::<_, 2>(x0, dx, u_max, rule, offset, clearance, max_t, n),
        _ => ccd3::allowing::maximum_safe_time_accurate::<_, 3>(x0, dx, u_max, rule, offset, clearance, max_t, n),
    })
}

/// The hinted text, its constant set.
fn hinted(call: &Call, allowance: u32) -> Words {
    let n = allowance as usize;
    counted(call, |rule, x0, dx, Limits { offset, clearance, max_t, u_max }| match rule.split {
        2 => ccd3::hinted::maximum_safe_time_accurate::<_, 2>(x0, dx, u_max, rule, offset, clearance, max_t, n),
        _ => ccd3::hinted::maximum_safe_time_accurate::<_, 3>(x0, dx, u_max, rule, offset, clearance, max_t, n),
    })
}

/// The time with the counts. Of the kinds the original tells only a contact, by its halvings.
fn counted(call: &Call, time: impl Fn(&Rule, &Points, &Points, Limits) -> f32) -> Words {
    let rule = Rule { split: call.word("split"), with_direction: Cell::new(0), without: Cell::new(0) };
    let time = time(&rule, &call.points("x0"), &call.points("dx"), limits_of(call));
    let (probes, halvings) = (rule.with_direction.get() - 1, rule.without.get().saturating_sub(2));
    let kind = if halvings > 0 { Kind::Contact } else { Kind::Clear };
    Words::new().word(0).word(kind as u32).numbers(&[time]).word(probes).word(halvings)
}

/// The distance rules as the original's trait asks for them. It counts how often the original asks: with a direction
/// once at the start and once a probe, without one once a halving and twice at the end.
struct Rule {
    split: u32,
    with_direction: Cell<u32>,
    without: Cell<u32>,
}

impl SquareDistance<f32> for Rule {
    fn eval_with_dir(&self, x: &Points) -> (f32, [f32; 3]) {
        self.with_direction.set(self.with_direction.get() + 1);
        let found = Rules::DOCUMENT.distance(x, self.split);
        (found.squared, found.direction)
    }

    fn eval(&self, x: &Points) -> f32 {
        self.without.set(self.without.get() + 1);
        Rules::DOCUMENT.distance(x, self.split).squared
    }
}
