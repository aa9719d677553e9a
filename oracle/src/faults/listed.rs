//! The planted faults: a rule that is changed, or answers that are changed after it.

use super::norms;
use crate::bounds::Bound;
use crate::calls::Call;
use crate::functions::Function;
use crate::generate::neighbour;
use crate::laws::Law;
use crate::model::{Kind, Linear, Points, Rules, FULL_ALLOWANCE, SLOWEST};
use crate::refusals::refusal_of;
use crate::sides::{in_band, REFUSED};
use crate::words::Words;

/// A rule that is changed, or answers that are changed after it.
pub struct Fault {
    pub name: &'static str,
    pub rules: Rules,
    pub distort: fn(&Call, &mut Words),
    /// the laws of the norm that it breaks
    pub laws: &'static [Law],
    /// the bounds of the norm that it breaks
    pub bounds: &'static [Bound],
}

pub const NONE: Fault = Fault { name: "none", rules: Rules::DOCUMENT, distort: |_, _| {}, laws: &[], bounds: &[] };

pub const FAULTS: [Fault; 38] = [
    Fault { name: "interior-of-edges-left-out", rules: Rules { left_out: [Some(4), None], ..Rules::DOCUMENT }, ..NONE },
    Fault { name: "edge-of-face-left-out", rules: Rules { left_out: [None, Some(2)], ..Rules::DOCUMENT }, ..NONE },
    Fault { name: "last-of-equals", rules: Rules { last_of_equals: true, ..Rules::DOCUMENT }, ..NONE },
    Fault { name: "touching-at-park", rules: Rules { touching_at_park: true, ..Rules::DOCUMENT }, ..NONE },
    Fault {
        name: "threshold-of-the-first",
        rules: Rules { threshold: |first, park_squared| park_squared.min(first), ..Rules::DOCUMENT },
        ..NONE
    },
    Fault {
        name: "threshold-just-below-park",
        rules: Rules { threshold: |_, park_squared| neighbour(park_squared, -1), ..Rules::DOCUMENT },
        ..NONE
    },
    Fault { name: "step-by-threshold", rules: Rules { step_by_threshold: true, ..Rules::DOCUMENT }, ..NONE },
    Fault { name: "plain-step-below-zero", rules: Rules { plain_below_zero: true, ..Rules::DOCUMENT }, ..NONE },
    Fault { name: "band-refused", distort: band_refused, ..NONE },
    Fault { name: "stuck-after-one-probe", distort: stuck_after_one, ..NONE },
    Fault { name: "slack-halved", rules: Rules { round_slack: 1.0 / 8_388_608.0, ..Rules::DOCUMENT }, ..NONE },
    Fault { name: "slack-left-out", rules: Rules { coordinate_slack: 0.0, ..Rules::DOCUMENT }, ..NONE },
    Fault { name: "one-probe-more", rules: Rules { probes: |allowance| allowance + 1, ..Rules::DOCUMENT }, ..NONE },
    Fault { name: "allowance-ignored", rules: Rules { probes: |_| FULL_ALLOWANCE, ..Rules::DOCUMENT }, ..NONE },
    Fault { name: "allowance-of-zero", rules: Rules { least_allowance: 0, ..Rules::DOCUMENT }, ..NONE },
    Fault { name: "one-newton-step-fewer", rules: Rules { newton_steps: 19, ..Rules::DOCUMENT }, ..NONE },
    Fault {
        name: "halving-stopped-early",
        rules: Rules { least_window: 1.0 / 8_388_608.0, ..Rules::DOCUMENT },
        ..NONE
    },
    Fault { name: "linear-root-not-times-t", rules: Rules { linear: Linear::Alone, ..Rules::DOCUMENT }, ..NONE },
    Fault { name: "linear-root-held-first", rules: Rules { linear: Linear::HeldFirst, ..Rules::DOCUMENT }, ..NONE },
    Fault { name: "repeated-root-dropped", rules: Rules { drops_repeated: true, ..Rules::DOCUMENT }, ..NONE },
    Fault { name: "root-one-bit-off", rules: Rules { root_off: 1, ..Rules::DOCUMENT }, ..NONE },
    Fault { name: "refusal-7-as-6", distort: |_, answer| renumber(answer, 7, 6), ..NONE },
    Fault { name: "refusal-1-as-2", distort: |_, answer| renumber(answer, 1, 2), ..NONE },
    Fault { name: "last-halving-not-counted", distort: one_halving_fewer, ..NONE },
    Fault { name: "minus-zero-time", distort: minus_zero_time, ..NONE },
    Fault { name: "refused-pair-written", distort: refused_pair_written, ..NONE },
    Fault {
        name: "norm-refused-by-column-0",
        distort: by_column_0,
        laws: &[Law::Order, Law::Exchange],
        bounds: &[Bound::Refusal],
        ..NONE
    },
    of_columns("norm-of-column-0-alone", norms::column_0_alone, &[Law::Order, Law::Exchange], &LESS),
    of_columns("norm-to-column-3-alone", norms::column_3_alone, &[Law::Order, Law::Exchange], &LESS),
    of_columns("norm-of-columns-two-apart", norms::two_apart, &[Law::Order], &LESS),
    of_columns("norm-of-the-first-side-larger", norms::first_larger, &[Law::Exchange], &LESS),
    of_columns("norm-of-differences-above-zero", norms::above_zero, &[Law::Exchange, Law::Signs], &LESS),
    of_columns("norm-of-sums-above-zero", norms::sum_above_zero, &[Law::Signs], &LESS),
    of_columns("norm-with-a-slack", norms::with_slack, &[Law::Times], &[Bound::Upper, Bound::Source]),
    raised("norm-of-the-source", SLOWEST, 1.0, &[], &[Bound::Lower]),
    raised("norm-raised-too-little", SLOWEST, 1.0 + 1.0 / 8_388_608.0, &[], &[Bound::Lower]),
    raised("norm-raised-too-much", SLOWEST, 1.0 + 10.0 / 8_388_608.0, &[Law::Times], &[Bound::Upper]),
    raised("norm-raised-when-small", 0.0, Rules::DOCUMENT.raised_by, &[], &[Bound::Source]),
];

/// What is broken by a norm that is too small.
const LESS: [Bound; 2] = [Bound::Lower, Bound::Source];

/// A norm that makes something else of two columns.
const fn of_columns(
    name: &'static str,
    of_columns: fn(&Points, usize, usize) -> f32,
    laws: &'static [Law],
    bounds: &'static [Bound],
) -> Fault {
    Fault { name, rules: Rules { of_columns, ..Rules::DOCUMENT }, laws, bounds, ..NONE }
}

/// A norm that is raised from another number on, or by another factor.
const fn raised(
    name: &'static str,
    raised_from: f32,
    raised_by: f32,
    laws: &'static [Law],
    bounds: &'static [Bound],
) -> Fault {
    Fault { name, rules: Rules { raised_from, raised_by, ..Rules::DOCUMENT }, laws, bounds, ..NONE }
}

fn renumber(answer: &mut Words, from: u32, to: u32) {
    if refusal_of(answer) == from {
        answer.set(0, to);
    }
}

fn one_halving_fewer(call: &Call, answer: &mut Words) {
    if call.function.is_safe_time() {
        let place = call.function.answer("halvings").at;
        answer.set(place, answer.as_slice()[place].saturating_sub(1));
    }
}

/// Refuses a start in the band by 3.
fn band_refused(call: &Call, answer: &mut Words) {
    if call.function.is_safe_time() && refusal_of(answer) == 0 && in_band(call) {
        *answer = Words::new().word(3).word(REFUSED).word(0).word(0).word(0);
    }
}

/// Counts one probe where the time has not left 0.
fn stuck_after_one(call: &Call, answer: &mut Words) {
    let word = |name| answer.as_slice()[call.function.answer(name).at];
    if call.function.is_safe_time() && word("kind") == Kind::Budget as u32 && word("time") == 0 {
        answer.set(call.function.answer("probes").at, 1);
    }
}

fn minus_zero_time(call: &Call, answer: &mut Words) {
    let minus_zero = (-0.0f32).to_bits();
    let clear = || answer.as_slice()[call.function.answer("kind").at] == 2;
    if call.function.is_safe_time() && clear() && call.word("max_t") == minus_zero {
        answer.set(call.function.answer("time").at, minus_zero);
    }
}

fn refused_pair_written(call: &Call, answer: &mut Words) {
    if call.function == Function::NormalizeCenterizedConfiguration && refusal_of(answer) == 5 {
        answer.set(call.function.answer("dx").at, f32::INFINITY.to_bits());
    }
}

/// Tells a NaN or an infinity from a number beyond its range in column 0 alone.
fn by_column_0(call: &Call, answer: &mut Words) {
    if call.function == Function::MaxRelativeNorm && call.points("x")[0].iter().all(|n| n.is_finite()) {
        renumber(answer, 1, 2);
    }
}
