//! What is allowed at each place of a call's arguments (docs/01-scope.md, "What callers hand over, and the numbers
//! allowed"), and in which ways one can be outside of it: for the generator, and to see that a run met each way at each
//! place.

use crate::calls::Call;
use crate::functions::Function;
use crate::generate::neighbour;
use crate::model::{BOUND, FASTEST, FULL_ALLOWANCE, SLOWEST};
use crate::words::NAN;

pub enum Allowed {
    /// A whole number from the first to the second.
    Whole(u32, u32),
    /// A number from the first to the second.
    Number(f32, f32),
}

/// What is allowed goes by the name of the field; t and x mean other things in two functions each.
pub fn allowed(function: Function, place: usize) -> Allowed {
    let (low, high) = match function.name_at(place) {
        "split" => return Allowed::Whole(2, 3),
        "allowance" => return Allowed::Whole(1, FULL_ALLOWANCE),
        "x" if function == Function::SquareRoot => (0.0, f32::MAX),
        "x" | "x0" | "dx" | "p0" | "p1" | "c0" | "c1" | "c2" | "c3" => (-BOUND, BOUND),
        "t" if function == Function::CubicRootsInRangeZeroToT => (1.0e-45, 1.0),
        "t" | "max_t" | "ratio" => (0.0, 1.0),
        "s" | "epsilon" | "offset" | "clearance" => (0.0, BOUND),
        "u_max" => (SLOWEST, FASTEST),
        name => panic!("{}: it is not said what is allowed as {name}", function.name()),
    };
    Allowed::Number(low, high)
}

/// The ways of being outside.
pub const WAYS: [&str; 4] = ["NaN", "infinite", "below", "above"];

/// The ways that a place has. A whole number is below or above.
pub fn ways(function: Function, place: usize) -> &'static [usize] {
    match allowed(function, place) {
        Allowed::Whole(..) => &[2, 3],
        Allowed::Number(_, high) if high == f32::MAX => &[0, 1, 2],
        Allowed::Number(..) => &[0, 1, 2, 3],
    }
}

/// The word that is outside in this way, and only just.
pub fn just_outside(function: Function, place: usize, way: usize) -> u32 {
    match (allowed(function, place), WAYS[way]) {
        (Allowed::Whole(low, _), "below") => low - 1,
        (Allowed::Whole(_, high), _) => high + 1,
        (Allowed::Number(..), "NaN") => NAN,
        (Allowed::Number(..), "infinite") => f32::INFINITY.to_bits(),
        (Allowed::Number(low, _), "below") => neighbour(low, -1).to_bits(),
        (Allowed::Number(_, high), _) => neighbour(high, 1).to_bits(),
    }
}

fn way(call: &Call, place: usize) -> Option<usize> {
    match allowed(call.function, place) {
        Allowed::Whole(low, high) => match call.arguments.as_slice()[place] {
            n if n < low => Some(2),
            n if n > high => Some(3),
            _ => None,
        },
        Allowed::Number(low, high) => match call.arguments.number(place) {
            x if x.is_nan() => Some(0),
            x if x.is_infinite() => Some(1),
            x if x < low => Some(2),
            x if x > high => Some(3),
            _ => None,
        },
    }
}

/// The only place that is outside, and the way, where there is exactly one.
pub fn only_outside(call: &Call) -> Option<(usize, usize)> {
    let mut found = (0..call.function.arguments()).filter_map(|place| Some((place, way(call, place)?)));
    match (found.next(), found.next()) {
        (Some(one), None) => Some(one),
        _ => None,
    }
}
