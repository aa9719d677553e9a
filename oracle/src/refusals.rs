//! The refusals: the number in an answer, and which ones each function can give.

use crate::functions::Function;
use crate::words::Words;

/// Refusals are below this number.
pub const REFUSALS: usize = 10;

pub fn refusal_of(answer: &Words) -> u32 {
    answer.as_slice()[0]
}

/// The refusals that each function can give, besides an answer.
pub fn refusals(function: Function) -> &'static [u32] {
    match function {
        Function::NormalizeCenterizedConfiguration => &[1, 2, 4, 5],
        Function::QuadraticRoot => &[1, 2, 9],
        Function::CubicRootsInRangeZeroToT => &[1, 2, 6, 7, 8],
        Function::CoplanarTimeMat3x4 => &[1, 2, 6, 8],
        Function::SquareRoot
        | Function::Lerp
        | Function::AddScaled
        | Function::Centerize
        | Function::ScaleInPlace
        | Function::SquaredDistance
        | Function::MaxRelativeNorm
        | Function::MaximumSafeTimeAccurate
        | Function::MaximumSafeTimeAllowing => &[1, 2],
    }
}
