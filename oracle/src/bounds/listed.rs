//! Pairs that every run of the bounds begins with: the corners of the norm, what random ones hardly meet, and each
//! number of a pair and its split outside their ranges in every way.

use crate::calls::Call;
use crate::corners;
use crate::functions::Function;
use crate::generate::Source;
use crate::words::Words;

/// A pair's twelve numbers and its split.
const LISTED: [&str; 6] = [
    // 2^-60 beside 2^-64, whose square is subnormal, and beside 2^-80, whose square is zero
    "21800000 1f800000 0 0 0 0 0 0 0 0 0 0 2",
    "0 0 0 0 0 0 0 0 0 17800000 21800000 0 3",
    // the same with 2^-60 less its 2^24-th part
    "217fffff 1f800000 1f800000 0 0 0 0 0 0 0 0 0 3",
    // (4096, 0, 0) and (4096, 1, 0): both squares are computed as 2^24
    "45800000 0 0 45800000 3f800000 0 0 0 0 0 0 0 2",
    "45800000 0 0 45800000 3f800000 0 0 0 0 0 0 0 3",
    // 1 less 2^-26: the difference is rounded up to 1
    "3f800000 0 0 3f800000 0 0 32800000 0 0 32800000 0 0 2",
];

/// The listed pairs.
pub fn listed(source: &mut Source) -> Vec<Call> {
    let of_norm = |call: &Call| call.function == Function::MaxRelativeNorm;
    let pair = |words: &&str| Call::new(Function::MaxRelativeNorm, Words::from_hex(words));
    let corners = corners::calls().filter(of_norm);
    corners.chain(LISTED.iter().map(pair)).chain(source.outside(Function::MaxRelativeNorm)).collect()
}
