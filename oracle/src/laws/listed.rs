//! Pairs that every run of the laws begins with: what random ones hardly meet, and each number of a pair and its split
//! outside their ranges in every way.

use crate::calls::Call;
use crate::functions::Function;
use crate::generate::Source;
use crate::words::Words;

/// A pair's twelve numbers and its split, and the k of the powers 2^k by which it is multiplied.
type Listed = (&'static str, &'static [i32]);

const LISTED: [Listed; 15] = [
    // a = 2^-39 less its 2^24-th part on one side, b = 2^-39 on the other: b - a is 2^-63, its square 2^-126. At
    // k = -87 b becomes 2^-126, and so does a, rounded up: that is a normal number, and the difference is gone
    ("2bffffff 0 0 2bffffff 0 0 2c000000 0 0 2c000000 0 0 2", &[59, -87]),
    ("2bffffff 0 0 2bffffff 0 0 2bffffff 0 0 2c000000 0 0 3", &[59, -87]),
    // the least difference whose square is normal, and the greatest one: a norm above zero can be taken no further
    ("1f800000 0 0 1f800000 0 0 9f800000 0 0 9f800000 0 0 2", &[84, 85, -1]),
    ("49800000 0 0 49800000 0 0 49800000 0 0 c9800000 0 0 3", &[-84, -85, 1]),
    // the same of one number beside zeros
    ("20000000 0 0 0 0 0 0 0 0 0 0 0 3", &[83, 84, -1]),
    ("0 0 0 0 0 49800000 0 0 0 0 0 0 2", &[-83, -84, 1]),
    // 3 on one side: at k = -64 its square is normal; at k = -75 it is not, and is rounded; at k = -152 3 becomes zero
    ("40400000 0 0 0 0 0 0 0 0 0 0 0 2", &[-64, -75, -152]),
    ("0 0 0 0 0 0 0 0 0 0 c0400000 0 3", &[-64, -75, -152]),
    // 2^-60, the f32 below it, and 2^-61 and 3·2^-62 on one side: each brought across 2^-60, or kept on its side
    ("21800000 0 0 0 0 0 0 0 0 0 0 0 2", &[1, -1, -2]),
    ("0 0 0 0 217fffff 0 0 0 0 0 0 0 3", &[1, -1, -2]),
    ("0 0 0 0 0 0 21000000 0 0 0 0 0 2", &[1, 2, -1]),
    ("0 0 0 0 0 0 0 0 0 0 0 a1400000 3", &[1, 80, -1]),
    // a norm of zero: all numbers zero, of either sign; all columns alike, as far up and down as numbers go
    ("0 0 0 80000000 0 0 0 0 80000000 0 0 0 2", &[300, -300]),
    ("800000 0 0 800000 0 0 800000 0 0 800000 0 0 2", &[146, 147]),
    ("49800000 0 0 49800000 0 0 49800000 0 0 49800000 0 0 3", &[-146, -147]),
];

/// The listed pairs, each with its powers.
pub fn listed(source: &mut Source) -> Vec<(Call, Vec<i32>)> {
    let call = |words: &str| Call::new(Function::MaxRelativeNorm, Words::from_hex(words));
    let pairs = LISTED.iter().map(|&(words, powers)| (call(words), powers.to_vec()));
    let outside = source.outside(Function::MaxRelativeNorm).into_iter().map(|call| (call, Vec::new()));
    pairs.chain(outside).collect()
}
