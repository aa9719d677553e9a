//! How the rules' answer stands to the original's where both answer.

use crate::bounds::broken;
use crate::calls::Call;
use crate::exact::largest;
use crate::functions::{Field, Function};
use crate::judge::{Entry, Relation};
use crate::model::{missing, SLOWEST};
use crate::words::Words;

/// The same bit for bit, but for the sign of a zero time or root, a linear root at t below 1 and a norm from 2^-60 up.
pub fn answered(call: &Call, expected: &Words, original: &Words) -> Relation {
    if call.function == Function::MaxRelativeNorm {
        return norms(call, expected, original);
    }
    let (ours, theirs) = (expected.as_slice(), original.as_slice());
    let times_or_roots = |field: &&Field| matches!(field.name, "time" | "roots" | "root");
    let signs_free = call.function.answer_fields().iter().find(times_or_roots).map_or(0..0, Field::places);
    let zeros = |i: usize| signs_free.contains(&i) && expected.number(i) == 0.0 && original.number(i) == 0.0;
    let differing: Vec<usize> = (0..ours.len()).filter(|&i| ours[i] != theirs[i]).collect();
    if call.function.is_safe_time() {
        let kind = call.function.answer("kind").at;
        // the original names no kind but a contact
        let others: Vec<usize> = differing.iter().copied().filter(|&i| i != kind).collect();
        let contact_told = (ours[kind] == 1) == (theirs[kind] == 1);
        return match others[..] {
            [] if contact_told => Relation::Same,
            [time] if contact_told && zeros(time) => Relation::Listed(Entry::PlusZero),
            _ => Relation::Unlisted,
        };
    }
    if differing.is_empty() {
        Relation::Same
    } else if differing.iter().all(|&i| zeros(i)) {
        Relation::Listed(Entry::PlusZero)
    } else if short_linear_root(call, expected, original) {
        Relation::Listed(Entry::LinearRange)
    } else {
        Relation::Unlisted
    }
}

/// A norm: the original's below 2^-60, else one that errs upward from the exact largest distance.
fn norms(call: &Call, expected: &Words, original: &Words) -> Relation {
    let norm = call.function.answer("norm").at;
    let (ours, theirs) = (expected.number(norm), original.number(norm));
    match broken(ours, theirs, &largest(&call.points("x"), call.word("split"))) {
        Some(_) => Relation::Unlisted,
        None if theirs < SLOWEST => Relation::Same,
        None => Relation::Listed(Entry::NormUpward),
    }
}

/// Whether the original answers one root, the fraction of a range shorter than 0..1, and the rules that fraction times t,
/// held to 0..t. At t = 1 a linear root is compared as any other.
fn short_linear_root(call: &Call, expected: &Words, original: &Words) -> bool {
    if call.function != Function::CubicRootsInRangeZeroToT {
        return false;
    }
    let linear = ["c1", "c2", "c3"].map(|name| missing(call.number(name))) == [false, true, true];
    let [count, root] = ["count", "roots"].map(|name| call.function.answer(name).at);
    let one = |words: &Words| words.as_slice()[count] == 1;
    let (t, fraction) = (call.number("t"), original.number(root));
    linear && t < 1.0 && one(expected) && one(original) && expected.number(root) == (fraction * t).clamp(0.0, t)
}
