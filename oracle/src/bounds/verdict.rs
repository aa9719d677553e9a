//! What an answered norm is held to: the exact largest distance, and the original's number where that is small.

use crate::exact::{keeps_within, reaches, Whole};
use crate::model::SLOWEST;
use crate::named::named;

named! {
    /// A bound of the norm.
    Bound,
    /// What each one asks.
    BOUNDS {
        Lower: "not below the exact largest distance",
        Upper: "not above the exact largest distance times 1 + 2^-20",
        Source: "the original's bits where those are below 2^-60",
        Refusal: "the refusal where the pair is refused, and nowhere else",
    }
}

/// The bound that a norm breaks, where it breaks one: the original's number is `source`, and `square` the exact largest
/// square of a distance.
pub fn broken(norm: f32, source: f32, square: &Whole) -> Option<Bound> {
    if source < SLOWEST {
        return if norm.to_bits() == source.to_bits() { None } else { Some(Bound::Source) };
    }
    if !(norm >= 0.0 && reaches(norm.min(f32::MAX), square)) {
        Some(Bound::Lower)
    } else if !(norm.is_finite() && keeps_within(norm, square)) {
        Some(Bound::Upper)
    } else {
        None
    }
}
