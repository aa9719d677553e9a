//! A call answered by the model and by the original, both in the words of the stream.

mod model;
mod original;
mod texts;

pub use self::model::by_model;
pub use self::original::{by_original, guard, Outcome};
pub use self::texts::as_it_stands;

use crate::calls::Call;
use crate::functions::Function;
use crate::model::{Limits, Rules};

/// What stands for the kinds of a safe time in the stream.
pub const KINDS: [&str; 5] = ["touching", "contact", "clear", "budget", "refused"];
pub const REFUSED: u32 = 4;

pub fn limits_of(call: &Call) -> Limits {
    let of = |name| call.number(name);
    Limits { offset: of("offset"), clearance: of("clearance"), max_t: of("max_t"), u_max: of("u_max") }
}

/// How many probes a safe time is allowed, where the call says it.
pub fn allowance_of(call: &Call) -> Option<u32> {
    let says = call.function == Function::MaximumSafeTimeAllowing;
    says.then(|| call.word("allowance"))
}

/// Whether a safe time starts in the band: its first squared distance is above offset squared and not above park
/// squared.
pub fn in_band(call: &Call) -> bool {
    let Limits { offset, clearance, .. } = limits_of(call);
    let park = offset + clearance;
    let first = Rules::DOCUMENT.distance(&call.points("x0"), call.word("split")).squared;
    offset * offset < first && first <= park * park
}
