//! A call of the norm with what its answer is held to.

use crate::calls::Call;
use crate::exact::{largest, Whole};
use crate::functions::Function;
use crate::model::{Refusal, Rules};
use crate::pipes::Asked;
use crate::sides::{by_original, Outcome};

pub struct Measured {
    pub call: Call,
    pub held_to: Result<Sizes, Refusal>,
}

/// The original's number, and the exact largest square of a distance.
pub struct Sizes {
    pub source: f32,
    pub square: Whole,
}

impl Measured {
    pub fn new(call: Call) -> Measured {
        let (x, split) = (call.points("x"), call.word("split"));
        let admitted = Rules::DOCUMENT.max_relative_norm(&x, split);
        let held_to = admitted.map(|_| Sizes { source: by_the_original(&call), square: largest(&x, split) });
        Measured { call, held_to }
    }
}

fn by_the_original(call: &Call) -> f32 {
    match by_original(call) {
        Outcome::Answered(words) => words.number(Function::MaxRelativeNorm.answer("norm").at),
        _ => panic!("the original stops: {}", call.hex()),
    }
}

impl Asked for Measured {
    fn call(&self) -> &Call {
        &self.call
    }
}
