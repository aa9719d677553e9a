//! What an answer is held to: the original's where it answers, and the rule where that differs by design.
//! Each intended difference is an entry of docs/DIFFERENCES.md; a difference with no entry fails.

use crate::answered::answered;
use crate::calls::Call;
use crate::cover::{self, Branch, Branches};
use crate::model::Rules;
use crate::named::named;
use crate::refusals::refusal_of;
use crate::sides::{by_model, by_original, Outcome};
use crate::words::Words;

named! {
    /// An entry of docs/DIFFERENCES.md.
    Entry,
    /// The headings there.
    ENTRIES {
        NotFinite: "not-finite",
        Limits: "limits",
        Band: "band",
        BothZero: "both-zero",
        Guess: "guess",
        NoSlope: "no-slope",
        LinearRange: "linear-range",
        LeadingZero: "leading-zero",
        Endless: "endless",
        Infinity: "infinity",
        PlusZero: "plus-zero",
        NormUpward: "norm-upward",
    }
}

/// How the rules' answer stands to the original's.
#[derive(Clone, Copy, PartialEq, Eq, Debug)]
pub enum Relation {
    Same,
    Listed(Entry),
    Unlisted,
    /// The original's texts differ where they have to be one.
    Parted,
}

impl Relation {
    /// Whether the rules' answer is the original's, or an entry says why not.
    pub fn explained(self) -> bool {
        matches!(self, Relation::Same | Relation::Listed(_))
    }
}

/// A call with all that its answer is held to.
pub struct Judged {
    pub call: Call,
    pub expected: Words,
    pub relation: Relation,
    pub branches: Branches,
}

impl Judged {
    /// A word of the expected answer, by the name of its field.
    pub fn word(&self, name: &str) -> u32 {
        self.expected.as_slice()[self.call.function.answer(name).at]
    }
}

/// Asks the model, and the original where it can be asked.
pub fn judged(call: Call) -> Judged {
    cover::taken();
    let expected = by_model(&Rules::DOCUMENT, &call);
    assert_eq!(expected.count(), call.function.answers(), "the answer of {}", call.function.name());
    let branches = cover::taken();
    let endless = branches.has(Branch::ScaleExactlyEight);
    let relation = match refusal_of(&expected) {
        1 => Relation::Listed(Entry::NotFinite),
        2 => Relation::Listed(Entry::Limits),
        5 if endless => Relation::Listed(Entry::Infinity),
        _ if endless => Relation::Listed(Entry::Endless),
        0 if call.function.is_safe_time() => safe_time(&call, &expected, branches),
        refusal => relation(&call, refusal, &expected, &by_original(&call)),
    };
    Judged { call, expected, relation, branches }
}

fn relation(call: &Call, refusal: u32, expected: &Words, original: &Outcome) -> Relation {
    let has = |test: fn(f32) -> bool, from: &str| match original {
        Outcome::Answered(words) => {
            let from = call.function.answer(from).at;
            (from..words.as_slice().len()).any(|i| test(words.number(i)))
        }
        _ => false,
    };
    let stopped = matches!(original, Outcome::Stopped);
    match refusal {
        0 => match original {
            Outcome::Answered(words) => answered(call, expected, words),
            _ => Relation::Unlisted,
        },
        4 => match original {
            Outcome::Answered(words) if words.as_slice() == expected.as_slice() => Relation::Same,
            _ => Relation::Unlisted,
        },
        5 if has(f32::is_infinite, "x") => Relation::Listed(Entry::Infinity),
        6 if stopped => Relation::Listed(Entry::BothZero),
        7 if stopped => Relation::Listed(Entry::Guess),
        // after the NaN of one span, another span may still stop it
        8 if stopped || has(f32::is_nan, "roots") => Relation::Listed(Entry::NoSlope),
        9 if stopped => Relation::Listed(Entry::LeadingZero),
        _ => Relation::Unlisted,
    }
}

/// A safe time: in the band the hinted text's alone, elsewhere that of the text as it stands, too.
fn safe_time(call: &Call, expected: &Words, branches: Branches) -> Relation {
    match (by_original(call), branches.has(Branch::ThresholdBelowFirst)) {
        (Outcome::Answered(words), false) => answered(call, expected, &words),
        (Outcome::Hinted(words), true) => match answered(call, expected, &words) {
            Relation::Same => Relation::Listed(Entry::Band),
            other => other,
        },
        (Outcome::Parted, _) => Relation::Parted,
        _ => Relation::Unlisted,
    }
}
