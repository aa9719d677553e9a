//! One side's answers, held to the bounds.

use super::extremes::Extremes;
use super::measured::Measured;
use super::verdict::{broken, Bound, BOUNDS};
use crate::differences::Differences;
use crate::functions::Function;
use crate::model::SLOWEST;
use crate::pipes::Holder;
use crate::refusals::refusal_of;
use crate::words::{hex, Words};

pub struct Held {
    /// whose answers they are
    whose: &'static str,
    answers: u64,
    by_bound: [u64; BOUNDS.len()],
    /// of the norms where the original's number is at least 2^-60
    extremes: Extremes,
    pub differences: Differences,
}

impl Held {
    pub fn new(whose: &'static str, quiet: bool) -> Held {
        let (extremes, differences) = (Extremes::new(), Differences::new(quiet));
        Held { whose, answers: 0, by_bound: [0; BOUNDS.len()], extremes, differences }
    }

    /// The bounds that did not hold of all.
    pub fn broken(&self) -> Vec<&'static str> {
        BOUNDS.iter().zip(self.by_bound).filter(|&(_, count)| count > 0).map(|(&bound, _)| bound).collect()
    }

    pub fn print(&self) {
        println!("{:>10} answers of {}", self.answers, self.whose);
        self.extremes.print(&format!("{}, where the original's number is at least 2^-60", self.whose));
    }

    /// The bound that an answer breaks, where it breaks one.
    fn found(&mut self, asked: &Measured, answer: &Words) -> Option<Bound> {
        let norm = answer.number(Function::MaxRelativeNorm.answer("norm").at);
        match &asked.held_to {
            Err(refusal) if answer.as_slice() == [*refusal, 0] => None,
            Ok(sizes) if refusal_of(answer) == 0 => {
                if sizes.source >= SLOWEST && norm >= 0.0 && norm.is_finite() {
                    self.extremes.note(norm, &sizes.square, &asked.call);
                }
                broken(norm, sizes.source, &sizes.square)
            }
            _ => Some(Bound::Refusal),
        }
    }
}

impl Holder<Measured> for Held {
    fn hold(&mut self, asked: &Measured, answer: &Words) {
        self.answers += 1;
        if let Some(bound) = self.found(asked, answer) {
            self.by_bound[bound as usize] += 1;
            let Held { whose, differences, .. } = self;
            let line = || format!("{} gives {}", asked.call.hex(), hex(answer.as_slice()));
            differences.add(|| format!("{whose}: broken: {}\n  {}", BOUNDS[bound as usize], line()));
        }
    }

    fn differences(&mut self) -> &mut Differences {
        &mut self.differences
    }
}
