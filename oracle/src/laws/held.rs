//! One side's answers, held to each other group by group.

use super::condition::exactly;
use super::group::{Member, LAWS};
use crate::calls::Call;
use crate::differences::Differences;
use crate::functions::Function;
use crate::model::SLOWEST;
use crate::pipes::Holder;
use crate::refusals::refusal_of;
use crate::words::{hex, Words};

/// Which number a side answers. Both obey the laws, but for a norm that is brought across 2^-60.
#[derive(Clone, Copy, PartialEq, Eq)]
pub enum Number {
    Source,
    Norm,
}

pub struct Held {
    /// whose answers they are
    whose: &'static str,
    number: Number,
    /// the pair itself and its answer
    first: Option<(Call, Words)>,
    calls: u64,
    by_law: [u64; LAWS.len()],
    pub differences: Differences,
}

impl Held {
    pub fn new(whose: &'static str, number: Number, quiet: bool) -> Held {
        let differences = Differences::new(quiet);
        Held { whose, number, first: None, calls: 0, by_law: [0; LAWS.len()], differences }
    }

    /// The laws that did not hold of all.
    pub fn broken(&self) -> Vec<&'static str> {
        LAWS.iter().zip(self.by_law).filter(|&(_, count)| count > 0).map(|(&law, _)| law).collect()
    }

    pub fn print(&self) {
        println!("{:>10} answers of {}", self.calls, self.whose);
    }
}

/// Whether an answer is the first one times 2^k, and a refusal the same: bit for bit, the sign of a zero too. Where 2^k
/// brings a norm across 2^-60, one of the two is raised and the other stands: but for 2^k the raised one is not below the
/// other, nor above that times 1 + 2^-20.
fn stands(number: Number, first: &Words, answer: &Words, k: i32) -> bool {
    let norm = Function::MaxRelativeNorm.answer("norm").at;
    let (before, after) = (first.number(norm), answer.number(norm));
    let (expected, found) = (exactly(before, k), f64::from(after));
    let across = number == Number::Norm && k != 0 && (before < SLOWEST) != (after < SLOWEST);
    let (standing, raised) = if before < SLOWEST { (expected, found) } else { (found, expected) };
    let multiplied = if across {
        standing <= raised && raised <= standing * (1.0 + 1.0 / 1_048_576.0)
    } else {
        found.to_bits() == expected.to_bits()
    };
    refusal_of(answer) == refusal_of(first) && multiplied
}

impl Holder<Member> for Held {
    fn hold(&mut self, member: &Member, answer: &Words) {
        self.calls += 1;
        let (law, (pair, first)) = match (member.law, &self.first) {
            (Some(law), Some(first)) => (law, first),
            _ => {
                self.first = Some((member.call, *answer));
                return;
            }
        };
        if !stands(self.number, first, answer, member.k) {
            self.by_law[law as usize] += 1;
            let line = |call: &Call, answer: &Words| format!("{} gives {}", call.hex(), hex(answer.as_slice()));
            let (pair, image) = (line(pair, first), line(&member.call, answer));
            let Held { whose, differences, .. } = self;
            differences.add(|| format!("{whose}: {}, k = {}\n  {pair}\n  {image}", LAWS[law as usize], member.k));
        }
    }

    fn differences(&mut self) -> &mut Differences {
        &mut self.differences
    }
}
