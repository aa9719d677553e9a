//! The bounds of the norm (docs/TESTING.md, "Bounds"): each answered norm is held to the exact largest distance of the
//! pair, and where the original's number is below 2^-60 to that number. How often the original's own number is below
//! the exact distance is counted.

mod cover;
mod extremes;
mod held;
mod listed;
mod measured;
mod verdict;

pub use self::held::Held;
pub use self::verdict::{broken, Bound, BOUNDS};

use self::cover::Cover;
use self::extremes::Extremes;
use self::listed::listed;
use self::measured::Measured;
use crate::calls::Call;
use crate::differences::Differences;
use crate::exact;
use crate::generate::Source;
use crate::model::{Rules, SLOWEST};
use crate::pipes::{self, Holder};
use crate::sides::by_model;

/// The listed pairs, then so many from a seed.
pub struct Plan {
    pub seed: u64,
    pub pairs: u64,
}

impl Plan {
    fn calls(&self) -> impl Iterator<Item = Call> {
        let mut source = Source::new(self.seed);
        listed(&mut source).into_iter().chain((0..self.pairs).map(move |_| source.hard_norm()))
    }
}

/// The sides that are at hand without a program, and what was met.
struct Run {
    cover: Cover,
    model: Held,
    /// the original's number over the exact distance, where it is at least 2^-60
    original: Extremes,
    /// the model's source norms that are not the original's number
    differences: Differences,
}

impl Run {
    fn new() -> Run {
        let (cover, model) = (Cover::new(), Held::new("the model", false));
        Run { cover, model, original: Extremes::new(), differences: Differences::new(false) }
    }

    /// A pair measured, with these sides' answers held.
    fn measured(&mut self, call: Call) -> Measured {
        let this = Measured::new(call);
        self.cover.note(&this);
        self.model.hold(&this, &by_model(&Rules::DOCUMENT, &call));
        if let Ok(sizes) = &this.held_to {
            if sizes.source >= SLOWEST {
                self.original.note(sizes.source, &sizes.square, &call);
            }
            let source = Rules::DOCUMENT.source_norm(&call.points("x"), call.word("split"));
            if source.to_bits() != sizes.source.to_bits() {
                self.differences.add(|| format!("the model's source norm is not the original's: {}", call.hex()));
            }
        }
        this
    }
}

/// The program's answers alone; what differs is not printed.
pub fn of_program(plan: &Plan, program: &[String]) -> Held {
    pipes::ask(program, plan.calls().map(Measured::new), false, Held::new("the program", true))
}

/// A run with what it met printed. Answers whether all is well: no bound broken, and nothing left out that it can meet.
pub fn report(plan: &Plan, program: &[String]) -> bool {
    let arithmetic = exact::holds();
    let mut run = Run::new();
    let mut sides = Vec::new();
    if program.is_empty() {
        plan.calls().for_each(|call| drop(run.measured(call)));
    } else {
        let all = plan.calls().map(|call| run.measured(call));
        sides.push(pipes::ask(program, all, false, Held::new("the program", false)));
    }
    let Run { cover, model, original, differences } = run;
    sides.push(model);
    cover.print();
    sides.iter().for_each(Held::print);
    original.print("the original's number, where it is at least 2^-60");
    let missing = cover.missing();
    for what in &missing {
        println!("NOT MET: {what}");
    }
    let differences = differences.count() + sides.iter().map(|side| side.differences.count()).sum::<u64>();
    println!("seed {}, {} pairs: {differences} differences, {} not met", plan.seed, cover.pairs(), missing.len());
    arithmetic && differences == 0 && missing.is_empty()
}
