//! The laws of the norm (docs/TESTING.md, "Laws"): what a pair's norm has to do with that of the same pair in another
//! order, with other signs, or multiplied by a power of two. Each side's answers are held to each other, and to nothing
//! else: the program's, the original's and the model's. The original answers the source norm.

mod condition;
mod cover;
mod group;
mod held;
mod listed;

pub use self::group::{Law, LAWS};
pub use self::held::Held;

use self::cover::Cover;
use self::group::{group, Member};
use self::held::Number;
use self::listed::listed;
use crate::calls::Call;
use crate::generate::Source;
use crate::model::Rules;
use crate::pipes::{self, Holder};
use crate::refusals::refusal_of;
use crate::sides::{by_model, by_original, Outcome};
use crate::words::Words;

/// The listed pairs, then so many from a seed.
pub struct Plan {
    pub seed: u64,
    pub pairs: u64,
}

impl Plan {
    /// Each pair with the powers of two by which it is multiplied.
    fn pairs(&self) -> impl Iterator<Item = (Call, Vec<i32>)> {
        let mut source = Source::new(self.seed);
        listed(&mut source).into_iter().chain((0..self.pairs).map(move |_| source.norm()))
    }
}

/// The sides that are at hand without a program, and what was met.
struct Run {
    cover: Cover,
    model: Held,
    /// the model's source norm of any numbers, NaN and infinities too
    of_any: Held,
    original: Held,
}

impl Run {
    fn new() -> Run {
        let held = |whose, number| Held::new(whose, number, false);
        Run {
            cover: Cover::new(),
            model: held("the model", Number::Norm),
            of_any: held("the model's source norm of any numbers", Number::Source),
            original: held("the original", Number::Source),
        }
    }

    /// A pair's group, with these sides' answers held.
    fn group(&mut self, (call, powers): (Call, Vec<i32>)) -> Vec<Member> {
        let members = group(call, &powers, &mut self.cover);
        let split = call.word("split");
        for member in &members {
            let answer = by_model(&Rules::DOCUMENT, &member.call);
            self.model.hold(member, &answer);
            if split == 2 || split == 3 {
                let source = Rules::DOCUMENT.source_norm(&member.call.points("x"), split);
                self.of_any.hold(member, &Words::new().word(0).numbers(&[source]));
            }
            if refusal_of(&answer) == 0 {
                self.ask_original(member);
            }
        }
        members
    }

    fn ask_original(&mut self, member: &Member) {
        match by_original(&member.call) {
            Outcome::Answered(words) => self.original.hold(member, &words),
            _ => self.original.differences.add(|| format!("the original stops: {}", member.call.hex())),
        }
    }
}

/// The program's answers alone, held by the laws; what differs is not printed.
pub fn of_program(plan: &Plan, program: &[String]) -> Held {
    let mut cover = Cover::new();
    let members = plan.pairs().flat_map(|(call, powers)| group(call, &powers, &mut cover));
    pipes::ask(program, members, false, Held::new("the program", Number::Norm, true))
}

/// A run with what it met printed. Answers whether all is well: no difference, and nothing left out that it can meet.
pub fn report(plan: &Plan, program: &[String]) -> bool {
    let mut run = Run::new();
    let mut sides = Vec::new();
    if program.is_empty() {
        plan.pairs().for_each(|pair| drop(run.group(pair)));
    } else {
        let members = plan.pairs().flat_map(|pair| run.group(pair));
        sides.push(pipes::ask(program, members, false, Held::new("the program", Number::Norm, false)));
    }
    let Run { cover, model, of_any, original } = run;
    sides.extend([original, model, of_any]);
    cover.print();
    sides.iter().for_each(Held::print);
    let missing = cover.missing();
    for what in &missing {
        println!("NOT MET: {what}");
    }
    let differences: u64 = sides.iter().map(|side| side.differences.count()).sum();
    println!("seed {}, {} pairs: {differences} differences, {} not met", plan.seed, cover.pairs(), missing.len());
    differences == 0 && missing.is_empty()
}
