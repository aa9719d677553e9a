//! A run: the corners of the rules, the calls that every run makes, and calls from one seed, each judged, and a
//! program's answers over pipes held to what is expected.

use crate::calls::Call;
use crate::corners;
use crate::functions::Function;
use crate::generate::Source;
use crate::judge::judged;
use crate::pipes;
use crate::tally::Tally;

/// Which calls a run makes: the corners and the listed ones, then so many from a seed; of the functions named alone
/// where some are.
pub struct Plan {
    pub seed: u64,
    pub calls: u64,
    pub only: Vec<Function>,
}

impl Plan {
    fn calls(&self) -> impl Iterator<Item = Call> + '_ {
        let mut source = Source::new(self.seed);
        let chosen = move |call: &Call| self.only.is_empty() || self.only.contains(&call.function);
        let listed = corners::calls().chain(source.listed());
        listed.chain((0..self.calls).map(move |_| source.call())).filter(chosen)
    }
}

/// A run with what it met printed. Answers whether all is well: no difference, every corner as it is listed, and
/// nothing left out that a run of every function can meet.
pub fn report(plan: &Plan, program: &[String]) -> bool {
    let corners_stand = corners::hold();
    let tally = if program.is_empty() { run(plan) } else { run_program(plan, program, false, false) };
    tally.print();
    let missing = if plan.only.is_empty() { tally.missing() } else { Vec::new() };
    for what in &missing {
        println!("NOT MET: {what}");
    }
    let differences = tally.differences.count();
    println!("seed {}, {} calls: {differences} differences, {} not met", plan.seed, tally.calls(), missing.len());
    corners_stand && differences == 0 && missing.is_empty()
}

/// The original against the model, with no program.
fn run(plan: &Plan) -> Tally {
    let mut tally = Tally::new(false);
    plan.calls().for_each(|call| tally.note(&judged(call)));
    tally
}

/// The program against both. Where `first` is set it ends at the first difference, where `quiet` is it prints none.
pub fn run_program(plan: &Plan, program: &[String], first: bool, quiet: bool) -> Tally {
    pipes::ask(program, plan.calls().map(judged), first, Tally::new(quiet))
}
