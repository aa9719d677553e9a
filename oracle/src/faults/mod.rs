//! Planted faults: the model stands in for the program under test, with one thing wrong. The judge has to catch each,
//! and the laws and the bounds of the norm those that break one.

mod listed;
mod norms;

use std::io::{Read, Write};

use self::listed::{Fault, FAULTS, NONE};
use crate::bounds::{self, BOUNDS};
use crate::calls::{decode, BLOCK};
use crate::compare;
use crate::laws::{self, LAWS};
use crate::sides::by_model;

/// The calls by which the judge has to catch each fault, and the pairs by which the laws and the bounds have to.
const CALLS: u64 = 400_000;
const PAIRS: u64 = 20_000;

/// Answers the stream on standard input as a program under test does, by the model with the named fault.
pub fn stand_in(name: &str) {
    let fault = FAULTS.iter().find(|fault| fault.name == name).unwrap_or(&NONE);
    let (mut input, mut output) = (std::io::stdin().lock(), std::io::stdout().lock());
    let mut block = Vec::new();
    loop {
        block.clear();
        let got = (&mut input).take(BLOCK as u64).read_to_end(&mut block);
        if !matches!(got, Ok(n) if n > 0) {
            return;
        }
        let mut answers = Vec::new();
        for call in decode(&block) {
            let mut answer = by_model(&fault.rules, &call);
            (fault.distort)(&call, &mut answer);
            answers.extend(answer.as_slice().iter().flat_map(|word| word.to_le_bytes()));
        }
        if output.write_all(&answers).is_err() {
            return;
        }
    }
}

/// The own test of the judge, of the laws and of the bounds. Answers whether all is well.
pub fn test(seed: u64) -> bool {
    let all = || std::iter::once(&NONE).chain(&FAULTS);
    let judged = all().filter(|fault| !judge_catches(fault, seed)).count() == 0;
    let breaks = |fault: &Fault| !(fault.laws.is_empty() && fault.bounds.is_empty());
    let of_norm = all().filter(|fault| fault.name == NONE.name || breaks(fault));
    judged & (of_norm.filter(|fault| !(laws_catch(fault, seed) & bounds_catch(fault, seed))).count() == 0)
}

/// The words by which this program stands in with a fault.
fn program(fault: &Fault) -> [String; 3] {
    let this = std::env::current_exe().expect("this program has a path");
    let this = this.to_str().expect("its path is text");
    [this, "stand-in", fault.name].map(str::to_string)
}

/// Whether there is a difference, and where nothing is wrong none.
fn judge_catches(fault: &Fault, seed: u64) -> bool {
    let plan = compare::Plan { seed, calls: CALLS, only: Vec::new() };
    let quiet = fault.name != NONE.name;
    let tally = compare::run_program(&plan, &program(fault), quiet, quiet);
    let caught = tally.differences.count() > 0;
    let right = caught == quiet;
    let verdict = match (caught, right) {
        (true, true) => format!("caught within {} calls", tally.calls()),
        (false, true) => format!("no difference in {} calls", tally.calls()),
        (true, false) => "a difference where nothing is wrong".to_string(),
        (false, false) => format!("NOT CAUGHT in {} calls", tally.calls()),
    };
    println!("planted fault {}: {verdict}", fault.name);
    right
}

/// Whether the laws that the fault breaks are broken, and no other.
fn laws_catch(fault: &Fault, seed: u64) -> bool {
    let held = laws::of_program(&laws::Plan { seed, pairs: PAIRS }, &program(fault));
    let names: Vec<&str> = fault.laws.iter().map(|&law| LAWS[law as usize]).collect();
    breaks(fault, "laws", &held.broken(), &names, held.differences.count())
}

/// Whether the bounds that the fault breaks are broken, and no other.
fn bounds_catch(fault: &Fault, seed: u64) -> bool {
    let held = bounds::of_program(&bounds::Plan { seed, pairs: PAIRS }, &program(fault));
    let names: Vec<&str> = fault.bounds.iter().map(|&bound| BOUNDS[bound as usize]).collect();
    breaks(fault, "bounds", &held.broken(), &names, held.differences.count())
}

/// Whether what is broken is what has to be, and there are differences where something is.
fn breaks(fault: &Fault, what: &str, broken: &[&str], names: &[&str], differences: u64) -> bool {
    let right = broken == names && (differences > 0) != names.is_empty();
    let verdict = if right { "as it has to be" } else { "NOT AS IT HAS TO BE" };
    println!("planted fault {}: {what} broken: {broken:?}, {verdict}", fault.name);
    right
}
