//! The Rust side of the tests. It makes calls, asks the original and a model of the rules, and judges the answers of
//! the Rattle program (docs/TESTING.md).

mod allowance_corners;
mod answered;
mod ask;
mod band_corners;
mod bounds;
mod calls;
mod compare;
mod corners;
mod cover;
mod differences;
mod exact;
mod examples;
mod faults;
mod freeze;
mod functions;
mod generate;
mod judge;
mod laws;
mod model;
mod named;
mod norm_corners;
mod outside;
mod pipes;
mod refusals;
mod scenes;
mod sides;
mod tally;
mod words;

use functions::Function;
use std::path::Path;
use std::process::ExitCode;

const USAGE: &str = "\
oracle compare SEED CALLS ONLY [PROGRAM WORD..]
                              the program over pipes, held to the original and to the rules; with no program,
                              the model held to the original. ONLY is `all` or names of functions, with commas
oracle laws SEED PAIRS [PROGRAM WORD..]
                              the norm of each pair held to that of the same pair in other orders, with other signs
                              and times powers of two: the program's norms, the original's and the model's
oracle bounds SEED PAIRS [PROGRAM WORD..]
                              the norm of each pair held to the exact largest distance: the program's, the model's; how
                              far off the original's number is
oracle faults SEED            the own test of the judge, of the laws and of the bounds, with planted faults
oracle freeze FOLDER          writes the frozen list below FOLDER
oracle frozen FOLDER          holds the frozen list below FOLDER to the one that freeze makes
oracle ask FUNCTION WORD..    one call: the rules' answer and what the original does
oracle differences            the same for the inputs of docs/DIFFERENCES.md
oracle scenes FILE.. -- PROGRAM WORD..
                              scenes, damaged copies of them and random ones, each listing held to the rules
oracle stand-in FAULT         the model as a program under test
oracle original FUNCTION WORD..
                              the original's answer to one call; it may stop, or not end";

fn main() -> ExitCode {
    sides::guard();
    let args: Vec<String> = std::env::args().skip(1).collect();
    let words: Vec<&str> = args.iter().map(String::as_str).collect();
    let well = match &words[..] {
        ["compare", seed, calls, only, ..] => match (seed.parse(), calls.parse()) {
            (Ok(seed), Ok(calls)) => {
                let only = if *only == "all" { Vec::new() } else { only.split(',').map(Function::named).collect() };
                compare::report(&compare::Plan { seed, calls, only }, &args[4..])
            }
            _ => usage(),
        },
        ["laws", seed, pairs, ..] => match (seed.parse(), pairs.parse()) {
            (Ok(seed), Ok(pairs)) => laws::report(&laws::Plan { seed, pairs }, &args[3..]),
            _ => usage(),
        },
        ["bounds", seed, pairs, ..] => match (seed.parse(), pairs.parse()) {
            (Ok(seed), Ok(pairs)) => bounds::report(&bounds::Plan { seed, pairs }, &args[3..]),
            _ => usage(),
        },
        ["faults", seed] => seed.parse().map_or_else(|_| usage(), faults::test),
        ["freeze", folder] => freeze::freeze(Path::new(folder), true),
        ["frozen", folder] => freeze::freeze(Path::new(folder), false),
        ["ask", call @ ..] => ask::ask(&call.join(" ")).explained(),
        ["differences"] => ask::differences(),
        ["scenes", rest @ ..] => match rest.iter().position(|&word| word == "--") {
            Some(files) if files + 1 < rest.len() => scenes::test(&args[1..=files], &args[files + 2..]),
            _ => usage(),
        },
        ["stand-in", fault] => {
            faults::stand_in(fault);
            true
        }
        ["original", call @ ..] => {
            ask::original(&call.join(" "));
            true
        }
        _ => usage(),
    };
    if well {
        ExitCode::SUCCESS
    } else {
        ExitCode::FAILURE
    }
}

fn usage() -> bool {
    eprintln!("{USAGE}");
    false
}
