//! The frozen list: a sample of calls with the answers that they are held to, as the standard input of the program
//! `answers` and what it must write. What is rarely met is taken first, then calls as they come.

use std::fs;
use std::path::Path;

use crate::calls::Packer;
use crate::cover;
use crate::functions::{FUNCTIONS, MOST};
use crate::generate::Source;
use crate::judge::{judged, Judged, Relation, ENTRIES};
use crate::outside::{only_outside, WAYS};
use crate::refusals::{refusal_of, REFUSALS};
use crate::tally::Tally;

/// How many calls there are.
const CALLS: usize = 20_480;
/// How many calls of each kind of thing are taken before any other.
const OF_EACH: u32 = 60;
/// How many calls with one argument outside its range, in one way.
const OF_EACH_PLACE: u32 = 2;
/// How many calls are looked through for those.
const LOOKED_THROUGH: usize = 1_500_000;
const SEED: u64 = 20_480;

/// What a call shows, as places of one table, each with how many calls that show it are taken first: its branches, its
/// function's refusal, its entry, the argument that alone is outside its range.
fn shows(judged: &Judged) -> impl Iterator<Item = (usize, u32)> {
    let (branches, function) = (judged.branches, judged.call.function as usize);
    let refusals = cover::NAMES.len();
    let entries = refusals + REFUSALS * FUNCTIONS.len();
    let places = entries + ENTRIES.len();
    let refusal = refusals + REFUSALS * function + refusal_of(&judged.expected) as usize;
    let entry = match judged.relation {
        Relation::Listed(entry) => Some((entries + entry as usize, OF_EACH)),
        _ => None,
    };
    let outside = only_outside(&judged.call);
    let place = outside.map(|(place, way)| (places + (function * MOST + place) * WAYS.len() + way, OF_EACH_PLACE));
    let met = (0..refusals).filter(move |&i| branches.has_place(i)).map(|i| (i, OF_EACH));
    met.chain([(refusal, OF_EACH)]).chain(entry).chain(place)
}

/// How many places that table has.
const TABLE: usize =
    cover::NAMES.len() + REFUSALS * FUNCTIONS.len() + ENTRIES.len() + FUNCTIONS.len() * MOST * WAYS.len();

/// The calls of the list, and what they met.
fn sample() -> (Vec<Judged>, Tally) {
    let mut source = Source::new(SEED);
    let mut kept_of = vec![0; TABLE];
    let (mut kept, mut others) = (Vec::new(), Vec::new());
    for _ in 0..LOOKED_THROUGH {
        let this = judged(source.call());
        if shows(&this).any(|(i, most)| kept_of[i] < most) {
            shows(&this).for_each(|(i, _)| kept_of[i] += 1);
            kept.push(this);
        } else if others.len() < CALLS {
            others.push(this);
        }
    }
    kept.extend(others);
    kept.truncate(CALLS);
    let mut tally = Tally::new(false);
    kept.iter().for_each(|judged| tally.note(judged));
    (kept, tally)
}

/// The list as bytes: the calls and the answers.
fn bytes(kept: &[Judged]) -> (Vec<u8>, Vec<u8>) {
    let (mut calls, mut answers) = (Vec::new(), Vec::new());
    let mut packer = Packer::new();
    for judged in kept {
        calls.extend(packer.take(&judged.call).unwrap_or_default());
        answers.extend(judged.expected.as_slice().iter().flat_map(|word| word.to_le_bytes()));
    }
    calls.extend(packer.finish());
    (calls, answers)
}

/// Writes the list below `folder`, or where `write` is not set holds what stands there to the list. Answers whether
/// all is well.
pub fn freeze(folder: &Path, write: bool) -> bool {
    let (kept, tally) = sample();
    let missing = tally.missing();
    if tally.differences.count() > 0 || !missing.is_empty() {
        println!("the list would not do: {} differences; not met: {missing:?}", tally.differences.count());
        return false;
    }
    let (calls, answers) = bytes(&kept);
    let mut well = true;
    for (name, wanted) in [("stdin", calls), ("stdout", answers)] {
        let file = folder.join(name);
        if write {
            fs::write(&file, &wanted).unwrap_or_else(|e| panic!("{}: {e}", file.display()));
            println!("{}: {} calls, {} bytes", file.display(), kept.len(), wanted.len());
        } else {
            let stands = fs::read(&file).unwrap_or_default() == wanted;
            println!("{}: {}", file.display(), if stands { "as it is made" } else { "NOT as it is made" });
            well &= stands;
        }
    }
    well
}
