//! What a run met: calls and refusals of each function, kinds of safe times, branches, entries of the differences; and
//! the differences that no entry has.

use crate::calls::Call;
use crate::cover::{self, Branch};
use crate::differences::Differences;
use crate::functions::{Function, FUNCTIONS, MOST};
use crate::judge::{Judged, Relation, ENTRIES};
use crate::named::{print, unmet};
use crate::outside::{only_outside, ways, WAYS};
use crate::pipes::{Asked, Holder};
use crate::refusals::{refusal_of, refusals, REFUSALS};
use crate::sides::KINDS;
use crate::words::{hex, Words};

pub struct Tally {
    refused: [[u64; REFUSALS]; FUNCTIONS.len()],
    kinds: [u64; KINDS.len()],
    branches: Vec<u64>,
    entries: Vec<u64>,
    /// by function, place and way
    outside: Vec<[[u64; WAYS.len()]; MOST]>,
    most_halvings: u32,
    pub differences: Differences,
}

impl Tally {
    /// Nothing so far. Where `quiet` is set no difference will be printed.
    pub fn new(quiet: bool) -> Tally {
        Tally {
            refused: [[0; REFUSALS]; FUNCTIONS.len()],
            kinds: [0; KINDS.len()],
            branches: vec![0; cover::NAMES.len()],
            entries: vec![0; ENTRIES.len()],
            outside: vec![[[0; WAYS.len()]; MOST]; FUNCTIONS.len()],
            most_halvings: 0,
            differences: Differences::new(quiet),
        }
    }

    /// Counts a call, and its difference where the rules' answer is not the original's and no entry says why.
    pub fn note(&mut self, judged: &Judged) {
        self.refused[judged.call.function as usize][refusal_of(&judged.expected) as usize] += 1;
        if judged.call.function.is_safe_time() {
            self.kinds[judged.word("kind") as usize] += 1;
            self.most_halvings = self.most_halvings.max(judged.word("halvings"));
        }
        for (i, count) in self.branches.iter_mut().enumerate() {
            *count += u64::from(judged.branches.has_place(i));
        }
        if let Some((place, way)) = only_outside(&judged.call) {
            self.outside[judged.call.function as usize][place][way] += 1;
        }
        match judged.relation {
            Relation::Same => {}
            Relation::Listed(entry) => self.entries[entry as usize] += 1,
            Relation::Unlisted => self.differs(judged, "the rule and the original differ, and no entry says why"),
            Relation::Parted => self.differs(judged, "the original's text as it stands and the hinted text differ"),
        }
    }

    fn differs(&mut self, judged: &Judged, how: &str) {
        let expected = hex(judged.expected.as_slice());
        self.differences.add(|| format!("{}\n  expected  {expected}\n  {how}", judged.call.hex()));
    }

    pub fn calls(&self) -> u64 {
        self.refused.iter().flatten().sum()
    }

    /// How many calls of each function, all together.
    pub fn of(&self, function: Function) -> u64 {
        self.refused[function as usize].iter().sum()
    }

    /// What can be met and was not.
    pub fn missing(&self) -> Vec<String> {
        let mut missing = Vec::new();
        for function in FUNCTIONS {
            for &refusal in [0].iter().chain(refusals(function)) {
                if self.refused[function as usize][refusal as usize] == 0 {
                    let what = if refusal == 0 { "an answer".to_string() } else { format!("refusal {refusal}") };
                    missing.push(format!("{}: {what}", function.name()));
                }
            }
        }
        missing.extend(unmet(&KINDS, &self.kinds));
        missing.extend(unmet(cover::NAMES, &self.branches));
        missing.extend(unmet(ENTRIES, &self.entries));
        for function in FUNCTIONS {
            for (place, way, count) in self.outside_of(function) {
                if count == 0 {
                    missing.push(format!("{}: argument {place} alone {}", function.name(), WAYS[way]));
                }
            }
        }
        missing
    }

    /// Each place and way of a function with how often it was met alone.
    fn outside_of(&self, function: Function) -> impl Iterator<Item = (usize, usize, u64)> + '_ {
        let counts = &self.outside[function as usize];
        let at = move |place: usize| ways(function, place).iter().map(move |&way| (place, way, counts[place][way]));
        (0..function.arguments()).flat_map(at)
    }

    pub fn print(&self) {
        for function in FUNCTIONS {
            let counts = &self.refused[function as usize];
            let refusals = (1..REFUSALS).filter(|&i| counts[i] > 0).map(|i| format!("refusal {i}: {}", counts[i]));
            let all: Vec<String> = refusals.collect();
            println!("{:>10} {}, answered: {}, {}", self.of(function), function.name(), counts[0], all.join(", "));
        }
        let kinds: Vec<String> = KINDS.iter().zip(&self.kinds).map(|(name, n)| format!("{name}: {n}")).collect();
        println!("safe times, {}; most halvings: {}", kinds.join(", "), self.most_halvings);
        let walks = |branch: Branch| self.branches[branch as usize];
        let (above, band) = (walks(Branch::ThresholdPark), walks(Branch::ThresholdBelowFirst));
        println!("walks held to the original's text as it stands: {above}; to the hinted text alone: {band}");
        let least = FUNCTIONS.iter().flat_map(|&function| self.outside_of(function)).map(|(_, _, count)| count).min();
        println!("each argument alone NaN, infinite, below and above its range: {} times or more", least.unwrap_or(0));
        println!("branches met, in calls:");
        print(cover::NAMES, &self.branches);
        println!("entries of docs/DIFFERENCES.md used:");
        print(ENTRIES, &self.entries);
    }
}

impl Asked for Judged {
    fn call(&self) -> &Call {
        &self.call
    }
}

impl Holder<Judged> for Tally {
    fn hold(&mut self, judged: &Judged, answer: &Words) {
        self.note(judged);
        if answer.as_slice() != judged.expected.as_slice() {
            self.differs(judged, &format!("answered  {}", hex(answer.as_slice())));
        }
    }

    fn differences(&mut self) -> &mut Differences {
        &mut self.differences
    }
}
