//! The functions of the stream of calls, their fields and sizes, as the table `tests/calls.txt` has them.

use std::ops::Range;

/// A field of a call or of an answer: its first word, and how many it has.
#[derive(Clone, Copy)]
pub struct Field {
    pub name: &'static str,
    pub at: usize,
    words: usize,
}

impl Field {
    pub fn places(&self) -> Range<usize> {
        self.at..self.at + self.words
    }
}

struct Row {
    name: &'static str,
    arguments: &'static [Field],
    answer: &'static [Field],
}

include!(concat!(env!("OUT_DIR"), "/functions.rs"));

/// The most words that a call's arguments have, and an answer.
pub const MOST: usize = most();

const fn most() -> usize {
    let (mut most, mut i) = (0, 0);
    while i < ROWS.len() {
        let (call, answer) = (words_of(ROWS[i].arguments), words_of(ROWS[i].answer));
        let longer = if call < answer { answer } else { call };
        most = if most < longer { longer } else { most };
        i += 1;
    }
    most
}

/// Fields lie one after the other.
const fn words_of(fields: &[Field]) -> usize {
    let last = &fields[fields.len() - 1];
    last.at + last.words
}

impl Function {
    pub fn named(name: &str) -> Function {
        let found = FUNCTIONS.into_iter().find(|function| function.name() == name);
        found.unwrap_or_else(|| panic!("there is no function {name}"))
    }

    /// Whether it answers a safe time.
    pub fn is_safe_time(self) -> bool {
        matches!(self, Function::MaximumSafeTimeAccurate | Function::MaximumSafeTimeAllowing)
    }

    fn row(self) -> &'static Row {
        &ROWS[self as usize]
    }

    pub fn name(self) -> &'static str {
        self.row().name
    }

    pub fn number(self) -> u32 {
        self as u32 + 1
    }

    /// How many words the arguments have.
    pub fn arguments(self) -> usize {
        words_of(self.row().arguments)
    }

    /// How many words the answer has.
    pub fn answers(self) -> usize {
        words_of(self.row().answer)
    }

    /// The field of a call's arguments.
    pub fn argument(self, name: &str) -> Field {
        self.field(self.row().arguments, name)
    }

    /// The field of an answer.
    pub fn answer(self, name: &str) -> Field {
        self.field(self.row().answer, name)
    }

    fn field(self, fields: &[Field], name: &str) -> Field {
        let found = fields.iter().find(|field| field.name == name);
        *found.unwrap_or_else(|| panic!("{} has no field {name}", self.name()))
    }

    /// The name of the field in which a place of the arguments lies.
    pub fn name_at(self, place: usize) -> &'static str {
        let found = self.row().arguments.iter().find(|field| field.places().contains(&place));
        found.unwrap_or_else(|| panic!("{} has no argument {place}", self.name())).name
    }

    pub fn answer_fields(self) -> &'static [Field] {
        self.row().answer
    }
}
