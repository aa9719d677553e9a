//! The stream of calls and answers (docs/TESTING.md, "The stream"): a call is the number of its function and the
//! arguments, an answer its words; both have one size for each function. Calls come in blocks.

use crate::functions::{Function, FUNCTIONS};
use crate::model::{Point, Points};
use crate::words::{hex, word_at, Words};

/// The size of a block of the stream of calls.
pub const BLOCK: usize = 65_536;

#[derive(Clone, Copy)]
pub struct Call {
    pub function: Function,
    pub arguments: Words,
}

impl Call {
    pub fn new(function: Function, arguments: Words) -> Call {
        assert_eq!(arguments.count(), function.arguments(), "the arguments of {}", function.name());
        Call { function, arguments }
    }

    /// A call from the name of its function and its words in hex.
    pub fn from_text(text: &str) -> Call {
        let (name, arguments) = text.split_once(' ').unwrap_or((text, ""));
        Call::new(Function::named(name), Words::from_hex(arguments))
    }

    /// An argument that is one word, by the name of its field.
    pub fn word(&self, name: &str) -> u32 {
        self.arguments.as_slice()[self.function.argument(name).at]
    }

    pub fn number(&self, name: &str) -> f32 {
        let [number] = self.arguments.field(self.function.argument(name));
        number
    }

    pub fn point(&self, name: &str) -> Point {
        self.arguments.field(self.function.argument(name))
    }

    pub fn points(&self, name: &str) -> Points {
        let numbers: [f32; 12] = self.arguments.field(self.function.argument(name));
        [0, 3, 6, 9].map(|i| [numbers[i], numbers[i + 1], numbers[i + 2]])
    }

    /// Appends the call.
    pub fn encode(&self, to: &mut Vec<u8>) {
        to.extend(self.function.number().to_le_bytes());
        to.extend(self.arguments.as_slice().iter().flat_map(|word| word.to_le_bytes()));
    }

    pub fn hex(&self) -> String {
        format!("{} {}", self.function.name(), hex(self.arguments.as_slice()))
    }
}

/// The calls of one block: they end with the block or at a zero word.
pub fn decode(block: &[u8]) -> Vec<Call> {
    let words = block.len() / 4;
    let mut calls = Vec::new();
    let mut at = 0;
    while at < words && word_at(block, at) != 0 {
        let function = FUNCTIONS[word_at(block, at) as usize - 1];
        let count = function.arguments();
        let arguments = (0..count).fold(Words::new(), |so_far, i| so_far.word(word_at(block, at + 1 + i)));
        calls.push(Call::new(function, arguments));
        at += 1 + count;
    }
    calls
}

/// Packs calls into blocks: no call and no block's answers straddle a block's end.
pub struct Packer {
    block: Vec<u8>,
    answers: usize,
}

impl Packer {
    pub fn new() -> Packer {
        Packer { block: Vec::with_capacity(BLOCK), answers: 0 }
    }

    /// Takes a call. Where it does not fit, the block so far is handed back, filled up, and the call starts the next.
    pub fn take(&mut self, call: &Call) -> Option<Vec<u8>> {
        let (size, answer) = (4 * (1 + call.function.arguments()), 4 * call.function.answers());
        let full = self.block.len() + size > BLOCK || self.answers + answer > BLOCK;
        let done = if full { Some(self.fill()) } else { None };
        call.encode(&mut self.block);
        self.answers += answer;
        done
    }

    fn fill(&mut self) -> Vec<u8> {
        self.block.resize(BLOCK, 0);
        self.answers = 0;
        std::mem::replace(&mut self.block, Vec::with_capacity(BLOCK))
    }

    /// The last block, which may be short.
    pub fn finish(self) -> Vec<u8> {
        self.block
    }
}
