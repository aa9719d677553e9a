//! The frozen list as calls with their answers, by the table of the stream (tests/calls.txt, which says what a line
//! is).

use std::path::Path;
use urtemval::Points;

const BLOCK: usize = 65_536;

struct Field {
    name: &'static str,
    at: usize,
    words: usize,
}

/// A line of the table.
pub struct Function {
    /// The exported function's name, where there is one.
    pub face: Option<&'static str>,
    arguments: Vec<Field>,
    answer: Vec<Field>,
}

fn fields(text: &'static str) -> Vec<Field> {
    let mut at = 0;
    let field = |field: &'static str| {
        let (name, words) = field.split_once(':').unwrap_or((field, "1"));
        let words = words.parse().expect("how many words a field has");
        at += words;
        let at = at - words;
        Field { name, at, words }
    };
    text.split(' ').map(field).collect()
}

fn words_of(fields: &[Field]) -> usize {
    fields.iter().map(|field| field.words).sum()
}

/// The functions, in the order of their numbers, from 1.
pub fn table() -> Vec<Function> {
    let text = include_str!("../../../../tests/calls.txt");
    let lines = text
        .lines()
        .filter(|line| !line.is_empty() && !line.starts_with('#'));
    let function = |line: &'static str| {
        let mut parts = line.split(" | ");
        let mut part = || parts.next().expect("a line has three parts");
        let face = part().split(' ').nth(2).expect("a line has two names");
        Function {
            face: Some(face).filter(|&face| face != "-"),
            arguments: fields(part()),
            answer: fields(part()),
        }
    };
    lines.map(function).collect()
}

/// A call and the words of its answer.
pub struct Call<'a> {
    pub function: &'a Function,
    words: &'a [u32],
    pub expected: &'a [u32],
}

impl Call<'_> {
    fn field(&self, name: &str, words: usize) -> &[u32] {
        let found = self
            .function
            .arguments
            .iter()
            .find(|field| field.name == name);
        let field = found.unwrap_or_else(|| panic!("a call has no field {name}"));
        assert_eq!(field.words, words, "the words of {name}");
        &self.words[field.at..field.at + words]
    }

    pub fn word(&self, name: &str) -> u32 {
        self.field(name, 1)[0]
    }

    pub fn number(&self, name: &str) -> f32 {
        f32::from_bits(self.word(name))
    }

    pub fn points(&self, name: &str) -> Points {
        let words = self.field(name, 12);
        [0, 3, 6, 9].map(|i| [words[i], words[i + 1], words[i + 2]].map(f32::from_bits))
    }
}

/// The words of a file of the frozen list.
pub fn list(name: &str) -> Vec<u32> {
    let folder = Path::new(env!("CARGO_MANIFEST_DIR")).join("../../crates/answers");
    let path = folder.join(name);
    let bytes = std::fs::read(&path).unwrap_or_else(|e| panic!("{}: {e}", path.display()));
    let word = |b: &[u8]| u32::from_le_bytes(b.try_into().expect("four bytes"));
    bytes.chunks_exact(4).map(word).collect()
}

/// The calls of the list with their answers. The calls of a block end with it or at a zero.
pub fn calls<'a>(table: &'a [Function], stream: &'a [u32], answers: &'a [u32]) -> Vec<Call<'a>> {
    let mut found = Vec::new();
    let mut answers = answers;
    for block in stream.chunks(BLOCK / 4) {
        let mut rest = block;
        while let [number, words @ ..] = rest {
            if *number == 0 {
                break;
            }
            let function = &table[*number as usize - 1];
            let (words, later) = words.split_at(words_of(&function.arguments));
            let (expected, more) = answers.split_at(words_of(&function.answer));
            found.push(Call {
                function,
                words,
                expected,
            });
            rest = later;
            answers = more;
        }
    }
    assert!(answers.is_empty(), "there are more answers than calls");
    found
}
