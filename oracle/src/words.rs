//! The words of a call or of an answer: each four bytes, little-endian, a number by its bits.

use crate::functions::{Field, MOST};

/// The pattern of a NaN in the stream. The library's logic has one NaN, so the stream has one too.
pub const NAN: u32 = 0x7fc0_0000;

/// Words of a call or of an answer: the first `count` of `words`.
#[derive(Clone, Copy)]
pub struct Words {
    words: [u32; MOST],
    count: usize,
}

impl Words {
    pub fn new() -> Words {
        Words { words: [0; MOST], count: 0 }
    }

    /// Words written in hex, with blanks between them.
    pub fn from_hex(text: &str) -> Words {
        let word = |digits| u32::from_str_radix(digits, 16).unwrap_or_else(|_| panic!("`{digits}` is no hex word"));
        text.split_whitespace().fold(Words::new(), |so_far, digits| so_far.word(word(digits)))
    }

    pub fn word(mut self, word: u32) -> Words {
        self.words[self.count] = word;
        self.count += 1;
        self
    }

    /// Numbers, each NaN by the one pattern that the stream has for it.
    pub fn numbers<'a>(self, numbers: impl IntoIterator<Item = &'a f32>) -> Words {
        let bits = |x: &f32| if x.is_nan() { NAN } else { x.to_bits() };
        numbers.into_iter().fold(self, |so_far, x| so_far.word(bits(x)))
    }

    pub fn points(self, x: &[[f32; 3]; 4]) -> Words {
        self.numbers(x.iter().flatten())
    }

    pub fn as_slice(&self) -> &[u32] {
        &self.words[..self.count]
    }

    pub fn set(&mut self, place: usize, word: u32) {
        self.words[..self.count][place] = word;
    }

    pub fn number(&self, place: usize) -> f32 {
        f32::from_bits(self.words[..self.count][place])
    }

    /// The numbers of a field, which has so many.
    pub fn field<const WORDS: usize>(&self, field: Field) -> [f32; WORDS] {
        assert_eq!(field.places().len(), WORDS, "the words of {}", field.name);
        std::array::from_fn(|i| self.number(field.at + i))
    }

    pub fn count(&self) -> usize {
        self.count
    }
}

/// The word at a place, counted in words.
pub fn word_at(bytes: &[u8], place: usize) -> u32 {
    let four = &bytes[4 * place..4 * place + 4];
    u32::from_le_bytes([four[0], four[1], four[2], four[3]])
}

/// The words of one answer, from its bytes.
pub fn answer_from(bytes: &[u8]) -> Words {
    (0..bytes.len() / 4).fold(Words::new(), |so_far, i| so_far.word(word_at(bytes, i)))
}

pub fn hex(words: &[u32]) -> String {
    let each: Vec<String> = words.iter().map(|word| format!("{word:x}")).collect();
    each.join(" ")
}
