//! Makes the functions of the stream of calls of their table, `tests/calls.txt`, which says what a line is.
//! `src/functions.rs` includes what is made: an enum of the functions, by their names in the table, and a row for each.

use std::fs;
use std::path::Path;

pub fn make(out: &Path) {
    let file = Path::new("..").join("tests").join("calls.txt");
    println!("cargo:rerun-if-changed={}", file.display());
    let text = fs::read_to_string(&file).unwrap_or_else(|e| panic!("{}: {e}", file.display()));
    let lines = text.lines().filter(|line| !line.is_empty() && !line.starts_with('#'));
    let (mut variants, mut rows) = (Vec::new(), Vec::new());
    for (i, line) in lines.enumerate() {
        let parts: Vec<&str> = line.split(" | ").collect();
        let (head, call, answer) = match parts[..] {
            [head, call, answer] => (head, call, answer),
            _ => panic!("calls.txt: `{line}` has no three parts"),
        };
        let words: Vec<&str> = head.split(' ').collect();
        let (number, name) = match words[..] {
            [number, name, _] => (number, name),
            _ => panic!("calls.txt: `{head}` is no number and two names"),
        };
        assert_eq!(number, (i + 1).to_string(), "calls.txt: the number of {name}");
        variants.push(camel(name));
        rows.push(format!("Row {{ name: {name:?}, arguments: &[{}], answer: &[{}] }}", fields(call), fields(answer)));
    }
    let (count, names) = (variants.len(), variants.join(", "));
    let paths = variants.iter().map(|name| format!("Function::{name}")).collect::<Vec<_>>().join(", ");
    let made = format!(
        "/// The functions, in the order of their numbers.\n\
         #[derive(Clone, Copy, PartialEq, Eq, Debug)]\n\
         pub enum Function {{ {names} }}\n\
         pub const FUNCTIONS: [Function; {count}] = [{paths}];\n\
         const ROWS: [Row; {count}] = [{}];\n",
        rows.join(", ")
    );
    fs::write(out.join("functions.rs"), made).expect("OUT_DIR can be written");
}

/// `square_root` as `SquareRoot`.
fn camel(name: &str) -> String {
    let capital = |word: &str| word[..1].to_uppercase() + &word[1..];
    name.split('_').map(capital).collect()
}

/// The fields of a call or of an answer, each with its first word and how many words it has.
fn fields(text: &str) -> String {
    let mut at = 0;
    let field = |field: &str| {
        let (name, words) = field.split_once(':').unwrap_or((field, "1"));
        let words: usize = words.parse().unwrap_or_else(|_| panic!("calls.txt: `{field}` is no field"));
        at += words;
        format!("Field {{ name: {name:?}, at: {}, words: {words} }}", at - words)
    };
    text.split(' ').map(field).collect::<Vec<_>>().join(", ")
}
