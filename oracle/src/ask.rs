//! One call at a time: the rules' answer, and what the original does, in a child with a limit on its time.

use std::process::{Child, Command, Stdio};
use std::thread::sleep;
use std::time::Duration;

use crate::calls::Call;
use crate::examples::EXAMPLES;
use crate::judge::{judged, Relation, ENTRIES};
use crate::sides::{as_it_stands, by_original, Outcome};
use crate::words::{hex, Words};

/// How long the original may take, in tenths of a second.
const PATIENCE: u32 = 30;

/// Prints the original's answer.
pub fn original(text: &str) {
    let call = Call::from_text(text);
    let said = |words: Option<Words>| words.map_or("stops".to_string(), |words| hex(words.as_slice()));
    match by_original(&call) {
        Outcome::Answered(words) => println!("{}", said(Some(words))),
        Outcome::Hinted(words) => println!("{}; the hinted text {}", said(as_it_stands(&call)), said(Some(words))),
        Outcome::Stopped => println!("{}", said(None)),
        Outcome::Parted => println!("differs from the hinted text"),
    }
}

/// Prints a call with both answers, and answers how they stand to each other.
pub fn ask(text: &str) -> Relation {
    let asked = judged(Call::from_text(text));
    println!("{}", asked.call.hex());
    println!("  the rules    {}", hex(asked.expected.as_slice()));
    println!("  the original {}", in_child(text));
    asked.relation
}

/// Prints the examples of docs/DIFFERENCES.md. Answers whether each is under the entry that it stands for.
pub fn differences() -> bool {
    let shows = |&(entry, text)| {
        print!("{}: ", ENTRIES[entry as usize]);
        ask(text) == Relation::Listed(entry)
    };
    EXAMPLES.iter().map(shows).fold(true, |so_far, this| so_far && this)
}

fn in_child(text: &str) -> String {
    let this = std::env::current_exe().expect("this program has a path");
    let mut command = Command::new(this);
    command.arg("original").args(text.split_whitespace());
    let mut child = command.stdout(Stdio::piped()).stderr(Stdio::null()).spawn().expect("this program runs again");
    for _ in 0..PATIENCE {
        if let Ok(Some(_)) = child.try_wait() {
            return said(child);
        }
        sleep(Duration::from_millis(100));
    }
    let _ = child.kill();
    let _ = child.wait();
    "does not end".to_string()
}

fn said(child: Child) -> String {
    let output = child.wait_with_output().expect("it has ended");
    String::from_utf8_lossy(&output.stdout).trim().to_string()
}
