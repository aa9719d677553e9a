//! The program `safetimes` held to the rules (docs/01-scope.md, "The scene file"): scenes from files, damaged copies of
//! them, and scenes of random pairs. Each listing has to be the expected one, byte for byte.

mod made;
mod scene;

use std::collections::BTreeMap;
use std::io::Write;
use std::path::Path;
use std::process::{Command, Stdio};
use std::sync::atomic::{AtomicUsize, Ordering};
use std::thread;

use self::made::{damaged, random};
use self::scene::{listing, MOST};
use crate::generate::Source;

/// What stands after the name of a listing's line has to be met by a run.
const MET: [&str; 8] =
    ["touching", "contact", "clear", "budget", "refused 1", "refused 2", "scene refused 10", "scene refused 11"];

/// How the program answered a file wrongly, if it did.
fn fault(program: &[String], file: &[u8], expected: &str) -> Option<String> {
    let mut command = Command::new(&program[0]);
    let pipes = command.args(&program[1..]).stdin(Stdio::piped()).stdout(Stdio::piped());
    let mut child = pipes.spawn().unwrap_or_else(|e| panic!("{}: {e}", program[0]));
    // a program that has seen enough may close its end
    let _ = child.stdin.take().expect("standard input is a pipe").write_all(file);
    let output = child.wait_with_output().unwrap_or_else(|e| panic!("{}: {e}", program[0]));
    let listed = String::from_utf8_lossy(&output.stdout);
    if !output.status.success() {
        Some(format!("ended with {}", output.status))
    } else if listed != expected {
        Some(format!("listed\n{listed}"))
    } else {
        None
    }
}

/// The kinds of lines of a listing, as MET has them.
fn kinds(listing: &str) -> impl Iterator<Item = String> + '_ {
    listing.lines().map(|line| {
        let mut words = line.split(' ').skip(if line.starts_with("scene") { 0 } else { 1 });
        match words.next() {
            Some("scene") => line.to_string(),
            Some("refused") => format!("refused {}", words.next().unwrap_or("")),
            other => other.unwrap_or("").to_string(),
        }
    })
}

/// What one file showed: the kinds of its lines, and how the program answered it wrongly, if it did.
struct Shown {
    kinds: Vec<String>,
    fault: Option<String>,
}

fn shown(program: &[String], file: &[u8]) -> Shown {
    let expected = listing(file);
    let fault = fault(program, file, &expected).map(|found| {
        let hex: String = file.iter().take(400).map(|byte| format!("{byte:02x}")).collect();
        format!("FAULT on the {} bytes {hex}\n  expected\n{expected}  {found}", file.len())
    });
    Shown { kinds: kinds(&expected).collect(), fault }
}

/// Each file's, with as many programs at a time as the machine has processors.
fn all_shown(program: &[String], files: &[&Vec<u8>]) -> Vec<Shown> {
    let next = AtomicUsize::new(0);
    let workers = thread::available_parallelism().map_or(1, |n| n.get());
    let work = || {
        let mut mine = Vec::new();
        while let Some(file) = files.get(next.fetch_add(1, Ordering::Relaxed)) {
            mine.push(shown(program, file));
        }
        mine
    };
    thread::scope(|scope| {
        let started: Vec<_> = (0..workers).map(|_| scope.spawn(work)).collect();
        started.into_iter().flat_map(|worker| worker.join().expect("a worker ends")).collect()
    })
}

/// Runs the program on every file, its damaged copies and random scenes. Answers whether all is well.
pub fn test(files: &[String], program: &[String]) -> bool {
    let good: Vec<Vec<u8>> = files.iter().map(|name| read(name)).collect();
    let mut source = Source::new(10);
    let sizes = (1..=100).chain([256, 257, 500, MOST, MOST]);
    let randoms: Vec<Vec<u8>> = sizes.map(|count| random(&mut source, count).bytes()).collect();
    let copies: Vec<Vec<u8>> = good.iter().flat_map(|file| damaged(file)).collect();
    let all: Vec<&Vec<u8>> = good.iter().chain(&copies).chain(&randoms).collect();

    let shown = all_shown(program, &all);
    let faults: Vec<&String> = shown.iter().filter_map(|one| one.fault.as_ref()).collect();
    for fault in faults.iter().take(5) {
        println!("{fault}");
    }
    let mut met: BTreeMap<String, u64> = MET.iter().map(|name| (name.to_string(), 0)).collect();
    for kind in shown.iter().flat_map(|one| &one.kinds) {
        met.entry(kind.clone()).and_modify(|n| *n += 1);
    }
    let counts: Vec<String> = met.iter().map(|(name, n)| format!("{name}: {n}")).collect();
    println!("{} scenes, {}; {} faults", shown.len(), counts.join(", "), faults.len());
    shown.len() == all.len() && faults.is_empty() && met.values().all(|&n| n > 0)
}

fn read(name: &str) -> Vec<u8> {
    std::fs::read(Path::new(name)).unwrap_or_else(|e| panic!("{name}: {e}"))
}
