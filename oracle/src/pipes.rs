//! A program under test over pipes: it gets calls in blocks, and each answer is held to what goes with its call.

use std::io::{Read, Write};
use std::process::{Child, Command, Stdio};
use std::sync::mpsc::{sync_channel, Receiver};
use std::thread;

use crate::calls::{Call, Packer};
use crate::differences::Differences;
use crate::words::{answer_from, Words};

/// A call with what its answer is held to.
pub trait Asked: Send + 'static {
    fn call(&self) -> &Call;
}

/// What holds answers to what goes with their calls, and counts the differences.
pub trait Holder<A>: Send + 'static {
    fn hold(&mut self, asked: &A, answer: &Words);
    fn differences(&mut self) -> &mut Differences;
}

/// How many blocks may be under way.
const UNDER_WAY: usize = 8;

/// Asks the program all of the calls. Where `first` is set it ends at the first difference.
pub fn ask<A: Asked, H: Holder<A>>(program: &[String], all: impl Iterator<Item = A>, first: bool, holder: H) -> H {
    let mut child = start(program);
    let mut to_program = child.stdin.take().expect("standard input is a pipe");
    let from_program = child.stdout.take().expect("standard output is a pipe");
    let (send_block, blocks) = sync_channel::<Vec<u8>>(UNDER_WAY);
    let (send_asked, all_asked) = sync_channel::<Vec<A>>(UNDER_WAY);
    let writer = thread::spawn(move || {
        // a program that ended early is told by the reader
        for block in blocks {
            if to_program.write_all(&block).is_err() {
                break;
            }
        }
    });
    let reader = thread::spawn(move || hold_all(from_program, all_asked, first, holder));

    let mut packer = Packer::new();
    let mut of_block = Vec::new();
    for asked in all {
        if let Some(block) = packer.take(asked.call()) {
            let sent = send_asked.send(std::mem::take(&mut of_block)).is_ok() && send_block.send(block).is_ok();
            if !sent {
                break;
            }
        }
        of_block.push(asked);
    }
    let _ = send_asked.send(of_block);
    let _ = send_block.send(packer.finish());
    drop(send_asked);
    drop(send_block);
    let mut holder = reader.join().expect("the reader does not panic");
    let differs = holder.differences().count() > 0;
    if differs {
        let _ = child.kill();
    }
    writer.join().expect("the writer does not panic");
    match child.wait() {
        Ok(status) if status.success() || differs => {}
        Ok(status) => holder.differences().broke(&format!("ended with {status}")),
        Err(e) => holder.differences().broke(&e.to_string()),
    }
    holder
}

fn start(program: &[String]) -> Child {
    let mut command = Command::new(&program[0]);
    command.args(&program[1..]).stdin(Stdio::piped()).stdout(Stdio::piped());
    command.spawn().unwrap_or_else(|e| panic!("{}: {e}", program[0]))
}

/// Reads the answers of each block in turn.
fn hold_all<A: Asked, H: Holder<A>>(mut from: impl Read, blocks: Receiver<Vec<A>>, first: bool, mut holder: H) -> H {
    let mut bytes = Vec::new();
    for block in blocks {
        let size = |asked: &A| 4 * asked.call().function.answers();
        bytes.resize(block.iter().map(size).sum(), 0);
        if let Err(e) = from.read_exact(&mut bytes) {
            holder.differences().broke(&format!("gave too few answers: {e}"));
            return holder;
        }
        let mut at = 0;
        for asked in &block {
            let end = at + size(asked);
            holder.hold(asked, &answer_from(&bytes[at..end]));
            at = end;
        }
        if first && holder.differences().count() > 0 {
            return holder;
        }
    }
    match from.read(&mut [0]) {
        Ok(0) => {}
        _ => holder.differences().broke("gave answers to no call"),
    }
    holder
}
