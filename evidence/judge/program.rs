//! The replay program: started, written to and listened to.

use std::io::{BufRead, BufReader, Read, Write};
use std::process::{Child, Command, Stdio};
use std::sync::mpsc::Receiver;

use crate::composer::Sequence;
use crate::operation::Operation;

/// The words that start the program: perhaps a runner, then the program.
pub struct Program {
    pub words: Vec<String>,
}

/// The operations as the program reads them.
pub fn text(operations: &[Operation]) -> String {
    operations
        .iter()
        .map(|operation| format!("{operation}\n"))
        .collect()
}

impl Program {
    pub fn start(&self) -> Child {
        let started = Command::new(&self.words[0])
            .args(&self.words[1..])
            .stdin(Stdio::piped())
            .stdout(Stdio::piped())
            .spawn();
        match started {
            Ok(child) => child,
            Err(error) => {
                eprintln!("{} does not start: {error}", self.words.join(" "));
                std::process::exit(2);
            }
        }
    }

    /// What a new run of the program writes, in lines.
    pub fn answers(&self, operations: &[Operation]) -> Vec<String> {
        let mut child = self.start();
        let mut stdin = child.stdin.take().expect("stdin is a pipe");
        let input = text(operations);
        // A program that ended early closes its pipe; what it wrote tells.
        let writer = std::thread::spawn(move || stdin.write_all(input.as_bytes()).is_ok());
        let mut output = String::new();
        let mut stdout = child.stdout.take().expect("stdout is a pipe");
        stdout
            .read_to_string(&mut output)
            .expect("the answers are text");
        writer.join().expect("writing does not panic");
        child.wait().expect("the program was started here");
        output.lines().map(str::to_string).collect()
    }
}

/// Reads the program's answers to one sequence after the other, and returns the first sequence that was answered wrongly.
pub fn first_wrong(output: impl Read, sequences: Receiver<Sequence>) -> Option<Sequence> {
    let mut output = BufReader::with_capacity(1 << 16, output);
    let mut line = String::new();
    for sequence in sequences {
        for expected in &sequence.lines {
            line.clear();
            let read = output.read_line(&mut line).is_ok();
            if !read || line.strip_suffix('\n') != Some(expected) {
                return Some(sequence);
            }
        }
    }
    None
}
