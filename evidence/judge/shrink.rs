//! Cuts a sequence that was answered wrongly down to a small one.

use std::time::{Duration, Instant};

use crate::model::Model;
use crate::operation::Operation;
use crate::program::Program;

/// Where answers differ from what they must be.
pub struct Difference {
    /// The number of the operation, from 0.
    pub operation: usize,
    pub expected: String,
    pub found: String,
}

/// The first difference in the answers to some operations, if there is one.
pub fn difference(program: &Program, operations: &[Operation]) -> Option<Difference> {
    let mut model = Model::new();
    let mut answers = program.answers(operations).into_iter();
    for (n, operation) in operations.iter().enumerate() {
        let answer = model.follow(operation);
        if let Some(objection) = model.objection.take() {
            let expected = "the references agree".to_string();
            return Some(Difference {
                operation: n,
                expected,
                found: objection,
            });
        }
        if let Some(expected) = answer.line() {
            let found = answers
                .next()
                .unwrap_or_else(|| "nothing: the program has ended".to_string());
            if found != expected {
                return Some(Difference {
                    operation: n,
                    expected,
                    found,
                });
            }
        }
    }
    None
}

/// How long a sequence is cut down at most.
const LONGEST: Duration = Duration::from_secs(60);

/// Drops operations as long as a difference stays: long stretches first, then one by one, until none can go or time is up.
pub fn smallest(program: &Program, operations: &[Operation]) -> Vec<Operation> {
    let end = Instant::now() + LONGEST;
    let mut kept = operations.to_vec();
    let mut stretch = (kept.len() / 2).max(1);
    loop {
        let before = kept.len();
        let mut at = 0;
        while at < kept.len() {
            if Instant::now() > end {
                return kept;
            }
            let mut shorter = kept.clone();
            shorter.drain(at..(at + stretch).min(kept.len()));
            match difference(program, &shorter) {
                Some(found) => {
                    shorter.truncate(found.operation + 1);
                    kept = shorter;
                }
                None => at += stretch,
            }
        }
        if stretch == 1 && kept.len() == before {
            return kept;
        }
        stretch = (stretch / 2).max(1);
    }
}
