//! What was compared, for the last line of a run.

use std::fmt;

use crate::operation::Operation;

/// The letters of the calls, and their names.
const CALLS: [(char, &str); 12] = [
    ('k', "check"),
    ('f', "fresh"),
    ('e', "evaluate"),
    ('c', "comparison"),
    ('r', "range"),
    ('b', "bool"),
    ('a', "and"),
    ('o', "or"),
    ('d', "disjoint"),
    ('t', "restrict"),
    ('n', "narrow"),
    ('w', "widen"),
];

#[derive(Clone, Default)]
pub struct Counts {
    pub sequences: u64,
    calls: [u64; CALLS.len()],
    /// Answers by number, 0 to 6.
    numbers: [u64; 7],
    pub words: u64,
    pub readings: u64,
    pub plain_readings: u64,
    pub defined_readings: u64,
    pub disjointness: u64,
    pub plain_disjointness: u64,
    /// Tables with a word or more changed, and those of them that were sound.
    pub damaged: u64,
    pub still_sound: u64,
}

impl Counts {
    pub fn operations(&self) -> u64 {
        self.calls.iter().sum()
    }

    /// Counts a call and the number that it answers.
    pub fn count(&mut self, call: &Operation, number: u32) {
        let letter = call.letter();
        let at = CALLS.iter().position(|(name, _)| *name == letter);
        self.calls[at.expect("a call has a name")] += 1;
        self.numbers[number as usize] += 1;
    }

    pub fn add(&mut self, other: &Counts) {
        self.sequences += other.sequences;
        for (mine, theirs) in self.calls.iter_mut().zip(other.calls) {
            *mine += theirs;
        }
        for (mine, theirs) in self.numbers.iter_mut().zip(other.numbers) {
            *mine += theirs;
        }
        self.words += other.words;
        self.readings += other.readings;
        self.plain_readings += other.plain_readings;
        self.defined_readings += other.defined_readings;
        self.disjointness += other.disjointness;
        self.plain_disjointness += other.plain_disjointness;
        self.damaged += other.damaged;
        self.still_sound += other.still_sound;
    }
}

impl fmt::Display for Counts {
    fn fmt(&self, f: &mut fmt::Formatter<'_>) -> fmt::Result {
        write!(
            f,
            "{} operations in {} sequences:",
            self.operations(),
            self.sequences
        )?;
        for ((_, name), count) in CALLS.iter().zip(self.calls) {
            write!(f, " {name} {count}")?;
        }
        write!(f, "; answers")?;
        for (number, count) in self.numbers.iter().enumerate() {
            write!(f, " {number}: {count}")?;
        }
        let Counts {
            words,
            readings,
            plain_readings,
            defined_readings,
            ..
        } = self;
        write!(f, "; {words} words; {readings} readings")?;
        write!(
            f,
            " ({plain_readings} with the plain Rust, {defined_readings} with the definition)"
        )?;
        let Counts {
            disjointness,
            plain_disjointness,
            damaged,
            still_sound,
            ..
        } = self;
        write!(
            f,
            "; {disjointness} of disjointness ({plain_disjointness} with the plain Rust)"
        )?;
        write!(f, "; {damaged} damaged tables, {still_sound} of them sound")
    }
}
