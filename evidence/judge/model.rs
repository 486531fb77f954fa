//! What the kernel must answer, and what every lent word must be afterwards: the table of refusals of document 01, the ids of the test
//! Rust, the words of LAYOUT.md. It follows any list of operations, so that a list can be cut down and judged again.

use crate::counts::Counts;
use crate::operation::{Operation, Operation::*, SLICES};
use crate::references::{Reading, References};
use crate::soundness::{self, WIDEST};
use crate::words::{Record, Room, Words, HELD};

/// What an operation must write.
#[derive(Clone, PartialEq, Debug)]
pub enum Answer {
    Nothing,
    Number(u32),
    Id {
        number: u32,
        id: u32,
    },
    Told {
        number: u32,
        yes: bool,
    },
    Counted {
        number: u32,
        nodes: usize,
        edges: usize,
    },
    Shown(String),
}

impl Answer {
    /// The number that the call told, 0 if it has none.
    pub fn number(&self) -> u32 {
        match *self {
            Answer::Number(number) | Answer::Id { number, .. } => number,
            Answer::Told { number, .. } | Answer::Counted { number, .. } => number,
            Answer::Nothing | Answer::Shown(_) => 0,
        }
    }

    /// The line, if one is written.
    pub fn line(&self) -> Option<String> {
        match self {
            Answer::Nothing => None,
            Answer::Number(number) => Some(number.to_string()),
            Answer::Id { number, id } => Some(format!("{number} {id}")),
            Answer::Told { number, yes } => Some(format!("{number} {}", u32::from(*yes))),
            Answer::Counted {
                number,
                nodes,
                edges,
            } => Some(format!("{number} {nodes} {edges}")),
            Answer::Shown(line) => Some(line.clone()),
        }
    }
}

pub struct Model {
    words: Words,
    reading: Reading,
    /// The nodes of the table when it was last known to be sound, and how many edges they have.
    records: Vec<Record>,
    edges: usize,
    references: References,
    /// Whether the words are sound, if that is known since the last poke.
    sound: Option<bool>,
    pub counts: Counts,
    /// Where the references say different things: never, unless the test Rust is at fault.
    pub objection: Option<String>,
}

impl Model {
    /// Nothing lent, every place 0.
    pub fn new() -> Model {
        Model {
            words: Words::zero([0; SLICES]),
            reading: Reading {
                places: [0; 32],
                bools: 0,
            },
            records: Vec::new(),
            edges: 0,
            references: References::of(&[]),
            sound: Some(true),
            counts: Counts::default(),
            objection: None,
        }
    }

    pub fn words(&self) -> &Words {
        &self.words
    }

    pub fn places(&self) -> &[i64; 32] {
        &self.reading.places
    }

    pub fn records(&self) -> &[Record] {
        &self.records
    }

    /// Follows an operation and says what it must write.
    pub fn follow(&mut self, operation: &Operation) -> Answer {
        let answer = match *operation {
            Lend { lengths } => self.lend(lengths),
            Poke { slice, word, value } => self.poke(slice, word, value),
            Place { variable, place } => {
                self.reading.places[variable] = place;
                Answer::Nothing
            }
            Show => {
                self.counts.words += self.words.count() as u64;
                Answer::Shown(self.words.shown())
            }
            _ => self.call(operation),
        };
        if operation.is_call() {
            self.counts.count(operation, answer.number());
        }
        answer
    }

    /// New slices, all zero: the empty table, if the lengths are allowed.
    fn lend(&mut self, lengths: [usize; SLICES]) -> Answer {
        let mut held = lengths;
        for (length, most) in held.iter_mut().zip(HELD) {
            *length = (*length).min(most);
        }
        self.words = Words::zero(held);
        self.adopt(Vec::new());
        self.sound = Some(true);
        Answer::Nothing
    }

    fn poke(&mut self, slice: usize, word: usize, value: i64) -> Answer {
        self.words.set(slice, word, value);
        if slice < 4 {
            self.sound = None;
        }
        Answer::Nothing
    }

    /// Takes the nodes of a sound table for the nodes there are.
    fn adopt(&mut self, records: Vec<Record>) {
        self.references = References::of(&records);
        self.edges = records.iter().map(|record| record.edges.len()).sum();
        self.records = records;
    }

    /// Whether the table is sound. A table that was changed into another sound one is taken as it is.
    fn is_sound(&mut self, room: Room) -> bool {
        if let Some(sound) = self.sound {
            return sound;
        }
        let found = soundness::records(&self.words, room);
        let sound = found.is_some();
        self.sound = Some(sound);
        match found {
            // The words were put back.
            Some(records) if records == self.records => return true,
            Some(records) => self.adopt(records),
            None => {}
        }
        self.counts.damaged += 1;
        self.counts.still_sound += u64::from(sound);
        sound
    }

    /// The number of a call's refusal by its checks, 1 to 5, or 0, in their order.
    fn refusal(&mut self, call: &Operation) -> u32 {
        let room = match self.words.room() {
            Some(room) => room,
            None => return 1,
        };
        if call.takes_memo() && !self.words.memo_fits(room) {
            return 1;
        }
        if *call == Fresh {
            return 0;
        }
        if !self.is_sound(room) {
            return 2;
        }
        let used = self.records.len() as u32;
        if call.ids().iter().any(|id| id / 2 > used) {
            return 3;
        }
        match call.variable() {
            Some((variable, allowed)) if !allowed.contains(&variable) => return 4,
            _ => {}
        }
        match call {
            Evaluate { .. } if !self.reading.is_within() => 5,
            _ => 0,
        }
    }

    /// A call of the kernel.
    fn call(&mut self, call: &Operation) -> Answer {
        let number = self.refusal(call);
        match *call {
            Fresh => self.fresh(number),
            Check if number == 0 => Answer::Counted {
                number,
                nodes: self.records.len(),
                edges: self.edges,
            },
            Check => Answer::Counted {
                number,
                nodes: 0,
                edges: 0,
            },
            Evaluate { bools, id } if number == 0 => self.evaluate(bools, id),
            Disjoint { x, y } if number == 0 => self.disjoint(x, y),
            Evaluate { .. } | Disjoint { .. } => Answer::Told { number, yes: false },
            _ if number == 0 => self.make(call),
            _ => Answer::Id { number, id: 1 },
        }
    }

    fn fresh(&mut self, number: u32) -> Answer {
        if number == 0 {
            self.words.make_fresh();
            self.adopt(Vec::new());
            self.sound = Some(true);
        }
        Answer::Number(number)
    }

    fn evaluate(&mut self, bools: u32, id: u32) -> Answer {
        self.reading.bools = bools;
        let yes = self.references.value(id, &self.reading);
        let plain = self.references.plain_value(id, &self.reading);
        let truth = self.references.truth(id, &self.reading);
        self.counts.readings += 1;
        self.counts.plain_readings += u64::from(plain.is_some());
        self.counts.defined_readings += u64::from(truth.is_some());
        self.expect_same("the plain Rust's reading", plain, yes);
        self.expect_same("the reading by definition", truth, yes);
        Answer::Told { number: 0, yes }
    }

    fn disjoint(&mut self, x: u32, y: u32) -> Answer {
        let yes = self.references.disjoint(x, y);
        let plain = self.references.plain_disjoint(x, y);
        self.counts.disjointness += 1;
        self.counts.plain_disjointness += u64::from(plain.is_some());
        self.expect_same("the plain Rust's disjointness", plain, yes);
        Answer::Told { number: 0, yes }
    }

    fn expect_same(&mut self, what: &str, other: Option<bool>, yes: bool) {
        match other {
            Some(other) if other != yes => {
                self.objection = Some(format!("{what} is {other}, the changed Rust's {yes}"));
            }
            _ => {}
        }
    }

    /// A call that makes an id, its checks passed: done, or "no room".
    fn make(&mut self, call: &Operation) -> Answer {
        let room = self.words.room().expect("the lengths were looked at");
        if call.takes_memo() {
            self.words.memo.fill(0);
        }
        let id = self.references.make(call);
        let known = self.records.len();
        let new: Vec<Record> = (known..self.references.count())
            .map(|n| self.references.record(n))
            .collect();
        if !self.fits(room, &new) {
            self.references.take_back(&self.records);
            return Answer::Id { number: 6, id: 1 };
        }
        for record in new {
            self.words.append(room, &self.records, self.edges, &record);
            self.edges += record.edges.len();
            self.records.push(record);
        }
        self.references.follow(call, id);
        Answer::Id { number: 0, id }
    }

    /// Whether new nodes fit the room and the 64 edges of a node. Every new node is reached from the answer, so there is no other way.
    fn fits(&self, room: Room, new: &[Record]) -> bool {
        let edges: usize = new.iter().map(|record| record.edges.len()).sum();
        self.records.len() + new.len() <= room.nodes
            && self.edges + edges <= room.edges
            && new.iter().all(|record| record.edges.len() <= WIDEST)
    }
}
