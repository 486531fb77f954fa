//! Writes a sequence of operations, one after the other, beside what each must answer. What it writes next depends on the answers so far:
//! operands are mostly ids that earlier calls answered.

use std::ops::Bound;

use source::ranges::{HIGHEST, LOWEST};
use source::stand_ins::MarkerOperator;

use crate::damage;
use crate::model::{Answer, Model};
use crate::operation::{Bounds, Operation, Operation::*};
use crate::random::Random;
use crate::words::{memo_entry, memo_head, memo_set, Room};

const OPERATORS: [MarkerOperator; 6] = [
    MarkerOperator::Equal,
    MarkerOperator::NotEqual,
    MarkerOperator::LessThan,
    MarkerOperator::LessEqual,
    MarkerOperator::GreaterThan,
    MarkerOperator::GreaterEqual,
];

/// A sequence, and the lines that it must bring forth.
pub struct Sequence {
    pub operations: Vec<Operation>,
    pub lines: Vec<String>,
}

/// How long sequences are, and when every lent word is asked for.
#[derive(Clone, Copy, PartialEq)]
pub enum Style {
    /// For runs: the words after each call that may write.
    Full,
    /// For the recorded list: a third of the steps, the words after each refusal and at the end.
    Brief,
}

/// Which variables and keys a sequence uses, and whether it leaves the domain of the plain Rust.
#[derive(Default)]
pub struct Matter {
    pub ranges: Vec<u32>,
    pub booleans: Vec<u32>,
    pub keys: Vec<i32>,
    pub widens: bool,
}

pub struct Composer<'r> {
    pub random: &'r mut Random,
    pub model: Model,
    pub sequence: Sequence,
    pub matter: Matter,
    /// Ids that calls answered, each once, terminals left out.
    pub ids: Vec<u32>,
    style: Style,
}

impl<'r> Composer<'r> {
    pub fn new(random: &'r mut Random, style: Style) -> Composer<'r> {
        Composer {
            random,
            model: Model::new(),
            sequence: Sequence {
                operations: Vec::new(),
                lines: Vec::new(),
            },
            matter: Matter::default(),
            ids: Vec::new(),
            style,
        }
    }

    /// How often a step is taken: a number between two, and less in a brief sequence.
    pub fn times(&mut self, fewest: usize, most: usize) -> usize {
        let times = self.random.between(fewest, most);
        match self.style {
            Style::Full => times,
            Style::Brief => times / 3 + 1,
        }
    }

    /// Writes an operation and what it must answer.
    pub fn put(&mut self, operation: Operation) -> Answer {
        let answer = self.model.follow(&operation);
        self.sequence.operations.push(operation);
        self.sequence.lines.extend(answer.line());
        answer
    }

    /// Writes a call, and asks for the words afterwards.
    pub fn call(&mut self, call: Operation) -> Answer {
        let answer = self.put(call);
        match answer {
            Answer::Id { number: 0, id } if id > 1 && !self.ids.contains(&id) => self.ids.push(id),
            _ => {}
        }
        let shown = match self.style {
            Style::Full => call.makes() || call == Fresh || answer.number() != 0,
            Style::Brief => answer.number() != 0,
        };
        if shown {
            self.put(Show);
        }
        answer
    }

    /// Writes a call that makes an id, and returns the id: FALSE beside a refusal.
    pub fn make(&mut self, call: Operation) -> u32 {
        match self.call(call) {
            Answer::Id { id, .. } => id,
            _ => unreachable!("only calls that make an id are handed here"),
        }
    }

    /// Lends a room. No answer goes by the memo's length, so that is any that is allowed: the shortest and the longest often.
    pub fn lend(&mut self, room: Room) {
        let sets = match self.random.below(4) {
            0 => 1,
            1 => room.nodes.min(8),
            2 => self.random.between(1, room.nodes),
            _ => room.nodes,
        };
        let mut lengths = room.lengths();
        lengths[4] = Room::memo_of(sets);
        self.put(Lend { lengths });
        self.ids.clear();
    }

    /// Ends the sequence: every word once more, and every place back to 0, as the next sequence takes it.
    pub fn finish(mut self) -> (Sequence, Model) {
        self.put(Show);
        for variable in 0..32 {
            if self.model.places()[variable] != 0 {
                self.put(Place { variable, place: 0 });
            }
        }
        (self.sequence, self.model)
    }

    /// An id that the table knows: mostly one that a call answered, and one of the last few as often as any.
    pub fn id(&mut self) -> u32 {
        let used = self.model.records().len();
        let id = if self.ids.is_empty() || self.random.chance(15) {
            2 * self.random.below(used + 1) as u32
        } else {
            let recent = self.ids.len().saturating_sub(8);
            let from = if self.random.chance(50) { recent } else { 0 };
            self.random.pick(&self.ids[from..])
        };
        id ^ u32::from(self.random.chance(40))
    }

    fn range_variable(&mut self) -> u32 {
        self.random.pick(&self.matter.ranges)
    }

    fn boolean_variable(&mut self) -> u32 {
        self.random.pick(&self.matter.booleans)
    }

    fn key(&mut self) -> i32 {
        self.random.pick(&self.matter.keys)
    }

    fn bound(&mut self) -> Bound<i32> {
        let key = self.key();
        match self.random.below(5) {
            0 => Bound::Unbounded,
            1 | 2 => Bound::Included(key),
            _ => Bound::Excluded(key),
        }
    }

    /// Two bounds. Crossed ones are turned round, mostly.
    fn bounds(&mut self) -> Bounds {
        let (lower, upper) = (self.bound(), self.bound());
        let bounds = Bounds { lower, upper };
        if bounds.is_empty() && self.random.chance(80) {
            return Bounds {
                lower: upper,
                upper: lower,
            };
        }
        bounds
    }

    /// Bounds to narrow by: not empty, unless the sequence leaves the domain.
    fn narrowing_bounds(&mut self) -> Bounds {
        let mut bounds = self.bounds();
        while bounds.is_empty() && !self.matter.widens {
            bounds = self.bounds();
        }
        bounds
    }

    /// A condition of a variable that the sequence uses.
    pub fn condition(&mut self) -> Operation {
        let all = self.matter.ranges.len() + self.matter.booleans.len();
        if self.random.below(all) >= self.matter.ranges.len() {
            return Boolean {
                variable: self.boolean_variable(),
            };
        }
        let variable = self.range_variable();
        if self.random.chance(65) {
            let operator = self.random.pick(&OPERATORS);
            Comparison {
                variable,
                operator,
                key: self.key(),
            }
        } else {
            Range {
                variable,
                bounds: self.bounds(),
            }
        }
    }

    /// Any call that makes an id.
    pub fn making_call(&mut self) -> Operation {
        match self.random.below(100) {
            0..=19 => self.condition(),
            20..=49 => self.conjunction(),
            50..=69 => self.disjunction(),
            70..=79 => self.restriction(),
            80..=91 => self.narrowing(),
            _ if self.matter.widens => self.widening(),
            _ => self.conjunction(),
        }
    }

    /// Two ids, of different nodes where it can be had at the second go.
    fn pair(&mut self) -> (u32, u32) {
        let (x, y) = (self.id(), self.id());
        if x / 2 == y / 2 {
            return (x, self.id());
        }
        (x, y)
    }

    fn conjunction(&mut self) -> Operation {
        let (x, y) = self.pair();
        And { x, y }
    }

    fn disjunction(&mut self) -> Operation {
        let (x, y) = self.pair();
        Or { x, y }
    }

    fn restriction(&mut self) -> Operation {
        let some = if self.matter.booleans.is_empty() || self.random.chance(5) {
            &self.matter.ranges
        } else {
            &self.matter.booleans
        };
        let variable = if some.is_empty() {
            32
        } else {
            self.random.pick(some)
        };
        Restrict {
            id: self.id(),
            variable,
            value: self.random.chance(50),
        }
    }

    /// Narrowing, or restriction where the sequence has no range variable.
    fn narrowing(&mut self) -> Operation {
        if self.matter.ranges.is_empty() {
            return self.restriction();
        }
        Narrow {
            id: self.id(),
            variable: self.range_variable(),
            bounds: self.narrowing_bounds(),
        }
    }

    fn widening(&mut self) -> Operation {
        if self.matter.ranges.is_empty() {
            return self.disjunction();
        }
        Widen {
            id: self.id(),
            variable: self.range_variable(),
            bounds: self.bounds(),
        }
    }

    /// Any call, `fresh` left out.
    pub fn any_call(&mut self) -> Operation {
        match self.random.below(100) {
            0..=4 => Check,
            5..=14 => Disjoint {
                x: self.id(),
                y: self.id(),
            },
            15..=24 => self.reading_call(),
            _ => self.making_call(),
        }
    }

    fn reading_call(&mut self) -> Operation {
        Evaluate {
            bools: self.random.bits() as u32,
            id: self.id(),
        }
    }

    /// A place about the keys, or at an end.
    fn place(&mut self) -> i64 {
        if self.matter.keys.is_empty() || self.random.chance(5) {
            return self.random.pick(&[LOWEST, HIGHEST]);
        }
        let beside = self.random.below(3) as i64 - 1;
        (2 * i64::from(self.key()) + beside).clamp(LOWEST, HIGHEST)
    }

    /// Moves a place or two and reads an id there.
    pub fn read(&mut self, id: u32) {
        for _ in 0..self.random.between(1, 2) {
            if !self.matter.ranges.is_empty() {
                let variable = self.range_variable() as usize;
                let place = self.place();
                self.put(Place { variable, place });
            }
        }
        let bools = self.random.bits() as u32;
        self.put(Evaluate { bools, id });
    }

    /// A call that makes an id, what it means read off, and now and then junk in the memo before it.
    pub fn step(&mut self) {
        let call = self.making_call();
        if call.takes_memo() && self.random.chance(15) {
            self.junk_in_memo(&call);
        }
        let answer = self.call(call);
        if let Answer::Id { number: 0, id } = answer {
            for _ in 0..self.random.below(3) {
                self.read(id);
            }
        }
        if self.random.chance(25) {
            let (x, y) = (self.id(), self.id());
            self.call(Disjoint { x, y });
        }
    }

    /// A head and an entry that a memo which is believed would answer by, and any other word.
    pub fn junk_in_memo(&mut self, call: &Operation) {
        let sets = Room::sets_of(self.model.words().memo.len());
        if sets == 0 {
            return;
        }
        let (x, y) = match *call {
            And { x, y } => (x.min(y), x.max(y)),
            Or { x, y } => ((x ^ 1).min(y ^ 1), (x ^ 1).max(y ^ 1)),
            Restrict { id, .. } | Narrow { id, .. } | Widen { id, .. } => (id, 0),
            _ => return,
        };
        let in_use = self.random.pick(&[1, sets]);
        let head = memo_head(in_use, self.random.below(3) as u64);
        self.junk_word(0, head);
        let word = memo_set(x, y, in_use) + self.random.between(1, 7);
        let entry = memo_entry(self.random.below(192) as u64, x, y, self.id());
        self.junk_word(word, entry);
        let word = self.random.below(Room::memo_of(sets));
        let value = damage::value(self.random, 4, entry);
        self.junk_word(word, value);
    }

    fn junk_word(&mut self, word: usize, value: i64) {
        self.put(Poke {
            slice: 4,
            word,
            value,
        });
    }
}
