// What the workloads are written in: calls with operands that are answers of earlier calls, and the sides that answer them.
use crate::tables::Node;
use std::ops::Bound;
use std::time::{Duration, Instant};

/// An answer of an earlier call, by its number, or its negation. The ids of the base's nodes count as the first answers.
#[derive(Clone, Copy)]
pub struct Arg(pub u32);

impl Arg {
    /// The answer with this number.
    pub fn answer(number: usize) -> Arg {
        Arg(number as u32 * 2)
    }

    pub fn not(self) -> Arg {
        Arg(self.0 ^ 1)
    }

    /// The id that it stands for, on a side whose answers these are.
    fn id(self, answers: &[u32]) -> u32 {
        answers[self.0 as usize / 2] ^ self.0 % 2
    }
}

/// The two ends of a range.
pub type Ends = (Bound<i32>, Bound<i32>);

/// One call. An operator is its number in the order = != < <= > >=.
#[derive(Clone, Copy)]
pub enum Ask {
    Compare(u32, u32, i32),
    Range(u32, Ends),
    Boolean(u32),
    And(Arg, Arg),
    Or(Arg, Arg),
    Disjoint(Arg, Arg),
    Restrict(Arg, u32, bool),
    Narrow(Arg, u32, Ends),
    Widen(Arg, u32, Ends),
}

/// The operations, in ids of the side's own.
pub trait Side {
    fn compare(&mut self, v: u32, op: u32, key: i32) -> u32;
    fn range(&mut self, v: u32, ends: Ends) -> u32;
    fn boolean(&mut self, v: u32) -> u32;
    fn and(&mut self, x: u32, y: u32) -> u32;
    fn or(&mut self, x: u32, y: u32) -> u32;
    fn is_disjoint(&mut self, x: u32, y: u32) -> bool;
    fn restrict(&mut self, x: u32, v: u32, value: bool) -> u32;
    fn narrow(&mut self, x: u32, v: u32, ends: Ends) -> u32;
    fn widen(&mut self, x: u32, v: u32, ends: Ends) -> u32;

    fn answer(&mut self, ask: Ask, answers: &[u32]) -> u32 {
        match ask {
            Ask::Compare(v, op, key) => self.compare(v, op, key),
            Ask::Range(v, ends) => self.range(v, ends),
            Ask::Boolean(v) => self.boolean(v),
            Ask::And(x, y) => self.and(x.id(answers), y.id(answers)),
            Ask::Or(x, y) => self.or(x.id(answers), y.id(answers)),
            Ask::Disjoint(x, y) => self.is_disjoint(x.id(answers), y.id(answers)) as u32,
            Ask::Restrict(x, v, value) => self.restrict(x.id(answers), v, value),
            Ask::Narrow(x, v, ends) => self.narrow(x.id(answers), v, ends),
            Ask::Widen(x, v, ends) => self.widen(x.id(answers), v, ends),
        }
    }
}

/// Puts calls to a side, adds its answers, and says how long that took. Not inlined: bench/count counts what happens in here.
#[inline(never)]
pub fn put_to<S: Side>(side: &mut S, asks: &[Ask], answers: &mut Vec<u32>) -> Duration {
    answers.reserve(asks.len());
    let start = Instant::now();
    for ask in asks {
        // read as if anyone could have changed it, so that no side's compiler foresees the calls
        let ask = unsafe { std::ptr::read_volatile(ask) };
        let id = side.answer(ask, answers);
        answers.push(id);
    }
    start.elapsed()
}

/// What stands on a table when the timed calls begin.
#[derive(Clone, Copy, PartialEq)]
pub enum Kept {
    /// The operands only: the calls make their nodes.
    Operands,
    /// Also the nodes that the calls make, but no memory of having made them.
    Nodes,
    /// All that asking the same calls once before leaves behind: for the Rust also its cache.
    Everything,
}

/// A list of calls to be timed, and what comes before it.
pub struct Work {
    pub name: String,
    /// Room for nodes and for edges.
    pub room: (usize, usize),
    /// Nodes that are there before any call.
    pub base: Vec<Node>,
    /// Calls that make the operands.
    pub before: Vec<Ask>,
    /// The timed calls.
    pub asks: Vec<Ask>,
    pub kept: Kept,
    /// The Rust, which has no memo for it, would take hours: only the kernel is timed.
    pub alone: bool,
}

/// What a side keeps, and what it goes back to.
pub trait State {
    /// Begins with these nodes and this room.
    fn begin(&mut self, base: &[Node], room: (usize, usize));

    /// Puts calls to the side.
    fn put(&mut self, asks: &[Ask], answers: &mut Vec<u32>) -> Duration;

    /// Remembers how everything stands.
    fn keep(&mut self);

    /// Goes back to what was kept, with no memory of calls that were made before.
    fn restore(&mut self);

    /// The nodes that there are.
    fn nodes(&self) -> Vec<Node>;

    /// What an id says under a reading.
    fn holds(&self, id: u32, places: &[i64], bools: u32) -> bool;
}

/// A side at a workload.
pub struct Player {
    pub name: &'static str,
    pub state: Box<dyn State>,
    /// All answers of the last round, those that came before included.
    pub answers: Vec<u32>,
    known: usize,
}

impl Player {
    /// Asks all that comes before the timed calls, and keeps how everything stands then.
    pub fn prepared(name: &'static str, mut state: Box<dyn State>, work: &Work) -> Player {
        // the ids of the base's nodes
        let mut answers: Vec<u32> = (1..=work.base.len() as u32).map(|n| n * 2).collect();
        state.begin(&work.base, work.room);
        state.put(&work.before, &mut answers);
        let known = answers.len();
        if work.kept != Kept::Operands {
            state.put(&work.asks, &mut answers);
        }
        state.keep();
        Player {
            name,
            state,
            answers,
            known,
        }
    }

    /// Goes back to that, and times the calls.
    pub fn round(&mut self, work: &Work) -> Duration {
        if work.kept != Kept::Everything {
            self.state.restore();
        }
        self.answers.truncate(self.known);
        self.state.put(&work.asks, &mut self.answers)
    }

    /// The answers to the timed calls.
    pub fn last(&self) -> &[u32] {
        &self.answers[self.known..]
    }
}
