//! The operations of the replay protocol, as data and as lines of text.

use std::fmt;
use std::ops::Bound;

use source::ranges::{first_place, last_place};
use source::stand_ins::MarkerOperator;

/// A range by two bounds.
#[derive(Clone, Copy, PartialEq, Debug)]
pub struct Bounds {
    pub lower: Bound<i32>,
    pub upper: Bound<i32>,
}

impl Bounds {
    pub fn first(self) -> i64 {
        first_place(self.lower)
    }

    pub fn last(self) -> i64 {
        last_place(self.upper)
    }

    pub fn is_empty(self) -> bool {
        self.first() > self.last()
    }

    pub fn holds(self, place: i64) -> bool {
        self.first() <= place && place <= self.last()
    }
}

/// How many slices are lent: nodes, children, cuts, index, memo, numbered in this order.
pub const SLICES: usize = 5;

#[derive(Clone, Copy, PartialEq, Debug)]
#[rustfmt::skip]
pub enum Operation {
    // What the program is set up with.
    Lend { lengths: [usize; SLICES] },
    Poke { slice: usize, word: usize, value: i64 },
    Place { variable: usize, place: i64 },
    Show,
    // Calls of the kernel.
    Check,
    Fresh,
    Evaluate { bools: u32, id: u32 },
    Comparison { variable: u32, operator: MarkerOperator, key: i32 },
    Range { variable: u32, bounds: Bounds },
    Boolean { variable: u32 },
    And { x: u32, y: u32 },
    Or { x: u32, y: u32 },
    Disjoint { x: u32, y: u32 },
    Restrict { id: u32, variable: u32, value: bool },
    Narrow { id: u32, variable: u32, bounds: Bounds },
    Widen { id: u32, variable: u32, bounds: Bounds },
}

use Operation::*;

impl Operation {
    /// The letter of the line.
    pub fn letter(&self) -> char {
        match self {
            Lend { .. } => 'l',
            Poke { .. } => 'p',
            Place { .. } => 'q',
            Show => 's',
            Check => 'k',
            Fresh => 'f',
            Evaluate { .. } => 'e',
            Comparison { .. } => 'c',
            Range { .. } => 'r',
            Boolean { .. } => 'b',
            And { .. } => 'a',
            Or { .. } => 'o',
            Disjoint { .. } => 'd',
            Restrict { .. } => 't',
            Narrow { .. } => 'n',
            Widen { .. } => 'w',
        }
    }

    /// Whether the kernel is called.
    pub fn is_call(&self) -> bool {
        !matches!(self, Lend { .. } | Poke { .. } | Place { .. } | Show)
    }

    /// Whether the call is lent a memo.
    pub fn takes_memo(&self) -> bool {
        matches!(
            self,
            And { .. } | Or { .. } | Restrict { .. } | Narrow { .. } | Widen { .. }
        )
    }

    /// Whether the call may add nodes, and so answers an id.
    pub fn makes(&self) -> bool {
        self.takes_memo() || matches!(self, Comparison { .. } | Range { .. } | Boolean { .. })
    }

    /// The ids that are handed in.
    pub fn ids(&self) -> Vec<u32> {
        match *self {
            And { x, y } | Or { x, y } | Disjoint { x, y } => vec![x, y],
            Evaluate { id, .. } => vec![id],
            Restrict { id, .. } | Narrow { id, .. } | Widen { id, .. } => vec![id],
            _ => vec![],
        }
    }

    /// The variable that is named, and the numbers that it may have.
    pub fn variable(&self) -> Option<(u32, std::ops::Range<u32>)> {
        match *self {
            Comparison { variable, .. } | Range { variable, .. } => Some((variable, 0..32)),
            Narrow { variable, .. } | Widen { variable, .. } => Some((variable, 0..32)),
            Boolean { variable } => Some((variable, 32..64)),
            Restrict { variable, .. } => Some((variable, 0..64)),
            _ => None,
        }
    }

    /// The same operation with each id replaced, if there is one for each.
    pub fn with_ids(self, mut name: impl FnMut(u32) -> Option<u32>) -> Option<Operation> {
        let mut changed = self;
        match &mut changed {
            And { x, y } | Or { x, y } | Disjoint { x, y } => {
                *x = name(*x)?;
                *y = name(*y)?;
            }
            Evaluate { id, .. } | Restrict { id, .. } | Narrow { id, .. } | Widen { id, .. } => {
                *id = name(*id)?
            }
            _ => {}
        }
        Some(changed)
    }

    /// The same operation with another variable, where it names one.
    pub fn with_variable(self, another: u32) -> Operation {
        let mut changed = self;
        match &mut changed {
            Comparison { variable, .. }
            | Range { variable, .. }
            | Boolean { variable }
            | Restrict { variable, .. }
            | Narrow { variable, .. }
            | Widen { variable, .. } => *variable = another,
            _ => {}
        }
        changed
    }
}

/// A bound as its kind and its key.
fn numbers(bound: Bound<i32>) -> (u32, i32) {
    match bound {
        Bound::Unbounded => (0, 0),
        Bound::Included(key) => (1, key),
        Bound::Excluded(key) => (2, key),
    }
}

impl fmt::Display for Bounds {
    fn fmt(&self, f: &mut fmt::Formatter<'_>) -> fmt::Result {
        let (lower_kind, lower) = numbers(self.lower);
        let (upper_kind, upper) = numbers(self.upper);
        write!(f, "{lower_kind} {lower} {upper_kind} {upper}")
    }
}

impl fmt::Display for Operation {
    fn fmt(&self, f: &mut fmt::Formatter<'_>) -> fmt::Result {
        write!(f, "{}", self.letter())?;
        match *self {
            Show | Check | Fresh => Ok(()),
            Lend {
                lengths: [n, c, z, i, m],
            } => write!(f, " {n} {c} {z} {i} {m}"),
            Poke { slice, word, value } => write!(f, " {slice} {word} {value}"),
            Place { variable, place } => write!(f, " {variable} {place}"),
            Evaluate { bools, id } => write!(f, " {bools} {id}"),
            Comparison {
                variable,
                operator,
                key,
            } => {
                write!(f, " {variable} {} {key}", operator as u32)
            }
            Range { variable, bounds } => write!(f, " {variable} {bounds}"),
            Boolean { variable } => write!(f, " {variable}"),
            And { x, y } | Or { x, y } | Disjoint { x, y } => write!(f, " {x} {y}"),
            Restrict {
                id,
                variable,
                value,
            } => write!(f, " {id} {variable} {}", value as u32),
            Narrow {
                id,
                variable,
                bounds,
            }
            | Widen {
                id,
                variable,
                bounds,
            } => {
                write!(f, " {id} {variable} {bounds}")
            }
        }
    }
}
