//! The two forms of the test Rust beside one another, over one table: `changed`, whose ids are the kernel's, and `plain`, with ids of its
//! own. And what an operation's answer must mean by its definition.

use std::collections::HashMap;

use source::ranges::{HIGHEST, LOWEST};
use source::stand_ins::MarkerOperator;
use source::{changed, plain};

use crate::operation::{Bounds, Operation, Operation::*};
use crate::words::Record;

/// A place for each range variable, and a bit for each boolean one.
#[derive(Clone, Copy)]
pub struct Reading {
    pub places: [i64; 32],
    pub bools: u32,
}

impl Reading {
    /// Whether every place lies within the end places.
    pub fn is_within(&self) -> bool {
        self.places
            .iter()
            .all(|place| (LOWEST..=HIGHEST).contains(place))
    }
}

/// What is asked of either form. The forms are types of two modules, so that this is what they have in common.
trait Form: Default {
    /// Does a call that makes an id.
    fn make(&self, call: &Operation) -> u32;
    fn disjoint(&self, x: u32, y: u32) -> bool;
    fn value(&self, id: u32, reading: &Reading) -> bool;
    /// Makes the node of a record.
    fn restore(&self, record: &Record) -> u32;
}

macro_rules! form {
    ($form:ident) => {
        impl Form for $form::Interner {
            fn make(&self, call: &Operation) -> u32 {
                let id = $form::NodeId::from_number;
                let mut form = self.lock();
                let made = match *call {
                    Comparison {
                        variable: v,
                        operator,
                        key,
                    } => form.comparison(v, operator, key),
                    Range {
                        variable: v,
                        bounds: b,
                    } => form.range(v, b.lower, b.upper),
                    Boolean { variable: v } => form.boolean(v),
                    And { x, y } => form.and(id(x), id(y)),
                    Or { x, y } => form.or(id(x), id(y)),
                    Restrict {
                        id: x,
                        variable: v,
                        value,
                    } => form.restrict_one(id(x), v, value),
                    Narrow {
                        id: x,
                        variable: v,
                        bounds: b,
                    } => form.simplify(id(x), v, b.lower, b.upper),
                    Widen {
                        id: x,
                        variable: v,
                        bounds: b,
                    } => form.complexify(id(x), v, b.lower, b.upper),
                    _ => unreachable!("only calls that make an id are handed here"),
                };
                made.number()
            }

            fn disjoint(&self, x: u32, y: u32) -> bool {
                let id = $form::NodeId::from_number;
                self.lock().is_disjoint(id(x), id(y))
            }

            fn value(&self, id: u32, reading: &Reading) -> bool {
                let id = $form::NodeId::from_number(id);
                self.shared.evaluate(id, &reading.places, reading.bools)
            }

            fn restore(&self, record: &Record) -> u32 {
                self.lock().node(record.variable, &record.edges).number()
            }
        }
    };
}

form!(changed);
form!(plain);

/// A form that holds the nodes of a sound table, under their numbers.
fn holding<F: Form>(records: &[Record]) -> F {
    let form = F::default();
    for (n, record) in records.iter().enumerate() {
        let id = form.restore(record);
        assert_eq!(
            id as usize,
            2 * (n + 1),
            "a sound table's nodes get their own numbers"
        );
    }
    form
}

pub struct References {
    changed: changed::Interner,
    plain: plain::Interner,
    /// The plain form's id of an even id of the other, where a call told it.
    names: HashMap<u32, u32>,
    /// Whether every call so far is in the domain of the plain form: no widening, no narrowing by empty bounds.
    pub in_domain: bool,
    /// The call that made an id last.
    origins: HashMap<u32, Operation>,
}

impl References {
    /// Both forms with the nodes of a sound table. Where it was not made by calls, ids are the same in both.
    pub fn of(records: &[Record]) -> References {
        let even = |n: usize| 2 * n as u32;
        References {
            changed: holding(records),
            plain: holding(records),
            names: (0..=records.len()).map(|n| (even(n), even(n))).collect(),
            in_domain: true,
            origins: HashMap::new(),
        }
    }

    /// Forgets what a refused call made: the form whose ids count is built again from the nodes that stood before. (The source has no
    /// undo, and none was put into it.)
    pub fn take_back(&mut self, records: &[Record]) {
        self.changed = holding(records);
    }

    pub fn count(&self) -> usize {
        self.changed.shared.count()
    }

    pub fn record(&self, n: usize) -> Record {
        Record {
            variable: self.changed.shared.variable(n),
            edges: self.changed.shared.edges(n),
        }
    }

    /// Does a call that makes an id, in the form whose ids count.
    pub fn make(&mut self, call: &Operation) -> u32 {
        self.changed.make(call)
    }

    /// Does the same call in the plain form, once it is known that it was not refused, and remembers what made the id.
    pub fn follow(&mut self, call: &Operation, id: u32) {
        match *call {
            Widen { .. } => self.in_domain = false,
            Narrow { bounds, .. } if bounds.is_empty() => self.in_domain = false,
            _ => {}
        }
        self.origins.insert(id, *call);
        if !self.in_domain {
            return;
        }
        if let Some(named) = call.with_ids(|id| self.name(id)) {
            let plain = self.plain.make(&named);
            self.names.insert(id & !1, plain ^ (id & 1));
        }
    }

    /// The plain form's id for an id.
    fn name(&self, id: u32) -> Option<u32> {
        self.names.get(&(id & !1)).map(|plain| plain ^ (id & 1))
    }

    pub fn disjoint(&self, x: u32, y: u32) -> bool {
        self.changed.disjoint(x, y)
    }

    /// What the plain form says of disjointness, in its domain.
    pub fn plain_disjoint(&self, x: u32, y: u32) -> Option<bool> {
        if !self.in_domain {
            return None;
        }
        Some(self.plain.disjoint(self.name(x)?, self.name(y)?))
    }

    pub fn value(&self, id: u32, reading: &Reading) -> bool {
        self.changed.value(id, reading)
    }

    /// What the plain form reads, in its domain.
    pub fn plain_value(&self, id: u32, reading: &Reading) -> Option<bool> {
        if !self.in_domain {
            return None;
        }
        Some(self.plain.value(self.name(id)?, reading))
    }

    /// What an id must say by the definition of the call that made it, given what the call's own operands say.
    pub fn truth(&self, id: u32, reading: &Reading) -> Option<bool> {
        if let Some(call) = self.origins.get(&id) {
            return self.defined(call, reading);
        }
        let call = self.origins.get(&(id ^ 1))?;
        self.defined(call, reading).map(|value| !value)
    }

    /// Document 01's steps 3 to 9, a reading at a time. Narrowing by empty bounds is left out: what it answers is no matter of one reading.
    fn defined(&self, call: &Operation, reading: &Reading) -> Option<bool> {
        let place = |variable: u32| reading.places[variable as usize];
        Some(match *call {
            Comparison {
                variable,
                operator,
                key,
            } => compared(place(variable), operator, 2 * i64::from(key)),
            Range { variable, bounds } => bounds.holds(place(variable)),
            Boolean { variable } => reading.bools >> (variable - 32) & 1 == 1,
            And { x, y } => self.value(x, reading) && self.value(y, reading),
            Or { x, y } => self.value(x, reading) || self.value(y, reading),
            Restrict {
                id,
                variable,
                value,
            } => self.value(id, &with_bool(reading, variable, value)),
            Narrow { bounds, .. } if bounds.is_empty() => return None,
            Narrow {
                id,
                variable,
                bounds,
            } => self.value(id, &with_nearest(reading, variable, bounds)),
            Widen {
                id,
                variable,
                bounds,
            } => bounds.holds(place(variable)) && self.value(id, reading),
            _ => return None,
        })
    }
}

/// A place compared with a key's place.
fn compared(place: i64, operator: MarkerOperator, key: i64) -> bool {
    match operator {
        MarkerOperator::Equal => place == key,
        MarkerOperator::NotEqual => place != key,
        MarkerOperator::LessThan => place < key,
        MarkerOperator::LessEqual => place <= key,
        MarkerOperator::GreaterThan => place > key,
        MarkerOperator::GreaterEqual => place >= key,
    }
}

/// The reading with one boolean set. A range variable changes nothing (document 01, step 7).
fn with_bool(reading: &Reading, variable: u32, value: bool) -> Reading {
    let mut changed = *reading;
    if variable >= 32 {
        let bit = 1 << (variable - 32);
        changed.bools = if value {
            reading.bools | bit
        } else {
            reading.bools & !bit
        };
    }
    changed
}

/// The reading with one place moved to the nearest inside the bounds, which are not empty.
fn with_nearest(reading: &Reading, variable: u32, bounds: Bounds) -> Reading {
    let mut changed = *reading;
    let place = &mut changed.places[variable as usize];
    *place = (*place).clamp(bounds.first(), bounds.last());
    changed
}
