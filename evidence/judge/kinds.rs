//! The kinds of sequences (docs/TESTING.md, "Runs against the Rust"). Each begins with what is lent.

use std::ops::Bound;

use source::ranges::{HIGHEST, LOWEST};
use source::record::Edge;
use source::stand_ins::MarkerOperator;

use crate::composer::{Composer, Matter};
use crate::damage;
use crate::operation::{Bounds, Operation, Operation::*, SLICES};
use crate::random::Random;
use crate::words::{cut_for, Record, Room, MOST_EDGES, MOST_NODES};

/// The Rust's disjointness keeps no pair, and its work may double with each boolean: it is asked to the end of no taller tower.
const SHORT_TOWER: usize = 15;

/// Range and boolean variables, some at the ends of their numbers.
fn some_variables(random: &mut Random, first: u32, count: usize) -> Vec<u32> {
    let near = if random.chance(80) {
        first
    } else {
        first + 32 - count as u32
    };
    (0..count as u32).map(|i| near + i).collect()
}

/// A few keys, near one another mostly, the ends among them now and then.
fn some_keys(random: &mut Random) -> Vec<i32> {
    let mut keys: Vec<i32> = (0..random.between(3, 6))
        .map(|_| random.below(9) as i32 - 2)
        .collect();
    if random.chance(10) {
        keys[0] = i32::MIN;
    }
    if random.chance(10) {
        keys[1] = i32::MAX;
    }
    keys
}

impl Composer<'_> {
    /// Variables and keys for a sequence of so many range variables and booleans.
    fn choose(&mut self, ranges: usize, booleans: usize) {
        self.matter = Matter {
            ranges: some_variables(self.random, 0, ranges),
            booleans: some_variables(self.random, 32, booleans),
            keys: some_keys(self.random),
            widens: self.random.chance(40),
        };
    }

    fn conditions(&mut self, count: usize) {
        for _ in 0..count {
            let condition = self.condition();
            self.call(condition);
        }
    }

    /// a) Two to six variables, few keys, room enough mostly.
    pub fn general(&mut self) {
        let ranges = self.random.between(1, 3);
        let booleans = self.random.between(1, 3);
        self.choose(ranges, booleans);
        let nodes = self.random.between(48, 160);
        self.lend(Room {
            nodes,
            edges: 4 * nodes,
        });
        self.conditions(5);
        for _ in 0..self.times(15, 50) {
            self.step();
        }
    }

    /// b) Four to six booleans on a short, fresh table: only this shows the order of making.
    pub fn booleans(&mut self) {
        let booleans = self.random.between(4, 6);
        self.choose(0, booleans);
        for _ in 0..self.times(2, 2) {
            self.lend(Room {
                nodes: 64,
                edges: 128,
            });
            self.tower();
            for _ in 0..self.times(2, 8) {
                self.step();
            }
        }
    }

    /// b) Many booleans: conjunctions of so many pairs that the memo takes more of its sets, or has too few.
    pub fn tall(&mut self) {
        let booleans = self.random.between(12, 20);
        self.choose(0, booleans);
        self.lend(Room {
            nodes: 400,
            edges: 800,
        });
        self.tower();
        if booleans <= SHORT_TOWER {
            self.excluded();
        }
        for _ in 0..self.times(2, 8) {
            self.step();
        }
    }

    /// Two that exclude each other by the last boolean alone: whether they do is walked to the end, through more pairs than are looked at
    /// without the memo that disjointness has. And two that meet in one reading, which such a walk comes to last.
    fn excluded(&mut self) {
        let variable = *self.matter.booleans.last().unwrap();
        let tower = self.ids.clone();
        for _ in 0..2 {
            let last = self.make(Boolean { variable });
            let (this, that) = (self.one_of_last(&tower), self.one_of_last(&tower));
            let x = self.make(And { x: this, y: last });
            let y = self.make(And {
                x: that,
                y: last ^ 1,
            });
            self.call(Disjoint { x, y });
            let mut corner = last;
            for variable in self.matter.booleans.clone() {
                let no = self.make(Boolean { variable }) ^ 1;
                if no != last ^ 1 {
                    corner = self.make(And { x: corner, y: no });
                }
            }
            let meet = self.make(And { x, y: corner });
            let late = self.make(Or { x: y, y: meet });
            self.call(Disjoint { x, y: late });
        }
    }

    /// From the last boolean to the first, "if the boolean, then this, else that" over what was made so far: nodes whose children both have
    /// nodes below them, so that a change or a conjunction of them makes nodes on either side. The steps behind it take these alone.
    fn tower(&mut self) {
        let mut made = vec![0];
        for variable in self.matter.booleans.clone().into_iter().rev() {
            let x = self.make(Boolean { variable });
            let below = made.clone();
            made.push(x);
            for _ in 0..self.random.between(1, 2) {
                let (this, that) = (self.one_of_last(&below), self.one_of_last(&below));
                let yes = self.make(And { x, y: this });
                let no = self.make(And { x: x ^ 1, y: that });
                made.push(self.make(Or { x: yes, y: no }));
            }
        }
        self.ids = made;
    }

    /// One of the last few ids of a list, negated or not.
    fn one_of_last(&mut self, ids: &[u32]) -> u32 {
        let from = ids.len().saturating_sub(5);
        self.random.pick(&ids[from..]) ^ u32::from(self.random.chance(50))
    }

    /// c) Rooms so small that "no room" comes often.
    pub fn small_rooms(&mut self) {
        let ranges = self.random.between(1, 2);
        let booleans = self.random.between(1, 3);
        self.choose(ranges, booleans);
        let nodes = self.random.between(1, 12);
        let edges = self.random.between(2 * nodes, 3 * nodes);
        self.lend(Room { nodes, edges });
        self.conditions(3);
        for _ in 0..self.times(10, 30) {
            self.step();
        }
        if self.random.chance(30) {
            self.call(Fresh);
            self.ids.clear();
            self.conditions(3);
        }
    }

    /// c) Wide nodes: points of one variable joined until a 65th edge is asked for, then changes of what was made.
    pub fn wide(&mut self) {
        self.choose(1, 1);
        self.lend(Room {
            nodes: 160,
            edges: 2600,
        });
        let variable = self.matter.ranges[0];
        let condition = self.condition();
        let mut joined = self.make(condition);
        let first = self.random.below(20) as i32;
        let end = first + self.random.between(26, 40) as i32;
        for key in first..end {
            let y = self.make(Comparison {
                variable,
                operator: MarkerOperator::Equal,
                key,
            });
            let both = self.make(Or { x: joined, y });
            // Beside "no room" the answer is FALSE, and what was joined so far goes on.
            joined = if both == 1 { joined } else { both };
        }
        // Edges to FALSE on both sides of them all, where TRUE stood, may be one too many.
        let bounds = Bounds {
            lower: Bound::Included(first - 1),
            upper: Bound::Included(end),
        };
        for id in [joined, joined ^ 1] {
            self.make(Widen {
                id,
                variable,
                bounds,
            });
        }
        self.matter.keys = (first..end).collect();
        for _ in 0..self.times(4, 10) {
            self.step();
        }
    }

    /// c) Nodes of one hash, which differ in variable, in the number of edges, in a child or in a cut alone, the third of three too: only these
    /// show how a bucket is ordered behind the hash, and that no edge is passed over. The room is small mostly, so that nodes are taken back from among them; damage follows.
    pub fn colliding(&mut self) {
        self.choose(2, 2);
        let nodes = self.random.between(6, 40);
        self.lend(Room {
            nodes,
            edges: 4 * nodes,
        });
        let variables = [self.matter.ranges[0], self.matter.ranges[1]];
        let switch = self.make(Boolean {
            variable: self.matter.booleans[1],
        });
        let first = self.random.below(64) as i64 - 32;
        let hash = split(variables[0], &[0, 1], &[first]).hash();
        for _ in 0..self.times(8, 16) {
            let variable = self.random.pick(&variables);
            let call = match self.random.below(4) {
                0 => below(
                    variable,
                    self.one_of_two(&split(variable, &[0, 1], &[0]), hash),
                ),
                1 => {
                    let over = split(variable, &[switch, 1], &[0]);
                    let cut = self.one_of_two(&over, hash);
                    let x = self.make(below(variable, cut));
                    And { x, y: switch }
                }
                2 => {
                    let lower = 2 * (self.random.below(8) as i64 - (1 << 31));
                    let cut = self.one_of_two(&split(variable, &[0, 1, 0], &[lower, 0]), hash);
                    up_to(variable, lower, cut)
                }
                _ => {
                    let (first, second) = (
                        2 * (self.random.below(2) as i64 - (1 << 31)),
                        2 * (2 - (1 << 31)),
                    );
                    let record = split(variable, &[0, 1, 0, 1], &[first, second, 0]);
                    let cut = self.one_of_two(&record, hash);
                    let x = self.make(below(variable, first));
                    let y = self.make(up_to(variable, second, cut));
                    Or { x, y }
                }
            };
            self.make(call);
            if self.random.chance(20) {
                self.step();
            }
            if self.random.chance(20) {
                self.damage_words();
            }
            if self.random.chance(20) {
                self.damage_record();
            }
            if self.random.chance(20) {
                self.damage_links();
            }
        }
        self.call(Check);
    }

    /// One of the two cuts that give a record a hash.
    fn one_of_two(&mut self, record: &Record, hash: u32) -> i64 {
        cut_for(record, hash) + self.random.pick(&[0, 1 << 32])
    }

    /// d) A sound table, damaged again and again.
    pub fn damaged(&mut self) {
        let ranges = self.random.between(1, 2);
        self.choose(ranges, 2);
        let wide = self.random.chance(15);
        let nodes = self.random.between(1, 8);
        let edges = if wide {
            150
        } else {
            self.random.between(4 * nodes, 5 * nodes)
        };
        self.lend(Room { nodes, edges });
        self.conditions(2);
        for _ in 0..self.times(2, 6) {
            self.step();
        }
        for _ in 0..self.times(4, 10) {
            match self.random.below(5) {
                0 | 1 => self.damage_words(),
                2 | 3 => self.damage_record(),
                _ => self.damage_links(),
            }
        }
        self.call(Check);
    }

    /// e) Wrong ids, variables and places beside right ones, on a table that may be damaged.
    pub fn wrong_arguments(&mut self) {
        self.choose(2, 2);
        self.lend(Room {
            nodes: 12,
            edges: 40,
        });
        self.conditions(3);
        for _ in 0..self.times(6, 16) {
            let call = self.any_call();
            let wrong = self.spoiled(call);
            self.call(wrong);
            if self.random.chance(15) {
                self.wrong_place();
            }
            if self.random.chance(15) {
                self.damage_words();
            }
        }
    }

    /// The call with an id or a variable that it may not have, mostly.
    fn spoiled(&mut self, call: Operation) -> Operation {
        let mut call = call;
        if self.random.chance(50) {
            let bad = self.unknown_id();
            let random = &mut *self.random;
            let spoil = |id| {
                if random.chance(60) {
                    Some(bad)
                } else {
                    Some(id)
                }
            };
            call = call.with_ids(spoil).expect("there is an id for each");
        }
        if self.random.chance(40) {
            let bad = self
                .random
                .pick(&[31, 32, 63, 64, 65, 96, 1 << 31, u32::MAX]);
            call = call.with_variable(bad);
        }
        call
    }

    /// An id that names no used node, the next one above all.
    fn unknown_id(&mut self) -> u32 {
        let next = 2 * (self.model.records().len() as u32 + 1);
        let far = self.random.bits() as u32 | 1 << 20;
        self.random.pick(&[
            next,
            next + 1,
            next + 2,
            8194,
            1 << 31,
            u32::MAX - 1,
            u32::MAX,
            far,
        ])
    }

    /// Reads with one place beyond the ends, or at them, and puts the place back.
    fn wrong_place(&mut self) {
        let variable = self.random.below(32);
        let places = [LOWEST - 1, HIGHEST + 1, i64::MIN, i64::MAX, LOWEST, HIGHEST];
        let place = self.random.pick(&places);
        self.put(Place { variable, place });
        let id = if self.random.chance(20) {
            self.unknown_id()
        } else {
            self.id()
        };
        self.call(Evaluate { bools: 0, id });
        self.put(Place { variable, place: 0 });
    }

    /// e) Lengths that are not allowed, or the largest that are, with junk in the words and any arguments.
    pub fn wrong_lengths(&mut self) {
        self.choose(2, 2);
        for _ in 0..self.random.between(2, 4) {
            let lengths = lengths(self.random);
            self.put(Lend { lengths });
            self.ids.clear();
            if self.random.chance(70) {
                self.junk_anywhere(lengths);
            }
            for _ in 0..self.random.between(2, 5) {
                let call = if self.random.chance(10) {
                    Fresh
                } else {
                    self.any_call()
                };
                let call = self.spoiled(call);
                self.call(call);
            }
        }
    }

    /// A few words of any slice.
    fn junk_anywhere(&mut self, lengths: [usize; SLICES]) {
        for _ in 0..self.random.between(1, 3) {
            let slice = self.random.below(SLICES);
            let near = if self.random.chance(90) {
                40
            } else {
                usize::MAX
            };
            let word = self.random.below(lengths[slice].clamp(1, near));
            let value = damage::value(self.random, slice, 0);
            self.put(Poke { slice, word, value });
        }
    }

    /// The largest table, filled with comparisons to its last record; then one more.
    pub fn full(&mut self) {
        self.choose(1, 1);
        self.lend(Room {
            nodes: MOST_NODES,
            edges: MOST_EDGES,
        });
        let variable = self.matter.ranges[0];
        for key in 0..MOST_NODES as i32 {
            self.put(Comparison {
                variable,
                operator: MarkerOperator::LessThan,
                key,
            });
        }
        self.put(Show);
        self.ids.push(2 * MOST_NODES as u32);
        for _ in 0..20 {
            let call = self.any_call();
            self.call(call);
        }
    }
}

/// A record with these children and cuts.
fn split(variable: u32, children: &[u32], cuts: &[i64]) -> Record {
    let cuts = cuts.iter().chain(&[0]);
    let edges = children.iter().zip(cuts);
    Record {
        variable,
        edges: edges
            .map(|(child, cut)| Edge {
                cut: *cut,
                child: *child,
            })
            .collect(),
    }
}

/// The condition that a variable lies below a cut.
fn below(variable: u32, cut: i64) -> Operation {
    let operator = if cut % 2 == 0 {
        MarkerOperator::LessThan
    } else {
        MarkerOperator::LessEqual
    };
    let key = cut.div_euclid(2) as i32;
    Comparison {
        variable,
        operator,
        key,
    }
}

/// The bound that ends at a cut.
fn upper_of(cut: i64) -> Bound<i32> {
    let key = cut.div_euclid(2) as i32;
    if cut % 2 == 0 {
        Bound::Excluded(key)
    } else {
        Bound::Included(key)
    }
}

/// The condition that a variable lies from an even cut, where a key begins, up to another cut.
fn up_to(variable: u32, lower: i64, cut: i64) -> Operation {
    Range {
        variable,
        bounds: Bounds {
            lower: Bound::Included((lower / 2) as i32),
            upper: upper_of(cut),
        },
    }
}

/// Lengths of which one or two are wrong, mostly.
fn lengths(random: &mut Random) -> [usize; SLICES] {
    let nodes = random.pick(&[1, 2, 3, 8, 8, 8, MOST_NODES, MOST_NODES + 1, 0]);
    let edges = random.pick(&[2, 16, 16, 16, 40, MOST_EDGES, MOST_EDGES + 1, 1, 0]);
    let mut lengths = Room { nodes, edges }.lengths();
    if random.chance(20) {
        return lengths;
    }
    for _ in 0..random.between(1, 2) {
        let slice = random.below(SLICES);
        let old = lengths[slice];
        lengths[slice] = random.pick(&[
            old + 1,
            old.saturating_sub(1),
            0,
            old + 4,
            old.saturating_sub(4),
            old + 8,
            old.saturating_sub(8),
            old,
        ]);
    }
    if random.chance(10) {
        lengths[1] += 1;
        lengths[2] = lengths[1];
    }
    lengths
}
