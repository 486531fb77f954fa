// The workloads, each written once for all sides.
use crate::crafted::{one_bucket, one_hash, Spread};
use crate::families::{both_differ, sums, wide_sums, Pair};
use crate::sides::{Arg, Ask, Ends, Kept, Work};
use crate::tables::{random, wide, Node, Rng};
use std::ops::Bound::{Excluded, Included, Unbounded};

/// Operators by their numbers.
const EQ: u32 = 0;
const LT: u32 = 2;
const LE: u32 = 3;
const GE: u32 = 5;

/// The first boolean variable.
const SWITCH: u32 = 32;

/// What a list of calls can find there when it is timed. Only `and` and `or` leave something in the Rust's cache.
const TWO: [Kept; 2] = [Kept::Operands, Kept::Nodes];
const THREE: [Kept; 3] = [Kept::Operands, Kept::Nodes, Kept::Everything];

/// Bounds that cut through the ranges of the clauses.
const CUTTING: [Ends; 2] = [(Included(200), Excluded(600)), (Unbounded, Included(450))];

/// A table to work on, how large the workloads on it are, and those that were made.
struct Place {
    name: &'static str,
    room: (usize, usize),
    base: Vec<Node>,
    /// Conditions that are asked for.
    many: u32,
    /// Variables of each kind in a chain.
    chain: u32,
    /// Clauses, and the range variables and booleans that they are about.
    clauses: (usize, usize, usize),
    /// Clauses of booleans only, and the booleans that they are about.
    switches: (usize, usize),
    /// Points of one variable.
    points: i32,
    works: Vec<Work>,
}

fn small() -> Place {
    Place {
        name: "fresh 64",
        room: (64, 2048),
        base: vec![],
        many: 48,
        chain: 3,
        clauses: (5, 2, 4),
        switches: (6, 4),
        points: 12,
        works: vec![],
    }
}

fn large() -> Place {
    Place {
        name: "kept 4096",
        room: (4096, 16384),
        base: random(7, 2000, 8000, false),
        many: 1000,
        chain: 12,
        clauses: (10, 5, 6),
        switches: (20, 10),
        points: 31,
        works: vec![],
    }
}

/// All workloads whose names begin with `filter`.
pub fn all(filter: &str) -> Vec<Work> {
    let mut list = vec![];
    for mut place in [small(), large()] {
        place.conditions();
        place.chains();
        place.disjointness();
        place.changes();
        list.append(&mut place.works);
    }
    list.append(&mut counts());
    list.append(&mut exclusive());
    list.append(&mut look_ups());
    list.append(&mut families());
    // by their numbers; those of one number stay in order
    list.sort_by(|a, b| a.name[..2].cmp(&b.name[..2]));
    list.retain(|work| work.name.starts_with(filter));
    list
}

/// Calls whose answers can be named.
struct Script {
    asks: Vec<Ask>,
    /// Answers that there are before these calls.
    before: usize,
}

impl Script {
    /// Calls that come behind these.
    fn next(&self) -> Script {
        Script {
            asks: vec![],
            before: self.before + self.asks.len(),
        }
    }

    fn ask(&mut self, ask: Ask) -> Arg {
        self.asks.push(ask);
        Arg::answer(self.before + self.asks.len() - 1)
    }

    fn switch(&mut self, v: u32) -> Arg {
        self.ask(Ask::Boolean(SWITCH + v))
    }

    fn between(&mut self, v: u32, low: i32, high: i32) -> Arg {
        self.ask(Ask::Range(v, (Included(low), Included(high))))
    }

    /// A list joined, each with what came before: all that comes up on the way, the first of the list included.
    fn joined(&mut self, list: &[Arg], join: fn(Arg, Arg) -> Ask) -> Vec<Arg> {
        let mut runs = vec![list[0]];
        for x in &list[1..] {
            let run = self.ask(join(runs[runs.len() - 1], *x));
            runs.push(run);
        }
        runs
    }

    /// At least half of n booleans, every second one negated if `crossed`: from the last one up, a level of the diagram for each.
    fn counted(&mut self, n: u32, crossed: bool) -> Arg {
        let some = self.switch(0);
        let sure = self.ask(Ask::Or(some, some.not()));
        // behind[k]: at least k of the booleans that follow
        let mut behind = vec![sure.not(); n as usize / 2 + 1];
        behind[0] = sure;
        for v in (0..n).rev() {
            let one = self.switch(v);
            let one = if crossed && v % 2 == 1 {
                one.not()
            } else {
                one
            };
            for k in (1..behind.len()).rev() {
                let with = self.ask(Ask::And(one, behind[k - 1]));
                let without = self.ask(Ask::And(one.not(), behind[k]));
                behind[k] = self.ask(Ask::Or(with, without));
            }
        }
        behind[n as usize / 2]
    }
}

impl Place {
    fn script(&self) -> Script {
        Script {
            asks: vec![],
            before: self.base.len(),
        }
    }

    /// Adds a workload once for each of these states of the table.
    fn add(&mut self, name: &str, before: &Script, asks: &Script, states: &[Kept]) {
        for kept in states {
            let state = match kept {
                Kept::Operands => "new",
                Kept::Nodes => "there",
                Kept::Everything => "again",
            };
            self.works.push(Work {
                name: format!("{}, {}, {}", name, self.name, state),
                room: self.room,
                base: self.base.clone(),
                before: before.asks.clone(),
                asks: asks.asks.clone(),
                kept: *kept,
                alone: false,
            });
        }
    }

    /// 1: conditions on one variable, with keys in no order.
    fn conditions(&mut self) {
        let (mut compared, mut ranges, mut switches) =
            (self.script(), self.script(), self.script());
        let mut r = Rng(11);
        for i in 0..self.many {
            compared.ask(Ask::Compare(i % 32, i % 6, r.next() as i32));
            let low = r.next() as i32 / 2;
            ranges.between(i % 32, low, low + 1000);
        }
        for v in 0..32 {
            switches.switch(v);
        }
        let none = self.script();
        self.add("1a comparisons", &none, &compared, &TWO);
        self.add("1b ranges", &none, &ranges, &TWO);
        self.add("1c booleans", &none, &switches, &TWO);
    }

    /// Clauses over some range variables and booleans, in no order.
    fn clauses(&self, script: &mut Script) -> Vec<Arg> {
        let mut r = Rng(5);
        let (many, ranges, switches) = self.clauses;
        let mut clause = |_| {
            let key = r.below(800) as i32;
            let above = script.ask(Ask::Compare(r.below(ranges) as u32, GE, key));
            let switch = script.switch(r.below(switches) as u32);
            let switch = Arg(switch.0 ^ r.below(2) as u32);
            let near = script.between(r.below(ranges) as u32, key / 2, key / 2 + 300);
            script.joined(&[above, switch, near], Ask::Or)[2]
        };
        (0..many).map(&mut clause).collect()
    }

    /// Clauses of two booleans each: the Rust has a small form for boolean nodes, and we have none.
    fn switches(&self, script: &mut Script) -> Vec<Arg> {
        let mut r = Rng(3);
        let (many, booleans) = self.switches;
        let mut clause = |i| {
            let x = script.switch((i % booleans) as u32);
            let y = script.switch(((i * 7 + 1 + i / booleans) % booleans) as u32);
            let (x, y) = (Arg(x.0 ^ r.below(2) as u32), Arg(y.0 ^ r.below(2) as u32));
            script.ask(Ask::Or(x, y))
        };
        (0..many).map(&mut clause).collect()
    }

    /// Points of one variable, each with a boolean below: their disjunction has two edges more for each.
    fn points(&self, script: &mut Script) -> Vec<Arg> {
        let mut point = |i| {
            let at = script.ask(Ask::Compare(0, EQ, i * 10));
            let switch = script.switch(i as u32 % 4);
            script.ask(Ask::And(at, switch))
        };
        (0..self.points).map(&mut point).collect()
    }

    /// Adds a chain of these operands, in all three states.
    fn chain(&mut self, name: &str, before: &Script, operands: &[Arg], join: fn(Arg, Arg) -> Ask) {
        let mut asks = before.next();
        asks.joined(operands, join);
        self.add(name, before, &asks, &THREE);
    }

    /// 2 and 3: chains of conjunctions and of disjunctions.
    fn chains(&mut self) {
        let mut before = self.script();
        let mut literals: Vec<Arg> = (0..self.chain)
            .map(|v| before.between(v, 10 + v as i32, 900))
            .collect();
        literals.extend((0..self.chain).map(|v| before.switch(v)));
        self.chain("2a and, later variables", &before, &literals, Ask::And);
        literals.reverse();
        self.chain("2b and, earlier variables", &before, &literals, Ask::And);
        let mut before = self.script();
        let clauses = self.clauses(&mut before);
        self.chain("2c and, clauses", &before, &clauses, Ask::And);
        let mut before = self.script();
        let switches = self.switches(&mut before);
        self.chain("2d and, clauses of booleans", &before, &switches, Ask::And);
        let mut before = self.script();
        let points = self.points(&mut before);
        self.chain("3 or, wide nodes", &before, &points, Ask::Or);
    }

    /// 4: a run of clauses excludes the negation of each that it has, and not the clause itself.
    fn disjointness(&mut self) {
        let mut before = self.script();
        let clauses = self.clauses(&mut before);
        let runs = before.joined(&clauses, Ask::And);
        let (mut yes, mut no, mut any) = (before.next(), before.next(), before.next());
        for (i, run) in runs.iter().enumerate() {
            for clause in &clauses[..=i] {
                yes.ask(Ask::Disjoint(*run, clause.not()));
                no.ask(Ask::Disjoint(*run, *clause));
            }
        }
        let mut r = Rng(6);
        let mut arg = || Arg(r.below(2 * any.before) as u32);
        let pairs: Vec<Ask> = (0..500).map(|_| Ask::Disjoint(arg(), arg())).collect();
        any.asks = pairs;
        self.add("4a disjoint pairs", &before, &yes, &[Kept::Nodes]);
        self.add("4b not disjoint", &before, &no, &[Kept::Nodes]);
        self.add("4c any pairs", &before, &any, &[Kept::Nodes]);
    }

    /// 5 to 7: restriction, narrowing and widening of runs of clauses, at a variable in the middle of its kind.
    fn changes(&mut self) {
        let mut before = self.script();
        let clauses = self.clauses(&mut before);
        let runs = before.joined(&clauses, Ask::And);
        let (mut restricted, mut narrowed, mut widened) =
            (before.next(), before.next(), before.next());
        let (_, ranges, switches) = self.clauses;
        let (v, switch) = (ranges as u32 / 2, SWITCH + switches as u32 / 2);
        for run in &runs[1..] {
            for (ends, value) in CUTTING.iter().zip([true, false]) {
                restricted.ask(Ask::Restrict(*run, switch, value));
                narrowed.ask(Ask::Narrow(*run, v, *ends));
                widened.ask(Ask::Widen(*run, v, *ends));
            }
        }
        self.add("5a restriction", &before, &restricted, &TWO);
        self.add("6 narrowing", &before, &narrowed, &TWO);
        self.add("7 widening", &before, &widened, &TWO);
    }
}

/// 2: two counts of the same booleans, whose conjunction meets each pair of their nodes from many sides: what a memo is for.
fn counts() -> Vec<Work> {
    let mut place = large();
    let mut before = place.script();
    let (x, y) = (before.counted(20, false), before.counted(20, true));
    let mut asks = before.next();
    asks.ask(Ask::And(x, y));
    place.add("2e and, two counts", &before, &asks, &THREE);
    place.works
}

/// 5: the exclusive-or of n booleans, made from the last one up, restricted at the last: the source goes down every path.
fn exclusive() -> Vec<Work> {
    let mut place = Place {
        name: "fresh 128",
        room: (128, 512),
        ..small()
    };
    for n in [8, 12, 16] {
        let mut before = place.script();
        let mut odd = before.switch(n - 1);
        for v in (0..n - 1).rev() {
            let one = before.switch(v);
            let left = before.ask(Ask::And(one, odd.not()));
            let right = before.ask(Ask::And(one.not(), odd));
            odd = before.ask(Ask::Or(left, right));
        }
        let mut asks = before.next();
        asks.ask(Ask::Restrict(odd, SWITCH + n - 1, true));
        let name = format!("5b exclusive-or of {:2} restricted", n);
        place.add(&name, &before, &asks, &TWO);
    }
    place.works
}

/// 1: nodes that are there, looked for among these in a room for 4,096.
fn look_up(name: &str, base: Vec<Node>, ask: fn(usize, &Node) -> Ask) -> Work {
    Work {
        name: format!("{}, there", name),
        room: LOOKED_FOR,
        asks: base.iter().enumerate().map(|(n, x)| ask(n, x)).collect(),
        base,
        before: vec![],
        kept: Kept::Nodes,
        alone: false,
    }
}

/// The room that nodes are looked for in.
const LOOKED_FOR: (usize, usize) = (4096, 16384);

/// A comparison as it is asked for: below an even cut lie the numbers less than its half, below an odd one those up to it.
fn comparison(_: usize, node: &Node) -> Ask {
    let op = if node.cuts[0] % 2 == 0 { LT } else { LE };
    Ask::Compare(0, op, node.cuts[0].div_euclid(2) as i32)
}

/// A node restricted at a switch that it does not test: all its edges are gone over, and then the node is looked for.
fn itself(n: usize, _: &Node) -> Ask {
    Ask::Restrict(Arg::answer(n), SWITCH, true)
}

/// The same of all at once: nodes of a later variable than 1 below one condition, which is restricted. It has nodes of 64 edges over them, and one over
/// these.
fn below_one(name: &str, mut base: Vec<Node>) -> Work {
    let over = |var, kids: Vec<u32>| {
        let cuts = (1..kids.len() as i64).map(|n| n * 10).chain([0]).collect();
        Node { var, kids, cuts }
    };
    let (mut parts, ids) = (vec![], 1..=base.len() as u32);
    for part in ids.collect::<Vec<u32>>().chunks(64) {
        base.push(over(1, part.iter().map(|n| n * 2).collect()));
        parts.push(base.len() as u32 * 2);
    }
    base.push(over(0, parts));
    let top = base.len() - 1;
    let mut work = look_up(name, base, itself);
    work.asks = vec![work.asks[top]];
    work
}

/// 1: what a look-up costs: in a long chain of the index; of wide nodes, nearly each in a bucket of its own; and among nodes of one bucket and
/// variable that differ in the number of edges, or agree up to the last edges, with hashes that differ or with one hash. Last, what a call costs
/// whose every look-up is slow: the worst that we could build.
fn look_ups() -> Vec<Work> {
    let room = LOOKED_FOR.0;
    let chained = |seed, many, counts: &[usize]| {
        let spread = Spread {
            vars: 1,
            counts: counts.into(),
            cut: vec![],
        };
        one_bucket(seed, many, room, &spread)
    };
    let counts: Vec<usize> = (2..=28).collect();
    // the variable adds the same to each hash, as all have as many edges
    let mut many = one_hash(4032, room, 3);
    many.iter_mut().for_each(|x| x.var = 2);
    vec![
        look_up(
            "1d comparisons, one bucket",
            chained(4, 1000, &[2]),
            comparison,
        ),
        look_up("1e wide nodes", wide(8, 250, 64), itself),
        look_up(
            "1f one bucket, other counts",
            chained(9, 1000, &counts),
            itself,
        ),
        look_up(
            "1g one bucket, other last edge",
            chained(10, 250, &[64]),
            itself,
        ),
        look_up(
            "1h one hash, other last edges",
            one_hash(250, room, 64),
            itself,
        ),
        below_one("1i one hash, 4,032 below one condition", many),
    ]
}

/// A pair of a family as base, with so much room for each node, and one call about it.
fn family(name: &str, pair: Pair, rooms: usize, ask: fn(Arg, Arg) -> Ask) -> Work {
    // ids of the base count from 2 up, answers from 0
    let (x, y) = (Arg(pair.x - 2), Arg(pair.y - 2));
    let edges: usize = pair.nodes.iter().map(|node| node.kids.len()).sum();
    Work {
        name: name.into(),
        room: (pair.nodes.len() * rooms, edges * rooms),
        base: pair.nodes,
        before: vec![],
        asks: vec![ask(x, y)],
        kept: Kept::Operands,
        alone: false,
    }
}

/// 9: what asks much of a memo. The first three are those that took seconds when it had one entry a record.
fn families() -> Vec<Work> {
    let and = |name, pair| family(name, pair, 1, Ask::And);
    let alone = |work| Work {
        alone: true,
        ..work
    };
    let mut list = vec![
        and("9a and, mod 3 of 7 ranges x 64", wide_sums(3, 7, 64)),
        and("9a and, mod 9 of 40", sums(9, 40)),
        and("9a and, mod 38 of 46, room 4096", sums(38, 46)),
        and("9a and, mod 64 of 40", sums(64, 40)),
        and("9a and, mod 16 of 7 ranges x 64", wide_sums(16, 7, 64)),
        family(
            "9b disjoint, 15 pairs of neighbours",
            both_differ(15),
            1,
            Ask::Disjoint,
        ),
        alone(family(
            "9b disjoint, 31 pairs of neighbours, alone",
            both_differ(31),
            1,
            Ask::Disjoint,
        )),
    ];
    list[2].room = (4096, 16384);
    // restriction at the last variable, narrowing and widening at the last range
    let restrict = |x, _| Ask::Restrict(x, SWITCH + 31, true);
    let narrow = |x, _| Ask::Narrow(x, SWITCH - 1, CUTTING[0]);
    let widen = |x, _| Ask::Widen(x, SWITCH - 1, CUTTING[0]);
    list.extend([
        family("9c restriction, mod 9 of 14", sums(9, 14), 3, restrict),
        alone(family(
            "9c restriction, mod 9 of 40, alone",
            sums(9, 40),
            3,
            restrict,
        )),
        family("9d narrowing, mod 9 of 44", sums(9, 44), 3, narrow),
        alone(family(
            "9d narrowing, mod 9 of 63, alone",
            sums(9, 63),
            3,
            narrow,
        )),
        family("9e widening, mod 9 of 44", sums(9, 44), 3, widen),
        alone(family(
            "9e widening, mod 9 of 63, alone",
            sums(9, 63),
            3,
            widen,
        )),
    ]);
    list
}
