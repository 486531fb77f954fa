// Families of pairs of conditions that ask much of a memo: few nodes, many pairs of them, and each pair is met from many sides. The two of
// a pair exclude each other at the last variable, so that `and` makes no node and nothing ends its walk early.
use crate::tables::{Node, Rng};
use std::collections::HashMap;

/// Nodes that are made once each, as a sound table has them.
#[derive(Default)]
struct Maker {
    list: Vec<Node>,
    ids: HashMap<Node, u32>,
}

/// The nodes that two ids reach, and these ids.
pub struct Pair {
    pub nodes: Vec<Node>,
    pub x: u32,
    pub y: u32,
}

const TRUE: u32 = 0;
const FALSE: u32 = 1;

/// The last variable.
const LAST: u32 = 63;

impl Maker {
    /// The id of a node over these children; `cuts` has one less. Neighbours that agree are merged, and a first child is not complemented.
    fn node(&mut self, var: u32, children: &[u32], between: &[i64]) -> u32 {
        let (mut kids, mut cuts) = (vec![children[0]], vec![]);
        for (child, cut) in children[1..].iter().zip(between) {
            if kids[kids.len() - 1] != *child {
                kids.push(*child);
                cuts.push(*cut);
            }
        }
        if kids.len() == 1 {
            return kids[0];
        }
        let sign = kids[0] % 2;
        kids.iter_mut().for_each(|kid| *kid ^= sign);
        cuts.push(0);
        let node = Node { var, kids, cuts };
        let next = self.list.len() as u32 * 2 + 2;
        let id = *self.ids.entry(node.clone()).or_insert(next);
        if id == next {
            self.list.push(node);
        }
        id ^ sign
    }

    /// Yes or no: a boolean, or a range variable cut at 0.
    fn two(&mut self, var: u32, high: u32, low: u32) -> u32 {
        self.node(var, &[high, low], &[0])
    }

    /// What says whether the last variable is so.
    fn last(&mut self, yes: bool) -> u32 {
        self.two(LAST, !yes as u32, yes as u32)
    }

    /// The weights of the variables before the last sum up to 0 mod m, and the last is so.
    fn sum(&mut self, m: usize, vars: u32, seed: u64, yes: bool) -> u32 {
        let mut r = Rng(seed);
        // of each remainder what is to come
        let mut below = vec![FALSE; m];
        below[0] = self.last(yes);
        for var in (LAST + 1 - vars..LAST).rev() {
            let weight = 1 + r.below(m - 1);
            below = (0..m)
                .map(|s| self.two(var, below[(s + weight) % m], below[s]))
                .collect();
        }
        below[0]
    }

    /// The same of the first range variables, each with a weight for each of its edges.
    fn wide_sum(&mut self, m: usize, ranges: u32, edges: usize, seed: u64, yes: bool) -> u32 {
        let mut r = Rng(seed);
        // cuts of the two of a pair lie between each other, so that all their edges overlap
        let cuts: Vec<i64> = (1..edges as i64).map(|i| i * 4 + yes as i64 * 2).collect();
        let mut below = vec![FALSE; m];
        below[0] = self.last(yes);
        for var in (0..ranges).rev() {
            let mut weights = vec![0];
            while weights.len() < edges {
                weights.push(weights[weights.len() - 1] + 1 + r.below(m - 1));
            }
            let children = |s: usize| weights.iter().map(|w| below[(s + w) % m]).collect();
            let lists: Vec<Vec<u32>> = (0..m).map(children).collect();
            below = lists
                .iter()
                .map(|list| self.node(var, list, &cuts))
                .collect();
        }
        below[0]
    }

    /// Some of so many pairs of neighbours differ, and the last variable is so.
    fn some_differ(&mut self, pairs: u32, yes: bool) -> u32 {
        let last = self.last(yes);
        let mut rest = FALSE;
        for var in (LAST - 2 * pairs..LAST).step_by(2).rev() {
            let (on, off) = (self.two(var + 1, rest, last), self.two(var + 1, last, rest));
            rest = self.two(var, on, off);
        }
        rest
    }

    /// Only the nodes that the two reach, in the same order.
    fn pair(self, x: u32, y: u32) -> Pair {
        let mut reached = vec![false; self.list.len() + 1];
        reached[x as usize / 2] = true;
        reached[y as usize / 2] = true;
        for n in (1..=self.list.len()).rev() {
            if reached[n] {
                self.list[n - 1]
                    .kids
                    .iter()
                    .for_each(|kid| reached[*kid as usize / 2] = true);
            }
        }
        // of each node its new number
        let (mut to, mut nodes) = (vec![0; reached.len()], vec![]);
        let id = |to: &[u32], old: u32| to[old as usize / 2] * 2 + old % 2;
        for (n, node) in self.list.into_iter().enumerate() {
            if reached[n + 1] {
                let kids = node.kids.iter().map(|kid| id(&to, *kid)).collect();
                nodes.push(Node { kids, ..node });
                to[n + 1] = nodes.len() as u32;
            }
        }
        let (x, y) = (id(&to, x), id(&to, y));
        Pair { nodes, x, y }
    }
}

/// Two sums mod m of so many variables.
pub fn sums(m: usize, vars: u32) -> Pair {
    let mut maker = Maker::default();
    let (x, y) = (maker.sum(m, vars, 1, true), maker.sum(m, vars, 2, false));
    maker.pair(x, y)
}

/// Two sums mod m of so many range variables of so many edges, and the last boolean.
pub fn wide_sums(m: usize, ranges: u32, edges: usize) -> Pair {
    let mut maker = Maker::default();
    let x = maker.wide_sum(m, ranges, edges, 1, true);
    let y = maker.wide_sum(m, ranges, edges, 2, false);
    maker.pair(x, y)
}

/// In both some of so many pairs of neighbours differ: without notes the work of `is_disjoint` doubles with each pair.
pub fn both_differ(pairs: u32) -> Pair {
    let mut maker = Maker::default();
    let (x, y) = (
        maker.some_differ(pairs, true),
        maker.some_differ(pairs, false),
    );
    maker.pair(x, y)
}
