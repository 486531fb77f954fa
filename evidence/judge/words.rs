//! The words that are lent, laid out by docs/LAYOUT.md and by nothing else: the judge's own picture of the kernel's slices.

use std::collections::BTreeMap;
use std::fmt::Write;

use source::record::Edge;

use crate::operation::SLICES;

/// What the replay program holds of each slice: one more than the largest room needs.
pub const HELD: [usize; SLICES] = [
    4 * 4096 + 4,
    16384 + 1,
    16384 + 1,
    4 * 4096 + 4,
    8 * 4096 + 8,
];

/// The largest room.
pub const MOST_NODES: usize = 4096;
pub const MOST_EDGES: usize = 16384;

/// The words of one record, of the index for each record, and of one set of the memo.
const RECORD: usize = 4;
const INDEX: usize = 4;
const SET: usize = 8;

/// An id in a word of the memo, and the place of an entry's rank, which stands before two ids and an answer.
const ID_BITS: u32 = 18;
const RANK_AT: u32 = 3 * ID_BITS;

/// The factors of both hashes.
const FACTOR: u32 = 1_640_531_527;
const CHILD_FACTOR: u32 = 805_459_861;

/// Room for so many nodes and edges.
#[derive(Clone, Copy, PartialEq, Debug)]
pub struct Room {
    pub nodes: usize,
    pub edges: usize,
}

impl Room {
    /// The lengths of the five slices, the memo as long as it may be.
    pub fn lengths(self) -> [usize; SLICES] {
        [
            RECORD * self.nodes,
            self.edges,
            self.edges,
            INDEX * self.nodes,
            SET * self.nodes,
        ]
    }

    /// Where a hash goes, of as many buckets as there is room for nodes.
    fn bucket(self, hash: u32) -> usize {
        scaled(hash, self.nodes)
    }

    /// The length of a memo of so many sets.
    pub fn memo_of(sets: usize) -> usize {
        SET * sets
    }

    /// How many whole sets a memo of so many words has.
    pub fn sets_of(words: usize) -> usize {
        words / SET
    }
}

/// A hash of 32 bits, scaled to a number.
fn scaled(hash: u32, to: usize) -> usize {
    ((u64::from(hash) * to as u64) >> 32) as usize
}

/// The head of a memo: so many sets in use, so many answers counted.
pub fn memo_head(sets: usize, answers: u64) -> i64 {
    ((sets as u64) << ID_BITS | answers) as i64
}

/// The first word of the set of a pair of ids, of so many sets.
pub fn memo_set(x: u32, y: u32, sets: usize) -> usize {
    let hash = x
        .wrapping_mul(FACTOR)
        .wrapping_add(y.wrapping_mul(CHILD_FACTOR));
    SET * scaled(hash, sets)
}

/// The entry of a pair of ids and its answer.
pub fn memo_entry(rank: u64, x: u32, y: u32, answer: u32) -> i64 {
    let ids = u64::from(x) << (2 * ID_BITS) | u64::from(y) << ID_BITS | u64::from(answer);
    (rank << RANK_AT | ids) as i64
}

/// A node: its variable and its edges.
#[derive(Clone, PartialEq, Eq, Hash, Debug)]
pub struct Record {
    pub variable: u32,
    pub edges: Vec<Edge>,
}

impl Record {
    /// The hash of LAYOUT.md, "The index".
    pub fn hash(&self) -> u32 {
        let mut hash = self.variable;
        for edge in &self.edges {
            let position = (edge.cut + (1 << 32) + 1) as u32;
            hash = hash
                .wrapping_mul(FACTOR)
                .wrapping_add(edge.child.wrapping_mul(CHILD_FACTOR))
                .wrapping_add(position);
        }
        hash
    }

    /// What a node stands by in its bucket: hash, variable, number of edges, then child and cut of each edge. Equal nodes, which no sound table
    /// has, stand by their numbers.
    fn key(&self, n: usize) -> (u32, u32, usize, Vec<(u32, i64)>, usize) {
        let edges = self.edges.iter().map(|edge| (edge.child, edge.cut));
        (
            self.hash(),
            self.variable,
            self.edges.len(),
            edges.collect(),
            n,
        )
    }
}

/// The five slices.
#[derive(Clone, PartialEq, Debug)]
pub struct Words {
    pub nodes: Vec<u32>,
    pub children: Vec<u32>,
    pub cuts: Vec<i64>,
    pub index: Vec<u32>,
    pub memo: Vec<u64>,
}

impl Words {
    /// So many words of each slice, all zero.
    pub fn zero(lengths: [usize; SLICES]) -> Words {
        Words {
            nodes: vec![0; lengths[0]],
            children: vec![0; lengths[1]],
            cuts: vec![0; lengths[2]],
            index: vec![0; lengths[3]],
            memo: vec![0; lengths[4]],
        }
    }

    /// The room, if the lengths of the table's four slices are allowed.
    pub fn room(&self) -> Option<Room> {
        let room = Room {
            nodes: self.nodes.len() / RECORD,
            edges: self.children.len(),
        };
        let [nodes, _, cuts, index, _] = room.lengths();
        let fit = self.nodes.len() == nodes && self.cuts.len() == cuts && self.index.len() == index;
        let in_limits =
            (1..=MOST_NODES).contains(&room.nodes) && (2..=MOST_EDGES).contains(&room.edges);
        if fit && in_limits {
            Some(room)
        } else {
            None
        }
    }

    /// Whether the memo is whole sets, at least one and at most one a record.
    pub fn memo_fits(&self, room: Room) -> bool {
        let sets = Room::sets_of(self.memo.len());
        self.memo.len() == Room::memo_of(sets) && (1..=room.nodes).contains(&sets)
    }

    /// How many words are lent.
    pub fn count(&self) -> usize {
        let table = self.nodes.len() + self.children.len() + self.cuts.len() + self.index.len();
        table + self.memo.len()
    }

    /// One word of a slice, if there is such a word.
    pub fn get(&self, slice: usize, word: usize) -> Option<i64> {
        let narrow = match slice {
            0 => &self.nodes,
            1 => &self.children,
            2 => return self.cuts.get(word).copied(),
            3 => &self.index,
            _ => return self.memo.get(word).map(|word| *word as i64),
        };
        narrow.get(word).copied().map(i64::from)
    }

    /// Writes one word of a slice, if there is such a word.
    pub fn set(&mut self, slice: usize, word: usize, value: i64) {
        let narrow = match slice {
            0 => &mut self.nodes,
            1 => &mut self.children,
            2 => {
                if let Some(cut) = self.cuts.get_mut(word) {
                    *cut = value;
                }
                return;
            }
            3 => &mut self.index,
            _ => {
                if let Some(place) = self.memo.get_mut(word) {
                    *place = value as u64;
                }
                return;
            }
        };
        if let Some(place) = narrow.get_mut(word) {
            *place = value as u32;
        }
    }

    /// Zeroes the table's four slices, and not the memo.
    pub fn make_fresh(&mut self) {
        self.nodes.fill(0);
        self.children.fill(0);
        self.cuts.fill(0);
        self.index.fill(0);
    }

    /// Lays out the node behind some others, whose first edge is edge `first`. Room is there.
    pub fn append(&mut self, room: Room, before: &[Record], first: usize, record: &Record) {
        let n = before.len();
        let words = [record.variable, record.edges.len() as u32, first as u32, 0];
        self.nodes[RECORD * n..RECORD * (n + 1)].copy_from_slice(&words);
        for (i, edge) in record.edges.iter().enumerate() {
            self.children[first + i] = edge.child;
            self.cuts[first + i] = edge.cut;
        }
        self.link(room, before, record);
    }

    /// The words of the index that the node behind some others changes. No chain is followed: of all nodes in its bucket its neighbours are the
    /// nearest on either side.
    fn link(&mut self, room: Room, before: &[Record], record: &Record) {
        let (n, hash) = (before.len(), record.hash());
        let bucket = room.bucket(hash);
        let [nexts, lasts, hashes] = [1, 2, 3].map(|part| part * room.nodes);
        let key = record.key(n);
        let in_bucket = (0..n).filter(|m| room.bucket(self.index[hashes + m]) == bucket);
        let (below, above): (Vec<_>, Vec<_>) = in_bucket
            .map(|m| (before[m].key(m), m))
            .partition(|(other, _)| *other < key);
        let below = below.into_iter().max().map(|(_, m)| m);
        let above = above.into_iter().min().map(|(_, m)| m);
        let named = |node: Option<usize>| node.map_or(0, |m| m as u32 + 1);
        self.index[hashes + n] = hash;
        self.index[nexts + n] = named(above);
        self.index[lasts + n] = named(below);
        self.index[below.map_or(bucket, |m| nexts + m)] = named(Some(n));
        if let Some(m) = above {
            self.index[lasts + m] = named(Some(n));
        }
    }

    /// The whole table of some records, beside a zero memo. Room is there.
    pub fn of(room: Room, records: &[Record]) -> Words {
        let mut words = Words::zero(room.lengths());
        let mut first = 0;
        for (n, record) in records.iter().enumerate() {
            words.append(room, &records[..n], first, record);
            first += record.edges.len();
        }
        words
    }

    /// The nodes of each bucket that has some, in their order.
    pub fn chains(room: Room, records: &[Record]) -> Vec<(usize, Vec<usize>)> {
        let mut chains: BTreeMap<usize, Vec<usize>> = BTreeMap::new();
        for (n, record) in records.iter().enumerate() {
            chains
                .entry(room.bucket(record.hash()))
                .or_default()
                .push(n);
        }
        for chain in chains.values_mut() {
            chain.sort_by_key(|n| records[*n].key(*n));
        }
        chains.into_iter().collect()
    }

    /// Links the nodes as these chains have them, right or wrong. The hashes stay.
    pub fn relink(&mut self, room: Room, chains: &[(usize, Vec<usize>)]) {
        let (nexts, lasts) = (room.nodes, 2 * room.nodes);
        self.index[..3 * room.nodes].fill(0);
        for (bucket, chain) in chains {
            let mut word = *bucket;
            let mut last = 0;
            for n in chain {
                self.index[word] = *n as u32 + 1;
                self.index[lasts + n] = last;
                word = nexts + n;
                last = *n as u32 + 1;
            }
        }
    }

    /// Whether the table's four slices are the same.
    pub fn same_table(&self, other: &Words) -> bool {
        self.nodes == other.nodes
            && self.children == other.children
            && self.cuts == other.cuts
            && self.index == other.index
    }

    /// The line that the operation `s` writes.
    pub fn shown(&self) -> String {
        let mut line = String::new();
        show(&mut line, &self.nodes, 0);
        show(&mut line, &self.children, 0);
        show(&mut line, &self.cuts, 0);
        show(&mut line, &self.index, 0);
        show(&mut line, &self.memo, 0);
        line
    }
}

/// A slice's words up to the last that is not 0, a space after each, then a bar.
fn show<T: PartialEq + std::fmt::Display>(line: &mut String, words: &[T], zero: T) {
    let used = words
        .iter()
        .rposition(|word| *word != zero)
        .map_or(0, |last| last + 1);
    for word in &words[..used] {
        write!(line, "{word} ").expect("a string takes what is written");
    }
    line.push('|');
}

/// A cut for the edge before the last of a record, so that the record has a hash: the lower of two that do it, 2^32 apart. The hash is what it is
/// with position 0 there, and the position times the factor.
pub fn cut_for(record: &Record, hash: u32) -> i64 {
    let mut at_zero = record.clone();
    let edge = record.edges.len() - 2;
    at_zero.edges[edge].cut = NO_POSITION;
    let position = hash
        .wrapping_sub(at_zero.hash())
        .wrapping_mul(inverse(FACTOR));
    i64::from(position.max(1)) + NO_POSITION
}

/// The number that has position 0: one below the lowest cut.
const NO_POSITION: i64 = -(1 << 32) - 1;

/// What an odd number is to be multiplied with to give 1, modulo 2^32: each turn doubles the bits that are right, of three at first.
fn inverse(odd: u32) -> u32 {
    (0..4).fold(odd, |guess, _| {
        guess.wrapping_mul(2u32.wrapping_sub(odd.wrapping_mul(guess)))
    })
}
