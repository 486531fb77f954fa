//! Damaged tables: words of a sound table changed one by one, or a record changed and all words laid out anew, so that nothing but one rule
//! of document 01 is broken (a changed word mostly changes a hash, and the index then hides what else is wrong).

use source::record::Edge;

use crate::composer::Composer;
use crate::operation::{Operation::*, SLICES};
use crate::random::Random;
use crate::soundness::WIDEST;
use crate::words::{Record, Words};

/// A value to put in the place of a word.
pub fn value(random: &mut Random, slice: usize, old: i64) -> i64 {
    let value = match random.below(10) {
        0 => 0,
        1 => 1,
        2 => old + 1,
        3 => old - 1,
        4 => old ^ 1,
        5 => old + 2,
        6 => random.pick(&[1 << 31, (1 << 32) - 1, 4096, 8192, 16384, 63, 64, 65]),
        7 => random.pick(&[-(1 << 32) - 1, -(1 << 32), 1 << 32, i64::MIN, i64::MAX]),
        8 => random.bits() as i64,
        _ => random.below(20) as i64,
    };
    match slice {
        2 => value,
        // Words of 64 bits; a line writes those below 2^63.
        4 => value & i64::MAX,
        _ => i64::from(value as u32),
    }
}

/// The words of two tables that differ, as pokes from the first to the second.
fn pokes(from: &Words, to: &Words) -> Vec<(usize, usize, i64)> {
    let mut pokes = Vec::new();
    for slice in 0..SLICES - 1 {
        let mut word = 0;
        while let (Some(old), Some(new)) = (from.get(slice, word), to.get(slice, word)) {
            if old != new {
                pokes.push((slice, word, new));
            }
            word += 1;
        }
    }
    pokes
}

impl Composer<'_> {
    /// A word of the table, among the used ones and a little beyond.
    fn word(&mut self) -> (usize, usize) {
        let words = self.model.words();
        let used = self.model.records().len();
        let edges: usize = self
            .model
            .records()
            .iter()
            .map(|record| record.edges.len())
            .sum();
        let lengths = [
            words.nodes.len(),
            words.children.len(),
            words.cuts.len(),
            words.index.len(),
        ];
        let wished = [4 * (used + 1), edges + 1, edges + 1, lengths[3]];
        let slice = self.random.below(SLICES - 1);
        let among = if self.random.chance(90) {
            wished[slice].min(lengths[slice])
        } else {
            lengths[slice]
        };
        (slice, self.random.below(among))
    }

    /// Changes a word or two, calls, and puts the words back.
    pub fn damage_words(&mut self) {
        let before = self.model.words().clone();
        for _ in 0..self.random.between(1, 2) {
            let (slice, word) = self.word();
            let old = before.get(slice, word).expect("the word is lent");
            let value = value(self.random, slice, old);
            self.put(Poke { slice, word, value });
        }
        self.call_on_damage();
        self.put_back(&before);
    }

    /// Changes a record, lays all words out by the rules, calls, and puts the words back. Nothing, if there is no room for it.
    pub fn damage_record(&mut self) {
        let room = self.model.words().room().expect("the lengths are allowed");
        let mut records = self.model.records().to_vec();
        if records.is_empty() {
            return;
        }
        change(self.random, &mut records);
        let edges: usize = records.iter().map(|record| record.edges.len()).sum();
        if records.len() > room.nodes || edges > room.edges {
            return;
        }
        let before = self.model.words().clone();
        self.put_back(&Words::of(room, &records));
        self.call_on_damage();
        self.put_back(&before);
    }

    /// Links the nodes wrongly, every other word as it must be, calls, and puts the words back. Nothing, if there are not two chains or a chain of
    /// two for it.
    pub fn damage_links(&mut self) {
        let room = self.model.words().room().expect("the lengths are allowed");
        let mut chains = Words::chains(room, self.model.records());
        if !mislink(self.random, &mut chains) {
            return;
        }
        let before = self.model.words().clone();
        let mut wrong = before.clone();
        wrong.relink(room, &chains);
        self.put_back(&wrong);
        self.call_on_damage();
        self.put_back(&before);
    }

    /// `check`, and a call or two; where the table is sound after all, `check` alone, so that it can be put back.
    fn call_on_damage(&mut self) {
        let sound = self.call(Check).number() == 0;
        if sound {
            self.put(Show);
            return;
        }
        for _ in 0..self.random.between(1, 2) {
            let call = self.any_call();
            if self.random.chance(20) {
                self.junk_in_memo(&call);
            }
            self.call(call);
        }
    }

    /// Pokes every word that is not as in `to`, memo left out.
    fn put_back(&mut self, to: &Words) {
        for (slice, word, value) in pokes(self.model.words(), to) {
            self.put(Poke { slice, word, value });
        }
    }
}

/// Two chains joined, in the bucket of the first; a node moved to the bucket of another; or two neighbours of a chain exchanged.
fn mislink(random: &mut Random, chains: &mut Vec<(usize, Vec<usize>)>) -> bool {
    let at = random.below(chains.len().max(1));
    if at + 1 < chains.len() && random.chance(60) {
        if random.chance(50) {
            let (_, behind) = chains.remove(at + 1);
            chains[at].1.extend(behind);
        } else {
            let moved = chains[at + 1].1.remove(0);
            chains[at].1.push(moved);
        }
        return true;
    }
    match chains.get_mut(at) {
        Some((_, chain)) if chain.len() > 1 => {
            let n = random.below(chain.len() - 1);
            chain.swap(n, n + 1);
            true
        }
        _ => false,
    }
}

/// Changes one record of some, in one of many ways. The outcome may be sound.
fn change(random: &mut Random, records: &mut Vec<Record>) {
    let n = random.below(records.len());
    match random.below(9) {
        0 => records[n].variable = random.pick(&[0, 1, 31, 32, 33, 63, 64, 100]),
        1 => {
            let copy = records[n].clone();
            records.push(copy);
        }
        2 => {
            let m = random.below(records.len());
            records.swap(n, m);
        }
        3 => {
            let widths = random.pick(&[WIDEST, WIDEST + 1]);
            records[n] = wide(widths);
        }
        _ => change_edges(random, &mut records[n]),
    }
}

/// A record of so many edges, TRUE and FALSE in turn, sound but for its width.
fn wide(edges: usize) -> Record {
    let edge = |i: usize| Edge {
        cut: if i + 1 == edges { 0 } else { 2 * i as i64 + 2 },
        child: (i % 2) as u32,
    };
    Record {
        variable: 0,
        edges: (0..edges).map(edge).collect(),
    }
}

/// Changes the edges of one record.
fn change_edges(random: &mut Random, record: &mut Record) {
    let i = random.below(record.edges.len());
    match random.below(6) {
        0 => record.edges[i].child = value(random, 1, i64::from(record.edges[i].child)) as u32,
        1 => record.edges[i].child = record.edges[0].child,
        2 => record.edges.iter_mut().for_each(|edge| edge.child ^= 1),
        3 => record.edges[i].cut = value(random, 2, record.edges[i].cut),
        4 => {
            record.edges.remove(i);
        }
        _ => {
            let copy = record.edges[i];
            record.edges.insert(i, copy);
        }
    }
}
