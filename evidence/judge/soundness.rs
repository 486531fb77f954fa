//! Whether words are a sound table, straight from document 01, "A sound table", and docs/LAYOUT.md. It reads records off the words as far
//! as they go, asks document 01's rules of each, lays the records out again by itself, and compares every word. Whatever a record does not
//! determine (sums, zeros, the index) is seen by that comparison.

use std::collections::HashSet;

use source::record::Edge;

use crate::words::{Record, Room, Words};

/// The fewest and most edges of a node.
const FEWEST_EDGES: usize = 2;
pub const WIDEST: usize = 64;

/// The end cuts.
const LOWEST_CUT: i64 = -(1 << 32);
const HIGHEST_CUT: i64 = (1 << 32) - 1;

/// The records of a sound table, or nothing for one that is not sound.
pub fn records(words: &Words, room: Room) -> Option<Vec<Record>> {
    let mut records: Vec<Record> = Vec::new();
    let mut first = 0;
    for words_of_node in words.nodes.chunks(4) {
        let (variable, count) = (words_of_node[0], words_of_node[1] as usize);
        if count == 0 {
            break;
        }
        if variable > 63 || !(FEWEST_EDGES..=WIDEST).contains(&count) || first + count > room.edges
        {
            return None;
        }
        let record = read(words, variable, first..first + count);
        if !stands(&record, &records) {
            return None;
        }
        records.push(record);
        first += count;
    }
    let all_differ = records.iter().collect::<HashSet<_>>().len() == records.len();
    if all_differ && Words::of(room, &records).same_table(words) {
        Some(records)
    } else {
        None
    }
}

/// A record with the edges that stand at some numbers.
fn read(words: &Words, variable: u32, edges: std::ops::Range<usize>) -> Record {
    let edge = |i: usize| Edge {
        cut: words.cuts[i],
        child: words.children[i],
    };
    Record {
        variable,
        edges: edges.map(edge).collect(),
    }
}

/// Whether a record may follow the records before it, as far as its own words say.
fn stands(record: &Record, before: &[Record]) -> bool {
    let is_range = record.variable < 32;
    let cuts_stand = if is_range {
        cuts_rise(&record.edges)
    } else {
        record.edges.len() == 2 && record.edges.iter().all(|edge| edge.cut == 0)
    };
    let children_differ = record
        .edges
        .windows(2)
        .all(|pair| pair[0].child != pair[1].child);
    let first_is_plain = record.edges[0].child % 2 == 0;
    let below = |edge: &Edge| is_below(edge.child, record.variable, before);
    cuts_stand && children_differ && first_is_plain && record.edges.iter().all(below)
}

/// Whether the cuts of a range node rise strictly within the end cuts, and its last edge has none.
fn cuts_rise(edges: &[Edge]) -> bool {
    let (last, cut) = edges.split_last().expect("a record has edges");
    let rise = cut.windows(2).all(|pair| pair[0].cut < pair[1].cut);
    let within = cut
        .iter()
        .all(|edge| (LOWEST_CUT..=HIGHEST_CUT).contains(&edge.cut));
    rise && within && last.cut == 0
}

/// Whether a child is a terminal, or an earlier node of a later variable.
fn is_below(child: u32, variable: u32, before: &[Record]) -> bool {
    if child < 2 {
        return true;
    }
    match before.get(child as usize / 2 - 1) {
        Some(record) => record.variable > variable,
        None => false,
    }
}
