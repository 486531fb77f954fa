//! Memory for a table, for the tests.
use spanwhistle::{NodeId, Room, Table};

/// Range variable x and boolean variables a and b, as document 01 has them.
pub const X: u32 = 0;
pub const A: u32 = 32;
pub const B: u32 = 33;

/// The four slices of a table.
#[derive(Clone, Debug, PartialEq)]
pub struct Memory {
    pub nodes: Vec<u32>,
    pub children: Vec<u32>,
    pub cuts: Vec<i64>,
    pub index: Vec<u32>,
}

impl Memory {
    /// An empty table with this room.
    pub fn new(room: Room) -> Memory {
        Memory {
            nodes: vec![0; room.node_words()],
            children: vec![0; room.edge_words()],
            cuts: vec![0; room.edge_words()],
            index: vec![0; room.index_words()],
        }
    }

    pub fn lend(&mut self) -> Table<'_> {
        Table::lend(
            &mut self.nodes,
            &mut self.children,
            &mut self.cuts,
            &mut self.index,
        )
    }
}

/// What stands in a memo before a call, and must never be believed: in its first word, that one set is in use.
pub const SOILED: u64 = 1 << 18 | 4;

/// The longest memo for a room.
pub fn memo_of(room: Room) -> Vec<u64> {
    vec![SOILED; room.memo_words()]
}

pub fn id(number: u32) -> NodeId {
    NodeId::from_number(number)
}
