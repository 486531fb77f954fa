//! A table that owns its memory: feature `alloc`.
use crate::refusal::Refusal;
use crate::room::Room;
use crate::table::Table;
use crate::view::{write_lengths, View};
use alloc::vec;
use alloc::vec::Vec;
use core::fmt;

/// A table and its memo on the heap, for a host that need not count bytes. It is lent to make calls:
///
/// ```
/// use spanwhistle::{OwnedTable, Refusal, Room};
///
/// let mut owned = OwnedTable::new(Room { nodes: 16, edges: 64 })?;
/// let (mut table, memo) = owned.lend();
/// let warm = table.from_range(0, 15..)?;
/// let switch_on = table.from_bool(32)?;
/// let rule = table.and(memo, warm, switch_on)?;
/// assert_eq!(owned.view().is_disjoint(rule, !warm), Ok(true));
/// # Ok::<(), Refusal>(())
/// ```
///
/// A clone is another table with the same nodes, so that the ids of one are right in the other until either grows.
#[derive(Clone, PartialEq, Eq)]
pub struct OwnedTable {
    nodes: Vec<u32>,
    children: Vec<u32>,
    cuts: Vec<i64>,
    index: Vec<u32>,
    memo: Vec<u64>,
}

impl OwnedTable {
    /// An empty table with this much room, and the longest memo that goes with it.
    ///
    /// # Errors
    ///
    /// `BadLength`, where a table may not have this room. Then nothing is allocated.
    pub fn new(room: Room) -> Result<OwnedTable, Refusal> {
        OwnedTable::with_memo(room, room.nodes)
    }

    /// The same with a memo of so many sets, 64 bytes each: from one to as many as there is room for nodes. A call writes every word of
    /// its memo, so that a short one is quicker for small conditions; a long one is quicker for large ones.
    ///
    /// # Errors
    ///
    /// `BadLength`, where a table may not have this room, or a memo so many sets. Then nothing is allocated.
    pub fn with_memo(room: Room, sets: usize) -> Result<OwnedTable, Refusal> {
        let nodes = Room::LEAST.nodes..=Room::MOST.nodes;
        let edges = Room::LEAST.edges..=Room::MOST.edges;
        let may_be = nodes.contains(&room.nodes) && edges.contains(&room.edges);
        if !may_be || !(1..=room.nodes).contains(&sets) {
            return Err(Refusal::BadLength);
        }
        Ok(OwnedTable {
            nodes: vec![0; room.node_words()],
            children: vec![0; room.edge_words()],
            cuts: vec![0; room.edge_words()],
            index: vec![0; room.index_words()],
            memo: vec![0; Room::memo_words_of(sets)],
        })
    }

    /// The table, and its memo for the calls that take one.
    pub fn lend(&mut self) -> (Table<'_>, &mut [u64]) {
        let table = Table::lend(
            &mut self.nodes,
            &mut self.children,
            &mut self.cuts,
            &mut self.index,
        );
        (table, &mut self.memo)
    }

    /// The table for reading.
    pub fn view(&self) -> View<'_> {
        View::of(&self.nodes, &self.children, &self.cuts, &self.index)
    }
}

/// How long the slices are, and not what they hold.
impl fmt::Debug for OwnedTable {
    fn fmt(&self, f: &mut fmt::Formatter<'_>) -> fmt::Result {
        write_lengths(f, "OwnedTable", self.view())
    }
}
