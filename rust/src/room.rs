//! How large a table is.

/// How many nodes and edges a table has room for, and so how long its slices are. Every room from [`Room::LEAST`] to [`Room::MOST`] is
/// allowed; slices of any other lengths are refused ([`Refusal::BadLength`](crate::Refusal::BadLength)).
///
/// ```
/// use spanwhistle::Room;
///
/// const ROOM: Room = Room { nodes: 16, edges: 64 };
/// static NODES: [u32; ROOM.node_words()] = [0; ROOM.node_words()];
/// assert_eq!(NODES.len(), 64);
/// ```
#[derive(Clone, Copy, Debug, PartialEq, Eq, Hash)]
pub struct Room {
    /// Nodes, 1 to 4,096.
    pub nodes: usize,
    /// Edges of all nodes together, 2 to 16,384.
    pub edges: usize,
}

impl Room {
    /// The smallest room.
    pub const LEAST: Room = Room { nodes: 1, edges: 2 };
    /// The largest room.
    pub const MOST: Room = Room {
        nodes: 4096,
        edges: 16384,
    };

    /// The length of the slice `nodes`: four words a node.
    pub const fn node_words(self) -> usize {
        4 * self.nodes
    }

    /// The length of the slices `children` and `cuts`.
    pub const fn edge_words(self) -> usize {
        self.edges
    }

    /// The length of the slice `index`: four words a node.
    pub const fn index_words(self) -> usize {
        4 * self.nodes
    }

    /// The words of one set of a memo.
    pub const MEMO_SET: usize = 8;

    /// The most words that the slice `memo` may have: a set a node. Every whole number of sets from one on is allowed too
    /// ([`Room::memo_words_of`]). No answer goes by it: a longer memo is quicker for large conditions, a shorter one takes less memory.
    pub const fn memo_words(self) -> usize {
        Room::memo_words_of(self.nodes)
    }

    /// The length of a memo of so many sets.
    ///
    /// ```
    /// use spanwhistle::Room;
    ///
    /// const MEMO: [u64; Room::memo_words_of(4)] = [0; Room::memo_words_of(4)];
    /// assert_eq!(MEMO.len(), 32);
    /// ```
    pub const fn memo_words_of(sets: usize) -> usize {
        Room::MEMO_SET * sets
    }
}

/// How much of a table is used.
#[derive(Clone, Copy, Debug, PartialEq, Eq, Hash)]
pub struct Used {
    /// Nodes.
    pub nodes: usize,
    /// Edges of all nodes together.
    pub edges: usize,
}
