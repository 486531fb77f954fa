//! A lent table, and the calls on it.
use crate::conditions::{Comparison, Ends};
use crate::ids::NodeId;
use crate::reading::Reading;
use crate::refusal::Refusal;
use crate::room::Used;
use crate::sys;
use crate::view::{write_lengths, View};
use core::fmt;
use core::ops::RangeBounds;

/// A table of conditions in memory that the caller lends: four slices, with the lengths of a [`Room`](crate::Room). The words are the
/// whole table, so it may be dropped and lent again, also after it lay in flash; docs/LAYOUT.md tells every word. A table that nobody
/// writes is a [`View`].
///
/// Every call tests the lengths first, then the whole table (but for `fresh`, which overwrites it), then its other arguments, in the order
/// of the refusals' numbers. A table that is sound, but not the one that was stored, cannot be told from it: where memory may change,
/// keep a checksum or a signature beside the table. A refused call leaves the four slices as they were. Calls that take a `memo` use it as
/// scratch, whatever it holds: words of 64 bits, whole sets of eight, from one set to one a node of the room
/// ([`Room::memo_words`](crate::Room::memo_words)). It is all zero after a call that was done or found no room, and no answer goes by its length.
///
/// Calls that walk down a table need a deep stack, `restrict` up to 75,704 bytes in our deepest test: include/spanwhistle.h has the
/// figures, by the number of variables, and what they are worth.
///
/// ```
/// use spanwhistle::{Comparison, Reading, Refusal, Room, Table};
///
/// const ROOM: Room = Room { nodes: 16, edges: 64 };
/// let mut nodes = [0; ROOM.node_words()];
/// let mut children = [0; ROOM.edge_words()];
/// let mut cuts = [0; ROOM.edge_words()];
/// let mut index = [0; ROOM.index_words()];
/// let mut memo = [0; ROOM.memo_words()];
///
/// let mut table = Table::lend(&mut nodes, &mut children, &mut cuts, &mut index);
/// let warm = table.from_comparison(0, Comparison::GreaterEqual, 15)?;
/// let switch_on = table.from_bool(32)?;
/// let rule = table.and(&mut memo, warm, switch_on)?;
///
/// let mut reading = Reading::default();
/// reading.set_key(0, 20)?;
/// assert_eq!(table.evaluate(&reading, rule), Ok(false));
/// reading.set_bool(32, true)?;
/// assert_eq!(table.evaluate(&reading, rule), Ok(true));
/// # Ok::<(), Refusal>(())
/// ```
///
/// The borrow checker sees to it that no memory is lent twice:
///
/// ```compile_fail,E0499
/// let (mut words, mut cuts, mut index) = ([0; 4], [0; 2], [0; 4]);
/// let table = spanwhistle::Table::lend(&mut words, &mut words, &mut cuts, &mut index);
/// ```
pub struct Table<'a> {
    pub(crate) nodes: &'a mut [u32],
    pub(crate) children: &'a mut [u32],
    pub(crate) cuts: &'a mut [i64],
    pub(crate) index: &'a mut [u32],
}

impl<'a> Table<'a> {
    /// Lends a table. Nothing is looked at or written: the words may be those of an earlier table. All zero is an empty one.
    pub fn lend(
        nodes: &'a mut [u32],
        children: &'a mut [u32],
        cuts: &'a mut [i64],
        index: &'a mut [u32],
    ) -> Table<'a> {
        Table {
            nodes,
            children,
            cuts,
            index,
        }
    }

    /// The same table for reading.
    pub fn view(&self) -> View<'_> {
        View::of(self.nodes, self.children, self.cuts, self.index)
    }

    /// Makes the table empty, whatever the words held.
    ///
    /// # Errors
    ///
    /// `BadLength`.
    ///
    /// ```
    /// use spanwhistle::{Refusal, Room, Table, Used};
    ///
    /// const ROOM: Room = Room::LEAST;
    /// let mut nodes = [7; ROOM.node_words()];
    /// let (mut children, mut cuts) = ([7; ROOM.edge_words()], [7; ROOM.edge_words()]);
    /// let mut index = [7; ROOM.index_words()];
    /// let mut table = Table::lend(&mut nodes, &mut children, &mut cuts, &mut index);
    /// assert_eq!(table.check(), Err(Refusal::NotSound));
    /// table.fresh()?;
    /// assert_eq!(table.check(), Ok(Used { nodes: 0, edges: 0 }));
    /// # Ok::<(), Refusal>(())
    /// ```
    pub fn fresh(&mut self) -> Result<(), Refusal> {
        sys::fresh(self)
    }

    /// [`View::check`] of this table.
    ///
    /// # Errors
    ///
    /// `BadLength`, `NotSound`.
    pub fn check(&self) -> Result<Used, Refusal> {
        self.view().check()
    }

    /// [`View::evaluate`] on this table.
    ///
    /// # Errors
    ///
    /// `BadLength`, `NotSound`, `UnknownId`, `BadPlace`.
    pub fn evaluate(&self, reading: &Reading, id: NodeId) -> Result<bool, Refusal> {
        self.view().evaluate(reading, id)
    }

    /// The condition that a range variable compares so with a key.
    ///
    /// # Errors
    ///
    /// `BadLength`, `NotSound`, `BadVariable` (32 or more), `NoRoom`.
    pub fn from_comparison(
        &mut self,
        variable: u32,
        comparison: Comparison,
        key: i32,
    ) -> Result<NodeId, Refusal> {
        sys::from_comparison(self, variable, comparison, key)
    }

    /// The condition that a range variable lies within a range of keys, readings between keys included; crossed ends give FALSE.
    ///
    /// # Errors
    ///
    /// `BadLength`, `NotSound`, `BadVariable` (32 or more), `NoRoom`.
    ///
    /// ```
    /// use core::ops::Bound::Excluded;
    /// use spanwhistle::{NodeId, Refusal, Room, Table};
    ///
    /// const ROOM: Room = Room { nodes: 4, edges: 8 };
    /// let mut nodes = [0; ROOM.node_words()];
    /// let (mut children, mut cuts) = ([0; ROOM.edge_words()], [0; ROOM.edge_words()]);
    /// let mut index = [0; ROOM.index_words()];
    /// let mut table = Table::lend(&mut nodes, &mut children, &mut cuts, &mut index);
    /// let from_3_to_7 = table.from_range(0, 3..=7)?;
    /// // between 1 and 2 there are readings, though no keys
    /// let between = table.from_range(0, (Excluded(1), Excluded(2)))?;
    /// assert_ne!(between, NodeId::FALSE);
    /// assert_eq!(table.is_disjoint(from_3_to_7, between), Ok(true));
    /// # let crossed = table.from_range(0, (core::ops::Bound::Included(7), core::ops::Bound::Included(3)));
    /// # assert_eq!(crossed, Ok(NodeId::FALSE));
    /// # Ok::<(), Refusal>(())
    /// ```
    pub fn from_range(
        &mut self,
        variable: u32,
        range: impl RangeBounds<i32>,
    ) -> Result<NodeId, Refusal> {
        sys::from_range(self, variable, Ends::of(range))
    }

    /// The condition that a boolean variable is yes.
    ///
    /// # Errors
    ///
    /// `BadLength`, `NotSound`, `BadVariable` (below 32, or 64 or more), `NoRoom`.
    pub fn from_bool(&mut self, variable: u32) -> Result<NodeId, Refusal> {
        sys::from_bool(self, variable)
    }

    /// The condition that both hold. It is FALSE exactly when the two are apart, x exactly when x never holds without y.
    ///
    /// The memo has up to eight entries a set, and entries overwrite one another: on tables built for it this call can take
    /// about a second (189 nodes of many edges, the worst that is known), and the others that take a memo may. A longer memo is quicker for large conditions.
    ///
    /// # Errors
    ///
    /// `BadLength` (also of the memo), `NotSound`, `UnknownId`, `NoRoom`. `NoRoom` is never told where the answer is FALSE, x or y, since
    /// the table holds these.
    pub fn and(&mut self, memo: &mut [u64], x: NodeId, y: NodeId) -> Result<NodeId, Refusal> {
        sys::and(self, memo, x, y)
    }

    /// The condition that at least one of the two holds.
    ///
    /// # Errors
    ///
    /// `BadLength` (also of the memo), `NotSound`, `UnknownId`, `NoRoom`.
    pub fn or(&mut self, memo: &mut [u64], x: NodeId, y: NodeId) -> Result<NodeId, Refusal> {
        sys::or(self, memo, x, y)
    }

    /// [`View::is_disjoint`] on this table. Its own memo is small; [`Table::and`] is lent one.
    ///
    /// # Errors
    ///
    /// `BadLength`, `NotSound`, `UnknownId`.
    pub fn is_disjoint(&self, x: NodeId, y: NodeId) -> Result<bool, Refusal> {
        self.view().is_disjoint(x, y)
    }

    /// The condition where a boolean variable is known; a range variable leaves it as it is.
    ///
    /// # Errors
    ///
    /// `BadLength` (also of the memo), `NotSound`, `UnknownId`, `BadVariable` (64 or more), `NoRoom`.
    pub fn restrict(
        &mut self,
        memo: &mut [u64],
        id: NodeId,
        variable: u32,
        value: bool,
    ) -> Result<NodeId, Refusal> {
        sys::restrict(self, memo, id, variable, value)
    }

    /// The condition where a range variable is known to lie within a range: outside it the condition says what it says at the nearest place
    /// inside. A range that holds no place makes it FALSE wherever it still changes with the variable.
    ///
    /// # Errors
    ///
    /// `BadLength` (also of the memo), `NotSound`, `UnknownId`, `BadVariable` (32 or more), `NoRoom`.
    pub fn narrow(
        &mut self,
        memo: &mut [u64],
        id: NodeId,
        variable: u32,
        range: impl RangeBounds<i32>,
    ) -> Result<NodeId, Refusal> {
        sys::narrow(self, memo, id, variable, Ends::of(range))
    }

    /// The condition, and that a range variable lies within a range. A range that holds no place gives FALSE.
    ///
    /// # Errors
    ///
    /// `BadLength` (also of the memo), `NotSound`, `UnknownId`, `BadVariable` (32 or more), `NoRoom`.
    pub fn widen(
        &mut self,
        memo: &mut [u64],
        id: NodeId,
        variable: u32,
        range: impl RangeBounds<i32>,
    ) -> Result<NodeId, Refusal> {
        sys::widen(self, memo, id, variable, Ends::of(range))
    }
}

/// How long the slices are, and not what they hold.
impl fmt::Debug for Table<'_> {
    fn fmt(&self, f: &mut fmt::Formatter<'_>) -> fmt::Result {
        write_lengths(f, "Table", self.view())
    }
}
