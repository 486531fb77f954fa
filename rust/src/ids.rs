//! Ids of conditions.
use crate::sys;
use core::fmt;
use core::ops::Not;

/// The id of a condition. In one table, two conditions say the same exactly when they have the same id.
///
/// An id belongs to the table that it was made in; nothing ties the two together, so an id of another table is refused
/// ([`Refusal::UnknownId`](crate::Refusal::UnknownId)) or names some condition of this one. That is a mistake, and never undefined
/// behaviour.
///
/// ```
/// use spanwhistle::NodeId;
///
/// assert_eq!(!NodeId::TRUE, NodeId::FALSE);
/// let stored = NodeId::from_number(10);
/// assert_eq!((!stored).number(), 11);
/// assert_eq!(stored.to_string(), "10");
/// ```
#[derive(Clone, Copy, Debug, PartialEq, Eq, Hash, PartialOrd, Ord)]
pub struct NodeId(u32);

impl NodeId {
    /// The condition that always holds.
    pub const TRUE: NodeId = NodeId(0);
    /// The condition that never holds.
    pub const FALSE: NodeId = NodeId(1);

    /// An id from its number, as it was stored beside the table. Every number is taken: each call tests the ids that it is given.
    pub const fn from_number(number: u32) -> NodeId {
        NodeId(number)
    }

    /// The number of the id, for storing it beside the table.
    pub const fn number(self) -> u32 {
        self.0
    }
}

/// The opposite condition. It needs no table and is never refused.
impl Not for NodeId {
    type Output = NodeId;

    fn not(self) -> NodeId {
        sys::not(self)
    }
}

/// The number of the id, as reports and the documents write it.
impl fmt::Display for NodeId {
    fn fmt(&self, f: &mut fmt::Formatter<'_>) -> fmt::Result {
        fmt::Display::fmt(&self.0, f)
    }
}
