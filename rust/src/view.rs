//! A lent table that nobody writes.
use crate::ids::NodeId;
use crate::reading::Reading;
use crate::refusal::Refusal;
use crate::room::Used;
use crate::sys;
use core::fmt;

/// A table that is lent for reading alone, as one in flash: the same four slices as a [`Table`](crate::Table)'s, shared, and the three calls
/// that write nothing. It may be copied, and many threads may read one table at the same time.
///
/// ```
/// use spanwhistle::{NodeId, Reading, Refusal, View};
///
/// // The words of a table that holds x < 5, where x is variable 0: its id is 2.
/// static NODES: [u32; 4] = [0, 2, 0, 0];
/// static CHILDREN: [u32; 2] = [0, 1];
/// static CUTS: [i64; 2] = [10, 0];
/// static INDEX: [u32; 4] = [1, 0, 0, 1671437475];
///
/// let table = View::of(&NODES, &CHILDREN, &CUTS, &INDEX);
/// let below_5 = NodeId::from_number(2);
/// let mut reading = Reading::default();
/// reading.set_key(0, 4)?;
/// assert_eq!(table.evaluate(&reading, below_5), Ok(true));
/// assert_eq!(table.is_disjoint(below_5, !below_5), Ok(true));
/// # Ok::<(), Refusal>(())
/// ```
#[derive(Clone, Copy)]
pub struct View<'a> {
    pub(crate) nodes: &'a [u32],
    pub(crate) children: &'a [u32],
    pub(crate) cuts: &'a [i64],
    pub(crate) index: &'a [u32],
}

impl<'a> View<'a> {
    /// Lends a table for reading. Nothing is looked at: the calls test it.
    pub const fn of(
        nodes: &'a [u32],
        children: &'a [u32],
        cuts: &'a [i64],
        index: &'a [u32],
    ) -> View<'a> {
        View {
            nodes,
            children,
            cuts,
            index,
        }
    }

    /// Tests the table, as every call does, and tells how much of it is used.
    ///
    /// # Errors
    ///
    /// `BadLength`, `NotSound`.
    pub fn check(self) -> Result<Used, Refusal> {
        sys::check(self)
    }

    /// Does the condition hold under the reading?
    ///
    /// # Errors
    ///
    /// `BadLength`, `NotSound`, `UnknownId`, `BadPlace` (of any variable, whether the condition tests it or not).
    pub fn evaluate(self, reading: &Reading, id: NodeId) -> Result<bool, Refusal> {
        sys::evaluate(self, reading, id)
    }

    /// Are the two apart, so that no reading makes both hold? FALSE is apart from everything, itself included.
    ///
    /// Its own memo holds some 500 pairs of ids. Where conditions are larger, ask [`Table::and`](crate::Table::and), which is lent one: two
    /// conditions are apart exactly when the id of both is FALSE.
    ///
    /// # Errors
    ///
    /// `BadLength`, `NotSound`, `UnknownId`.
    pub fn is_disjoint(self, x: NodeId, y: NodeId) -> Result<bool, Refusal> {
        sys::is_disjoint(self, x, y)
    }
}

/// How long the slices are, and not what they hold.
impl fmt::Debug for View<'_> {
    fn fmt(&self, f: &mut fmt::Formatter<'_>) -> fmt::Result {
        write_lengths(f, "View", *self)
    }
}

/// The lengths of the slices, in elements.
pub(crate) fn write_lengths(f: &mut fmt::Formatter<'_>, name: &str, view: View) -> fmt::Result {
    f.debug_struct(name)
        .field("nodes", &view.nodes.len())
        .field("children", &view.children.len())
        .field("cuts", &view.cuts.len())
        .field("index", &view.index.len())
        .finish()
}
