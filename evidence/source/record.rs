//! How the records of a node are read off either form of the test Rust. Nothing here is from the source.

/// The first boolean variable: range variables have the numbers below it.
pub const FIRST_BOOLEAN: u32 = 32;

/// An edge of a node, as the kernel's table has it.
#[derive(Clone, Copy, PartialEq, Eq, Hash, Debug)]
pub struct Edge {
    /// The first place right of the edge; 0 for a last edge and for a boolean one.
    pub cut: i64,
    /// The id below it.
    pub child: u32,
}
