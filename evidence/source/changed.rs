//! The source with one merge step before `create_node`, and widening as in document 01, step 9.

/// Whether this form has document 01's two changes ([A] and [B] in algebra.rs).
pub const CHANGED: bool = true;

#[path = "algebra.rs"]
mod algebra;
pub use algebra::*;
