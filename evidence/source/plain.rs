//! The source as it is.

/// Whether this form has document 01's two changes ([A] and [B] in algebra.rs).
pub const CHANGED: bool = false;

#[path = "algebra.rs"]
mod algebra;
pub use algebra::*;
