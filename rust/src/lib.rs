#![doc = include_str!("../README.md")]
#![no_std]
#![deny(unsafe_code, missing_docs)]

#[cfg(feature = "alloc")]
extern crate alloc;
#[cfg(any(test, feature = "std"))]
extern crate std;

mod conditions;
mod ids;
#[cfg(feature = "alloc")]
mod owned;
mod reading;
mod refusal;
mod room;
#[allow(unsafe_code)]
mod sys;
mod table;
mod view;

pub use conditions::Comparison;
pub use ids::NodeId;
#[cfg(feature = "alloc")]
pub use owned::OwnedTable;
pub use reading::{
    place, place_above, Reading, HIGHEST_PLACE, LOWEST_PLACE, RANGE_VARIABLES, VARIABLES,
};
pub use refusal::Refusal;
pub use room::{Room, Used};
pub use table::Table;
pub use view::View;
