//! What algebra.rs takes from other crates, under the names that it has there.

/// The hash map of the source, or std's.
#[cfg(packaged)]
pub use rustc_hash::FxHashMap;
#[cfg(not(packaged))]
pub use std::collections::HashMap as FxHashMap;

/// A [`SmallVec`] with enough elements to hold two constant edges, as well as the
/// ranges in-between. (The source's own words and number.)
#[cfg(packaged)]
pub type SmallVec<T> = smallvec::SmallVec<[T; 5]>;
#[cfg(not(packaged))]
pub type SmallVec<T> = Vec<T>;

/// The intervals of a set of places: nearly always one.
#[cfg(packaged)]
pub type FewIntervals<T> = smallvec::SmallVec<[T; 1]>;
#[cfg(not(packaged))]
pub type FewIntervals<T> = Vec<T>;

/// A key. The source has versions and strings here.
pub type Version = i32;

/// The six comparisons with a key.
#[derive(Clone, Copy, PartialEq, Eq, Debug)]
pub enum MarkerOperator {
    Equal,
    NotEqual,
    LessThan,
    LessEqual,
    GreaterThan,
    GreaterEqual,
}

/// One of two iterators over the same items, as in crate `itertools`.
pub enum Either<L, R> {
    Left(L),
    Right(R),
}

impl<L, R> Iterator for Either<L, R>
where
    L: Iterator,
    R: Iterator<Item = L::Item>,
{
    type Item = L::Item;

    fn next(&mut self) -> Option<L::Item> {
        match self {
            Either::Left(left) => left.next(),
            Either::Right(right) => right.next(),
        }
    }
}
