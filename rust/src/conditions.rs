//! What a condition on one range variable is made of.
use core::ops::{Bound, RangeBounds};

/// The two ends of a range, as the kernel takes them: for each a kind and a key. Where an end is open the kernel does not look at the key.
#[derive(Clone, Copy, Debug, PartialEq, Eq)]
pub struct Ends {
    pub lower_kind: u32,
    pub lower_key: i32,
    pub upper_kind: u32,
    pub upper_key: i32,
}

impl Ends {
    /// The ends of a range of keys.
    pub fn of(range: impl RangeBounds<i32>) -> Ends {
        let (lower_kind, lower_key) = end(range.start_bound());
        let (upper_kind, upper_key) = end(range.end_bound());
        Ends {
            lower_kind,
            lower_key,
            upper_kind,
            upper_key,
        }
    }
}

/// The kernel's number for a kind of end, and the key.
fn end(bound: Bound<&i32>) -> (u32, i32) {
    match bound {
        Bound::Unbounded => (0, 0),
        Bound::Included(key) => (1, *key),
        Bound::Excluded(key) => (2, *key),
    }
}

/// How a range variable is compared with a key.
#[derive(Clone, Copy, Debug, PartialEq, Eq, Hash)]
pub enum Comparison {
    /// `=`
    Equal,
    /// `!=`
    NotEqual,
    /// `<`
    LessThan,
    /// `<=`
    LessEqual,
    /// `>`
    GreaterThan,
    /// `>=`
    GreaterEqual,
}

#[cfg(test)]
mod tests {
    use super::*;
    use core::ops::Bound::{Excluded, Included, Unbounded};

    #[test]
    fn ends_of_every_kind_of_range() {
        let ends = |lower: Bound<i32>, upper: Bound<i32>| Ends::of((lower, upper));
        let crossed = Ends {
            lower_kind: 2,
            lower_key: 7,
            upper_kind: 1,
            upper_key: 3,
        };
        assert_eq!(ends(Excluded(7), Included(3)), crossed);
        let open = Ends {
            lower_kind: 0,
            lower_key: 0,
            upper_kind: 0,
            upper_key: 0,
        };
        assert_eq!(Ends::of(..), open);
        assert_eq!(Ends::of(3..), ends(Included(3), Unbounded));
        assert_eq!(Ends::of(..7), ends(Unbounded, Excluded(7)));
        assert_eq!(Ends::of(..=7), ends(Unbounded, Included(7)));
        assert_eq!(Ends::of(3..7), ends(Included(3), Excluded(7)));
        assert_eq!(Ends::of(3..=7), ends(Included(3), Included(7)));
    }
}
