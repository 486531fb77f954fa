//! A plain range type over places, written for the test Rust in the place of crate `version_ranges`: its functions, as far as algebra.rs
//! calls them, over the dense line of document 01. A key v stands at place 2v, and place 2v+1 lies strictly between v and v+1.

use std::ops::Bound;

use super::stand_ins::{FewIntervals, Version};

/// The place below all keys.
pub const LOWEST: i64 = -(1 << 32) - 1;

/// The place above all keys.
pub const HIGHEST: i64 = (1 << 32) - 1;

/// An unbroken run of places, from the first to the last.
#[derive(Clone, Copy, PartialEq, Eq, Hash, Debug)]
pub struct Interval {
    pub first: i64,
    pub last: i64,
}

impl Interval {
    /// The first place as a bound by a key.
    fn lower(self) -> Bound<Version> {
        if self.first == LOWEST {
            Bound::Unbounded
        } else if self.first % 2 == 0 {
            Bound::Included((self.first / 2) as Version)
        } else {
            Bound::Excluded(((self.first - 1) / 2) as Version)
        }
    }

    /// The last place as a bound by a key.
    fn upper(self) -> Bound<Version> {
        if self.last == HIGHEST {
            Bound::Unbounded
        } else if self.last % 2 == 0 {
            Bound::Included((self.last / 2) as Version)
        } else {
            Bound::Excluded(((self.last + 1) / 2) as Version)
        }
    }
}

/// A set of places: intervals in rising order, none empty, a gap between any two.
#[derive(Clone, PartialEq, Eq, Hash, Debug)]
pub struct Ranges {
    intervals: FewIntervals<Interval>,
}

/// The first place inside a lower bound.
pub fn first_place(bound: Bound<Version>) -> i64 {
    match bound {
        Bound::Unbounded => LOWEST,
        Bound::Included(key) => 2 * i64::from(key),
        Bound::Excluded(key) => 2 * i64::from(key) + 1,
    }
}

/// The last place inside an upper bound.
pub fn last_place(bound: Bound<Version>) -> i64 {
    match bound {
        Bound::Unbounded => HIGHEST,
        Bound::Included(key) => 2 * i64::from(key),
        Bound::Excluded(key) => 2 * i64::from(key) - 1,
    }
}

impl Ranges {
    /// The places from one to another. None, if the first is above the last.
    pub fn between(first: i64, last: i64) -> Ranges {
        let mut intervals = FewIntervals::new();
        if first <= last {
            intervals.push(Interval { first, last });
        }
        Ranges { intervals }
    }

    /// The places inside two bounds.
    pub fn from_range_bounds(bounds: (Bound<Version>, Bound<Version>)) -> Ranges {
        Ranges::between(first_place(bounds.0), last_place(bounds.1))
    }

    pub fn singleton(key: Version) -> Ranges {
        Ranges::from_range_bounds((Bound::Included(key), Bound::Included(key)))
    }

    pub fn higher_than(key: Version) -> Ranges {
        Ranges::from_range_bounds((Bound::Included(key), Bound::Unbounded))
    }

    pub fn strictly_higher_than(key: Version) -> Ranges {
        Ranges::from_range_bounds((Bound::Excluded(key), Bound::Unbounded))
    }

    pub fn lower_than(key: Version) -> Ranges {
        Ranges::from_range_bounds((Bound::Unbounded, Bound::Included(key)))
    }

    pub fn strictly_lower_than(key: Version) -> Ranges {
        Ranges::from_range_bounds((Bound::Unbounded, Bound::Excluded(key)))
    }

    pub fn is_empty(&self) -> bool {
        self.intervals.is_empty()
    }

    /// Whether a place is inside.
    pub fn contains(&self, place: i64) -> bool {
        self.intervals
            .iter()
            .any(|interval| interval.first <= place && place <= interval.last)
    }

    /// The intervals, each as two bounds by keys.
    pub fn iter(&self) -> impl Iterator<Item = (Bound<Version>, Bound<Version>)> + '_ {
        self.intervals
            .iter()
            .map(|interval| (interval.lower(), interval.upper()))
    }

    /// The bounds of the least interval around the whole set.
    pub fn bounding_range(&self) -> Option<(Bound<Version>, Bound<Version>)> {
        let first = self.intervals.first()?;
        let last = self.intervals.last()?;
        Some((first.lower(), last.upper()))
    }

    /// The last place of the set, which is not empty.
    pub fn last(&self) -> i64 {
        self.intervals.last().unwrap().last
    }

    /// The places that are not in the set: the gaps between its intervals, and what lies beyond.
    pub fn complement(&self) -> Ranges {
        let mut intervals = FewIntervals::new();
        let mut first = LOWEST;
        for interval in &self.intervals {
            if first < interval.first {
                intervals.push(Interval {
                    first,
                    last: interval.first - 1,
                });
            }
            first = interval.last + 1;
        }
        if first <= HIGHEST {
            intervals.push(Interval {
                first,
                last: HIGHEST,
            });
        }
        Ranges { intervals }
    }

    /// The places in both sets. Both lists are gone through once: of two intervals the one that ends first is left behind.
    pub fn intersection(&self, other: &Ranges) -> Ranges {
        let mut intervals = FewIntervals::new();
        let (mut i, mut j) = (0, 0);
        while i < self.intervals.len() && j < other.intervals.len() {
            let (x, y) = (self.intervals[i], other.intervals[j]);
            let first = x.first.max(y.first);
            let last = x.last.min(y.last);
            if first <= last {
                intervals.push(Interval { first, last });
            }
            if x.last < y.last {
                i += 1;
            } else {
                j += 1;
            }
        }
        Ranges { intervals }
    }

    /// The places in either set: all intervals by their first place, those that overlap or touch made one.
    pub fn union(&self, other: &Ranges) -> Ranges {
        let mut all = self.intervals.clone();
        all.extend(other.intervals.iter().copied());
        all.sort_by_key(|interval| interval.first);
        let mut intervals: FewIntervals<Interval> = FewIntervals::new();
        for interval in all {
            match intervals.last_mut() {
                Some(before) if interval.first <= before.last + 1 => {
                    before.last = before.last.max(interval.last);
                }
                _ => intervals.push(interval),
            }
        }
        Ranges { intervals }
    }
}
