//! A plain stand-in for crate `boxcar`: a vector that is pushed to through a shared reference and never moves what it holds. Elements lie
//! in buckets of doubling length, so that a push seldom allocates. The real one is safe to share between threads; this one has no
//! atomics and cannot be shared (its cells forbid it), which only makes it quicker.

use std::cell::{Cell, UnsafeCell};
use std::ops::Index;

/// The length of the first bucket, as in the crate.
const FIRST: usize = 32;

/// More buckets than memory could fill.
const BUCKETS: usize = 40;

pub struct Vec<T> {
    count: Cell<usize>,
    buckets: [UnsafeCell<std::vec::Vec<T>>; BUCKETS],
}

impl<T> Default for Vec<T> {
    fn default() -> Self {
        Vec {
            count: Cell::new(0),
            buckets: std::array::from_fn(|_| UnsafeCell::new(std::vec::Vec::new())),
        }
    }
}

/// The bucket of element `index` and its place there: bucket b begins with element FIRST * (2^b - 1).
fn place(index: usize) -> (usize, usize) {
    let scaled = index / FIRST + 1;
    let bucket = (usize::BITS - 1 - scaled.leading_zeros()) as usize;
    (bucket, index - FIRST * ((1 << bucket) - 1))
}

impl<T> Vec<T> {
    /// Appends a value and returns its index.
    pub fn push(&self, value: T) -> usize {
        let index = self.count.get();
        let (bucket, _) = place(index);
        // SAFETY: the vector's header is borrowed only inside `push` and `index`, and neither calls the other or foreign code. Elements are
        // borrowed from the bucket's heap block, which is allocated once, at full length, and so never moves.
        let slots = unsafe { &mut *self.buckets[bucket].get() };
        if slots.capacity() == 0 {
            slots.reserve_exact(FIRST << bucket);
        }
        slots.push(value);
        self.count.set(index + 1);
        index
    }

    /// How many values were pushed.
    pub fn count(&self) -> usize {
        self.count.get()
    }
}

impl<T> Index<usize> for Vec<T> {
    type Output = T;

    fn index(&self, index: usize) -> &T {
        let (bucket, offset) = place(index);
        // SAFETY: see `push`.
        let slots = unsafe { &*self.buckets[bucket].get() };
        &slots[offset]
    }
}
