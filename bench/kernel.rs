// The kernel as sides. What rt compiled: below its checks, whole calls, and the walk alone. And the same source, its contracts stripped,
// through rustc, below the checks.
use crate::shim;
use crate::sides::{put_to, Ask, Ends, Side, State};
use crate::tables::{lay, Node, Table};
use lent::calls as stripped;
use std::marker::PhantomData;
use std::ops::Bound;
use std::time::Duration;

/// Below the checks, as rt compiled it; the same through rustc; whole calls, each with its check of the table; and `and` and `or` with no
/// memo cleared, so that it stays for the next call.
pub struct Below;
pub struct Stripped;
pub struct Public;
pub struct Walk;

/// A table and a memo, as a caller lends them, and which calls are made. The table's counts are only for calls below the checks: a whole
/// call finds them itself.
pub struct Lent<Calls> {
    table: Table,
    memo: Vec<u64>,
    calls: PhantomData<Calls>,
}

/// Kind and key of a bound, as `spanwhistle` numbers them.
fn parts(bound: Bound<i32>) -> (u32, i32) {
    match bound {
        Bound::Unbounded => (0, 0),
        Bound::Included(key) => (1, key),
        Bound::Excluded(key) => (2, key),
    }
}

// One call below the checks; `memo` where it is lent one.
macro_rules! below {
    ($lent:expr, $call:path, ($($memo:ident)?), $($arg:expr),*) => {{
        let t = &mut $lent.table;
        let (used, edges, mut id) = (t.used, t.edges, 0);
        assert!(unsafe {
            $call(&mut t.nodes, &mut t.children, &mut t.cuts, &mut t.index, $(&mut $lent.$memo,)?
                used, edges, $($arg,)* &mut id, &mut t.used, &mut t.edges)
        });
        id
    }};
}

// One whole call.
macro_rules! whole {
    ($lent:expr, $call:path, ($($memo:ident)?), $($arg:expr),*) => {{
        let (t, mut id) = (&mut $lent.table, 0);
        assert_eq!(0, unsafe {
            $call(&mut t.nodes, &mut t.children, &mut t.cuts, &mut t.index, $(&mut $lent.$memo,)? $($arg,)* &mut id)
        });
        id
    }};
}

// A side below the checks: the module that has its calls, and its `and` and `or`, in which alone such sides may differ.
macro_rules! side_below {
    ($side:ident, $from:ident, $and:ident, $or:ident) => {
        impl Side for Lent<$side> {
            fn compare(&mut self, v: u32, op: u32, key: i32) -> u32 {
                below!(self, $from::below_compare, (), v as usize, op, key)
            }
            fn range(&mut self, v: u32, (lower, upper): Ends) -> u32 {
                let ((l, low), (u, high)) = (parts(lower), parts(upper));
                below!(self, $from::below_range, (), v as usize, l, low, u, high)
            }
            fn boolean(&mut self, v: u32) -> u32 {
                below!(self, $from::below_bool, (), v as usize)
            }
            fn and(&mut self, x: u32, y: u32) -> u32 {
                below!(self, $from::$and, (memo), x, y)
            }
            fn or(&mut self, x: u32, y: u32) -> u32 {
                below!(self, $from::$or, (memo), x, y)
            }
            fn is_disjoint(&mut self, x: u32, y: u32) -> bool {
                let t = &self.table;
                unsafe { $from::below_disjoint(&t.nodes, &t.children, &t.cuts, x, y) }
            }
            fn restrict(&mut self, x: u32, v: u32, value: bool) -> u32 {
                below!(self, $from::below_restrict, (memo), x, v as usize, value)
            }
            fn narrow(&mut self, x: u32, v: u32, (lower, upper): Ends) -> u32 {
                let ((l, low), (u, high)) = (parts(lower), parts(upper));
                below!(
                    self,
                    $from::below_narrow,
                    (memo),
                    x,
                    v as usize,
                    l,
                    low,
                    u,
                    high
                )
            }
            fn widen(&mut self, x: u32, v: u32, (lower, upper): Ends) -> u32 {
                let ((l, low), (u, high)) = (parts(lower), parts(upper));
                below!(
                    self,
                    $from::below_widen,
                    (memo),
                    x,
                    v as usize,
                    l,
                    low,
                    u,
                    high
                )
            }
        }
    };
}

side_below!(Below, shim, below_and, below_or);
side_below!(Stripped, stripped, below_and, below_or);
side_below!(Walk, shim, bare_and, bare_or);

impl Side for Lent<Public> {
    fn compare(&mut self, v: u32, op: u32, key: i32) -> u32 {
        match op {
            0 => whole!(self, shim::spanwhistle_equal, (), v, key),
            1 => whole!(self, shim::spanwhistle_not_equal, (), v, key),
            2 => whole!(self, shim::spanwhistle_less_than, (), v, key),
            3 => whole!(self, shim::spanwhistle_less_equal, (), v, key),
            4 => whole!(self, shim::spanwhistle_greater_than, (), v, key),
            _ => whole!(self, shim::spanwhistle_greater_equal, (), v, key),
        }
    }
    fn range(&mut self, v: u32, (lower, upper): Ends) -> u32 {
        let ((l, low), (u, high)) = (parts(lower), parts(upper));
        whole!(self, shim::spanwhistle_from_range, (), v, l, low, u, high)
    }
    fn boolean(&mut self, v: u32) -> u32 {
        whole!(self, shim::spanwhistle_from_bool, (), v)
    }
    fn and(&mut self, x: u32, y: u32) -> u32 {
        whole!(self, shim::spanwhistle_and, (memo), x, y)
    }
    fn or(&mut self, x: u32, y: u32) -> u32 {
        whole!(self, shim::spanwhistle_or, (memo), x, y)
    }
    fn is_disjoint(&mut self, x: u32, y: u32) -> bool {
        let (t, mut yes) = (&self.table, 0);
        let (n, c, z, i) = (&t.nodes, &t.children, &t.cuts, &t.index);
        let number = unsafe { shim::spanwhistle_is_disjoint(n, c, z, i, x, y, &mut yes) };
        assert_eq!(number, 0);
        yes == 1
    }
    fn restrict(&mut self, x: u32, v: u32, value: bool) -> u32 {
        whole!(self, shim::spanwhistle_restrict, (memo), x, v, value as u32)
    }
    fn narrow(&mut self, x: u32, v: u32, (lower, upper): Ends) -> u32 {
        let ((l, low), (u, high)) = (parts(lower), parts(upper));
        whole!(
            self,
            shim::spanwhistle_narrow,
            (memo),
            x,
            v,
            l,
            low,
            u,
            high
        )
    }
    fn widen(&mut self, x: u32, v: u32, (lower, upper): Ends) -> u32 {
        let ((l, low), (u, high)) = (parts(lower), parts(upper));
        whole!(self, shim::spanwhistle_widen, (memo), x, v, l, low, u, high)
    }
}

/// A side of the kernel, and the table that it goes back to.
pub struct Kernel<Calls> {
    lent: Lent<Calls>,
    kept: Table,
}

impl<Calls> Kernel<Calls> {
    pub fn new() -> Self {
        let kept = lay(&[], 1, 2);
        let lent = Lent {
            table: kept.clone(),
            memo: vec![],
            calls: PhantomData,
        };
        Kernel { lent, kept }
    }

    /// Used nodes and edges, as the check finds them.
    fn counts(&self) -> (usize, usize) {
        let t = &self.lent.table;
        let c = shim::check(&t.nodes, &t.children, &t.cuts, &t.index);
        assert_eq!(c.number, 0, "the table is not sound");
        (c.nodes, c.edges)
    }
}

impl<Calls> State for Kernel<Calls>
where
    Lent<Calls>: Side,
{
    fn begin(&mut self, base: &[Node], room: (usize, usize)) {
        self.lent.table = lay(base, room.0, room.1);
        // the most that may be lent: a set of eight words a record
        self.lent.memo = vec![0; room.0 * 8];
    }

    fn put(&mut self, asks: &[Ask], answers: &mut Vec<u32>) -> Duration {
        put_to(&mut self.lent, asks, answers)
    }

    fn keep(&mut self) {
        let (used, edges) = self.counts();
        self.lent.table.used = used;
        self.lent.table.edges = edges;
        self.kept = self.lent.table.clone();
    }

    /// In the same memory. The memo is zero, as a call leaves it and as one below the checks asks it.
    fn restore(&mut self) {
        let (to, from) = (&mut self.lent.table, &self.kept);
        to.nodes.copy_from_slice(&from.nodes);
        to.children.copy_from_slice(&from.children);
        to.cuts.copy_from_slice(&from.cuts);
        to.index.copy_from_slice(&from.index);
        to.used = from.used;
        to.edges = from.edges;
        self.lent.memo.fill(0);
    }

    fn nodes(&self) -> Vec<Node> {
        let t = &self.lent.table;
        let record = |r: &[u32]| {
            let (first, end) = (r[2] as usize, (r[2] + r[1]) as usize);
            Node {
                var: r[0],
                kids: t.children[first..end].to_vec(),
                cuts: t.cuts[first..end].to_vec(),
            }
        };
        let used = self.counts().0;
        t.nodes.chunks(4).take(used).map(record).collect()
    }

    fn holds(&self, id: u32, places: &[i64], bools: u32) -> bool {
        let (t, mut yes) = (&self.lent.table, 0);
        let (n, c, z, i) = (&t.nodes, &t.children, &t.cuts, &t.index);
        let number = unsafe { shim::spanwhistle_evaluate(n, c, z, i, places, bools, id, &mut yes) };
        assert_eq!(number, 0);
        yes == 1
    }
}
