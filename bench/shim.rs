// What `spanwhistle` and calls.txt export, as Rust sees it. A slice goes as its address and its length, in two registers or two words of
// the stack.

// Exports of calls that write: the four slices of the table, the memo where the call is lent one (`memo`), and their own arguments
// between what all of a kind have.
macro_rules! exports {
    ($(public $name:ident($($memo:ident)?; $($arg:ident: $of:ty),*);)*
     $(below $inner:ident($($scratch:ident)?; $($x:ident: $t:ty),*);)*) => {
        extern "C" {
            $(pub fn $name(
                nodes: &mut [u32], children: &mut [u32], cuts: &mut [i64], index: &mut [u32], $($memo: &mut [u64],)?
                $($arg: $of,)* id: &mut u32,
            ) -> u32;)*
            $(pub fn $inner(
                nodes: &mut [u32], children: &mut [u32], cuts: &mut [i64], index: &mut [u32], $($scratch: &mut [u64],)?
                used: usize, edges: usize, $($x: $t,)* id: &mut u32, used_now: &mut usize, edges_now: &mut usize,
            ) -> bool;)*
        }
    };
}

exports! {
    public spanwhistle_equal(; v: u32, key: i32);
    public spanwhistle_not_equal(; v: u32, key: i32);
    public spanwhistle_less_than(; v: u32, key: i32);
    public spanwhistle_less_equal(; v: u32, key: i32);
    public spanwhistle_greater_than(; v: u32, key: i32);
    public spanwhistle_greater_equal(; v: u32, key: i32);
    public spanwhistle_from_range(; v: u32, lower: u32, low: i32, upper: u32, high: i32);
    public spanwhistle_from_bool(; v: u32);
    public spanwhistle_and(memo; x: u32, y: u32);
    public spanwhistle_or(memo; x: u32, y: u32);
    public spanwhistle_restrict(memo; x: u32, v: u32, value: u32);
    public spanwhistle_narrow(memo; x: u32, v: u32, lower: u32, low: i32, upper: u32, high: i32);
    public spanwhistle_widen(memo; x: u32, v: u32, lower: u32, low: i32, upper: u32, high: i32);
    below below_compare(; v: usize, op: u32, key: i32);
    below below_range(; v: usize, lower: u32, low: i32, upper: u32, high: i32);
    below below_bool(; v: usize);
    below below_and(memo; x: u32, y: u32);
    below below_or(memo; x: u32, y: u32);
    below below_restrict(memo; x: u32, v: usize, value: bool);
    below below_narrow(memo; x: u32, v: usize, lower: u32, low: i32, upper: u32, high: i32);
    below below_widen(memo; x: u32, v: usize, lower: u32, low: i32, upper: u32, high: i32);
    below bare_and(memo; x: u32, y: u32);
}

/// `or` of the walk alone, by negation.
pub unsafe fn bare_or(
    nodes: &mut [u32],
    children: &mut [u32],
    cuts: &mut [i64],
    index: &mut [u32],
    memo: &mut [u64],
    used: usize,
    edges: usize,
    x: u32,
    y: u32,
    id: &mut u32,
    used_now: &mut usize,
    edges_now: &mut usize,
) -> bool {
    let (x, y) = (x ^ 1, y ^ 1);
    let ok = bare_and(
        nodes, children, cuts, index, memo, used, edges, x, y, id, used_now, edges_now,
    );
    *id ^= 1;
    ok
}

// Where nothing is linked that rt compiled, these two are the stripped source's.
#[cfg(stripped)]
pub use lent::spanwhistle::tables::{spanwhistle_check, spanwhistle_evaluate};

extern "C" {
    #[cfg(not(stripped))]
    fn spanwhistle_check(
        nodes: &[u32],
        children: &[u32],
        cuts: &[i64],
        index: &[u32],
        used: &mut usize,
        edges: &mut usize,
    ) -> u32;
    #[cfg(not(stripped))]
    pub fn spanwhistle_evaluate(
        nodes: &[u32],
        children: &[u32],
        cuts: &[i64],
        index: &[u32],
        places: &[i64],
        bools: u32,
        id: u32,
        yes: &mut u32,
    ) -> u32;
    pub fn spanwhistle_is_disjoint(
        nodes: &[u32],
        children: &[u32],
        cuts: &[i64],
        index: &[u32],
        x: u32,
        y: u32,
        yes: &mut u32,
    ) -> u32;
    pub fn below_disjoint(
        nodes: &[u32],
        children: &[u32],
        cuts: &[i64],
        x: u32,
        y: u32,
    ) -> bool;
}

pub struct Checked {
    pub number: u32,
    pub nodes: usize,
    pub edges: usize,
}

pub fn check(n: &[u32], c: &[u32], z: &[i64], i: &[u32]) -> Checked {
    let (mut nodes, mut edges) = (0, 0);
    let number = unsafe { spanwhistle_check(n, c, z, i, &mut nodes, &mut edges) };
    Checked {
        number,
        nodes,
        edges,
    }
}
