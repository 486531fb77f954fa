//! The kernel's exported functions, as include/spanwhistle.h declares them, and for each a safe function that calls it. All `unsafe` of
//! this crate is here.
//!
//! A Rattle slice is an address and a length. What the header's "What a caller must not do" asks for holds by the types of what the safe
//! functions take:
//!
//! - a slice is not null and not misaligned, and its memory is as long as it says, also where it is empty;
//! - memory that a call may write comes as `&mut`, so nobody else reaches it while the call runs, and no two of them overlap;
//! - memory that a call only reads comes as `&`, so nobody writes it while the call runs;
//! - an out-parameter is a local variable of the function that calls.
//!
//! The kernel keeps no pointer when a call has returned, and it does not unwind.
use crate::conditions::{Comparison, Ends};
use crate::ids::NodeId;
use crate::reading::Reading;
use crate::refusal::{told, Refusal};
use crate::room::Used;
use crate::table::Table;
use crate::view::View;

/// Declares functions that begin with the eight parameters of a table: `mut` where the call may write it, `const` where it only reads.
macro_rules! declare {
    ($($pointer:tt $name:ident($($parameter:ident: $type:ty),*);)*) => {
        extern "C" {
            $(fn $name(
                nodes: *$pointer u32,
                nodes_len: usize,
                children: *$pointer u32,
                children_len: usize,
                cuts: *$pointer i64,
                cuts_len: usize,
                index: *$pointer u32,
                index_len: usize
                $(, $parameter: $type)*
            ) -> u32;)*
        }
    };
}

declare! {
    mut spanwhistle_fresh();
    const spanwhistle_check(used_nodes: *mut usize, used_edges: *mut usize);
    const spanwhistle_evaluate(places: *const i64, places_len: usize, bools: u32, id: u32, yes: *mut u32);
    mut spanwhistle_equal(variable: u32, key: i32, id: *mut u32);
    mut spanwhistle_not_equal(variable: u32, key: i32, id: *mut u32);
    mut spanwhistle_less_than(variable: u32, key: i32, id: *mut u32);
    mut spanwhistle_less_equal(variable: u32, key: i32, id: *mut u32);
    mut spanwhistle_greater_than(variable: u32, key: i32, id: *mut u32);
    mut spanwhistle_greater_equal(variable: u32, key: i32, id: *mut u32);
    mut spanwhistle_from_range(
        variable: u32, lower_kind: u32, lower_key: i32, upper_kind: u32, upper_key: i32, id: *mut u32
    );
    mut spanwhistle_from_bool(variable: u32, id: *mut u32);
    mut spanwhistle_and(memo: *mut u64, memo_len: usize, x: u32, y: u32, id: *mut u32);
    mut spanwhistle_or(memo: *mut u64, memo_len: usize, x: u32, y: u32, id: *mut u32);
    const spanwhistle_is_disjoint(x: u32, y: u32, yes: *mut u32);
    mut spanwhistle_restrict(
        memo: *mut u64, memo_len: usize, x: u32, variable: u32, value: u32, id: *mut u32
    );
    mut spanwhistle_narrow(
        memo: *mut u64, memo_len: usize, x: u32, variable: u32,
        lower_kind: u32, lower_key: i32, upper_kind: u32, upper_key: i32, id: *mut u32
    );
    mut spanwhistle_widen(
        memo: *mut u64, memo_len: usize, x: u32, variable: u32,
        lower_kind: u32, lower_key: i32, upper_kind: u32, upper_key: i32, id: *mut u32
    );
}

extern "C" {
    fn spanwhistle_not(id: u32) -> u32;
}

/// Calls a function that may write the table `$table: &mut Table`, with further arguments, and gives the number that it returned.
macro_rules! lend {
    ($function:expr, $table:expr $(, $argument:expr)*) => {
        // SAFETY: the slices are those of a `&mut Table`, which borrows each as `&mut`; pointers among the further arguments are of a
        // `&mut` slice with its length, or of a local variable. So all that the head of this file lists holds.
        unsafe {
            $function(
                $table.nodes.as_mut_ptr(),
                $table.nodes.len(),
                $table.children.as_mut_ptr(),
                $table.children.len(),
                $table.cuts.as_mut_ptr(),
                $table.cuts.len(),
                $table.index.as_mut_ptr(),
                $table.index.len()
                $(, $argument)*
            )
        }
    };
}

/// Calls a function that only reads the table `$table: View`, with further arguments, and gives the number that it returned.
macro_rules! show {
    ($function:expr, $table:expr $(, $argument:expr)*) => {
        // SAFETY: the slices are those of a `View`, so nobody writes them while the call runs, and the call does not; pointers among the
        // further arguments are of a `&` array with its length, or of a local variable. So all that the head of this file lists holds.
        unsafe {
            $function(
                $table.nodes.as_ptr(),
                $table.nodes.len(),
                $table.children.as_ptr(),
                $table.children.len(),
                $table.cuts.as_ptr(),
                $table.cuts.len(),
                $table.index.as_ptr(),
                $table.index.len()
                $(, $argument)*
            )
        }
    };
}

/// The id that a call answers: `lend!` with a local variable for the id as the last argument.
macro_rules! id_of {
    ($function:expr, $table:expr $(, $argument:expr)*) => {{
        let mut id = NodeId::FALSE.number();
        let number = lend!($function, $table $(, $argument)*, &mut id);
        told(number, NodeId::from_number(id))
    }};
}

pub fn not(id: NodeId) -> NodeId {
    // SAFETY: it takes and returns a number, and touches no memory.
    NodeId::from_number(unsafe { spanwhistle_not(id.number()) })
}

pub fn fresh(table: &mut Table) -> Result<(), Refusal> {
    told(lend!(spanwhistle_fresh, table), ())
}

pub fn check(table: View) -> Result<Used, Refusal> {
    let mut used = Used { nodes: 0, edges: 0 };
    let number = show!(spanwhistle_check, table, &mut used.nodes, &mut used.edges);
    told(number, used)
}

pub fn evaluate(table: View, reading: &Reading, id: NodeId) -> Result<bool, Refusal> {
    let places = &reading.places;
    let mut yes = 0;
    let number = show!(
        spanwhistle_evaluate,
        table,
        places.as_ptr(),
        places.len(),
        reading.bools,
        id.number(),
        &mut yes
    );
    told(number, yes != 0)
}

pub fn is_disjoint(table: View, x: NodeId, y: NodeId) -> Result<bool, Refusal> {
    let mut yes = 0;
    let number = show!(
        spanwhistle_is_disjoint,
        table,
        x.number(),
        y.number(),
        &mut yes
    );
    told(number, yes != 0)
}

pub fn from_comparison(
    table: &mut Table,
    variable: u32,
    comparison: Comparison,
    key: i32,
) -> Result<NodeId, Refusal> {
    let function = match comparison {
        Comparison::Equal => spanwhistle_equal,
        Comparison::NotEqual => spanwhistle_not_equal,
        Comparison::LessThan => spanwhistle_less_than,
        Comparison::LessEqual => spanwhistle_less_equal,
        Comparison::GreaterThan => spanwhistle_greater_than,
        Comparison::GreaterEqual => spanwhistle_greater_equal,
    };
    id_of!(function, table, variable, key)
}

pub fn from_range(table: &mut Table, variable: u32, ends: Ends) -> Result<NodeId, Refusal> {
    id_of!(
        spanwhistle_from_range,
        table,
        variable,
        ends.lower_kind,
        ends.lower_key,
        ends.upper_kind,
        ends.upper_key
    )
}

pub fn from_bool(table: &mut Table, variable: u32) -> Result<NodeId, Refusal> {
    id_of!(spanwhistle_from_bool, table, variable)
}

pub fn and(table: &mut Table, memo: &mut [u64], x: NodeId, y: NodeId) -> Result<NodeId, Refusal> {
    id_of!(
        spanwhistle_and,
        table,
        memo.as_mut_ptr(),
        memo.len(),
        x.number(),
        y.number()
    )
}

pub fn or(table: &mut Table, memo: &mut [u64], x: NodeId, y: NodeId) -> Result<NodeId, Refusal> {
    id_of!(
        spanwhistle_or,
        table,
        memo.as_mut_ptr(),
        memo.len(),
        x.number(),
        y.number()
    )
}

pub fn restrict(
    table: &mut Table,
    memo: &mut [u64],
    x: NodeId,
    variable: u32,
    value: bool,
) -> Result<NodeId, Refusal> {
    id_of!(
        spanwhistle_restrict,
        table,
        memo.as_mut_ptr(),
        memo.len(),
        x.number(),
        variable,
        u32::from(value)
    )
}

pub fn narrow(
    table: &mut Table,
    memo: &mut [u64],
    x: NodeId,
    variable: u32,
    ends: Ends,
) -> Result<NodeId, Refusal> {
    id_of!(
        spanwhistle_narrow,
        table,
        memo.as_mut_ptr(),
        memo.len(),
        x.number(),
        variable,
        ends.lower_kind,
        ends.lower_key,
        ends.upper_kind,
        ends.upper_key
    )
}

pub fn widen(
    table: &mut Table,
    memo: &mut [u64],
    x: NodeId,
    variable: u32,
    ends: Ends,
) -> Result<NodeId, Refusal> {
    id_of!(
        spanwhistle_widen,
        table,
        memo.as_mut_ptr(),
        memo.len(),
        x.number(),
        variable,
        ends.lower_kind,
        ends.lower_key,
        ends.upper_kind,
        ends.upper_key
    )
}
