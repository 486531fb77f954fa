//! Document 01, "Ids from a fresh table", case by case. C1 to C12 go in the document's order in one table, and C14 and C15 follow them.
mod lent;
use core::ops::Bound::{Excluded, Included, Unbounded};
use lent::{id, memo_of, Memory, A, B, X};
use spanwhistle::Comparison::{Equal, GreaterEqual, GreaterThan, LessEqual, LessThan, NotEqual};
use spanwhistle::{place, NodeId, Reading, Refusal, Room, Used, HIGHEST_PLACE, LOWEST_PLACE};

const ROOM: Room = Room {
    nodes: 16,
    edges: 64,
};

/// C1 to C11, each compared with the document's number; the table that they leave.
fn after_c11() -> Memory {
    let mut memory = Memory::new(ROOM);
    let mut memo = memo_of(ROOM);
    let mut table = memory.lend();
    assert_eq!(table.from_comparison(X, LessThan, 5), Ok(id(2)), "C1");
    assert_eq!(table.from_comparison(X, GreaterEqual, 5), Ok(id(3)), "C2");
    assert_eq!(table.from_comparison(X, LessEqual, 5), Ok(id(4)), "C3");
    let above = table.from_comparison(X, GreaterThan, 5);
    assert_eq!(above, Ok(id(5)), "the opposite of C3");
    assert_eq!(table.and(&mut memo, id(2), id(3)), Ok(NodeId::FALSE), "C4");
    assert_eq!(table.and(&mut memo, id(2), id(4)), Ok(id(2)), "C5");
    assert_eq!(table.and(&mut memo, id(3), id(4)), Ok(id(7)), "C6");
    assert_eq!(table.from_comparison(X, Equal, 5), Ok(id(7)), "C7");
    assert_eq!(table.from_comparison(X, NotEqual, 5), Ok(id(6)), "C7");
    assert_eq!(table.from_bool(A), Ok(id(8)), "C8");
    assert_eq!(table.and(&mut memo, id(2), id(8)), Ok(id(10)), "C9");
    assert_eq!(table.or(&mut memo, id(2), id(8)), Ok(id(12)), "C10");
    let between = table.from_range(X, (Excluded(1), Excluded(2)));
    assert_eq!(between, Ok(id(15)), "C11");
    for key in [1, 2] {
        let point = table.from_comparison(X, Equal, key).expect("room");
        assert_eq!(table.is_disjoint(id(15), point), Ok(true), "C11");
    }
    assert_eq!(memo, vec![0; ROOM.memo_words()]);
    memory
}

#[test]
fn c1_to_c11() {
    let mut memory = after_c11();
    let used = memory.lend().check();
    assert_eq!(
        used,
        Ok(Used {
            nodes: 9,
            edges: 22
        })
    );
}

#[test]
fn c12() {
    let mut memory = after_c11();
    let table = memory.lend();
    let mut reading = Reading::default();
    reading.set_bool(A, true).expect("a boolean");
    reading.set_place(X, 8).expect("a range");
    assert_eq!(table.evaluate(&reading, id(10)), Ok(true));
    reading.set_place(X, 10).expect("a range");
    assert_eq!(table.evaluate(&reading, id(10)), Ok(false));
}

/// "(x<1: a; 1<=x<2: a and b; else FALSE) and b has two edges, cut 4", read off the words after the table was given back.
#[test]
fn c13() -> Result<(), Refusal> {
    let mut memory = Memory::new(ROOM);
    let mut memo = memo_of(ROOM);
    let mut table = memory.lend();
    let (a, b) = (table.from_bool(A)?, table.from_bool(B)?);
    let below_1 = table.from_comparison(X, LessThan, 1)?;
    let from_1_to_2 = table.from_range(X, 1..2)?;
    let a_and_b = table.and(&mut memo, a, b)?;
    let left = table.and(&mut memo, below_1, a)?;
    let right = table.and(&mut memo, from_1_to_2, a_and_b)?;
    let either = table.or(&mut memo, left, right)?;
    let answer = table.and(&mut memo, either, b)?;
    let record = &memory.nodes[4 * (answer.number() as usize / 2 - 1)..][..4];
    assert_eq!(record[..2], [X, 2]);
    assert_eq!(memory.cuts[record[2] as usize], 4);
    Ok(())
}

#[test]
fn c14() {
    let mut memory = after_c11();
    let mut memo = memo_of(ROOM);
    let mut table = memory.lend();
    for (from, lower, upper, to) in [
        (7, Included(5), Included(5), NodeId::TRUE),
        (2, Included(3), Included(4), NodeId::TRUE),
        (2, Included(5), Unbounded, NodeId::FALSE),
        (2, Included(3), Included(7), id(2)),
    ] {
        let narrowed = table.narrow(&mut memo, id(from), X, (lower, upper));
        assert_eq!(narrowed, Ok(to), "{from} by {lower:?} {upper:?}");
    }
}

#[test]
fn c15() {
    let mut memory = after_c11();
    let mut memo = memo_of(ROOM);
    let mut table = memory.lend();
    let crossed = (Included(7), Included(3));
    for (from, narrowed) in [
        (NodeId::TRUE, NodeId::TRUE),
        (id(2), NodeId::FALSE),
        (id(8), id(8)),
    ] {
        assert_eq!(table.narrow(&mut memo, from, X, crossed), Ok(narrowed));
        assert_eq!(table.widen(&mut memo, from, X, crossed), Ok(NodeId::FALSE));
    }
}

/// "Widening a by x in [3,7]": the fault of the source that document 01 names. Here x stays above a, and a restriction takes a away again.
#[test]
fn widening_and_restriction() -> Result<(), Refusal> {
    let mut memory = Memory::new(ROOM);
    let mut memo = memo_of(ROOM);
    let mut table = memory.lend();
    let a = table.from_bool(A)?;
    let widened = table.widen(&mut memo, a, X, 3..=7)?;
    let below_3 = table.from_comparison(X, LessThan, 3)?;
    assert_eq!(table.is_disjoint(widened, below_3), Ok(true));
    let within = table.from_range(X, 3..=7)?;
    assert_eq!(table.and(&mut memo, a, within), Ok(widened));
    assert_eq!(table.restrict(&mut memo, widened, A, true), Ok(within));
    assert_eq!(
        table.restrict(&mut memo, widened, A, false),
        Ok(NodeId::FALSE)
    );
    assert_eq!(table.restrict(&mut memo, widened, X, true), Ok(widened));
    Ok(())
}

/// "A table with no free node still answers C5; a new condition gets 6."
#[test]
fn c16_no_free_node() -> Result<(), Refusal> {
    let room = Room {
        nodes: 4,
        edges: 12,
    };
    let mut memory = Memory::new(room);
    let mut memo = memo_of(room);
    let mut table = memory.lend();
    let below = table.from_comparison(X, LessThan, 5)?;
    let at_most = table.from_comparison(X, LessEqual, 5)?;
    table.from_comparison(X, Equal, 5)?;
    table.from_bool(A)?;
    assert_eq!(table.check().map(|used| used.nodes), Ok(room.nodes));
    assert_eq!(table.and(&mut memo, below, at_most), Ok(below));
    assert_eq!(table.from_comparison(X, LessThan, 6), Err(Refusal::NoRoom));
    Ok(())
}

/// "Room 4,096 is taken, 4,097 gets 1", and the same of edges and of the least rooms.
#[test]
fn c16_rooms() {
    let Room { nodes, edges } = Room::MOST;
    let allowed = |nodes, edges| Memory::new(Room { nodes, edges }).lend().check().is_ok();
    assert!(allowed(nodes, edges));
    assert!(!allowed(nodes + 1, edges));
    assert!(!allowed(nodes, edges + 1));
    let Room { nodes, edges } = Room::LEAST;
    assert!(allowed(nodes, edges));
    assert!(!allowed(nodes - 1, edges));
    assert!(!allowed(nodes, edges - 1));
}

/// "64 edges fit, a 65th gets 6": x<0 or x=2 or x=4, and so on to x=62, has 64 edges; with x>=100 it would have 65.
#[test]
fn c16_edges_of_a_node() -> Result<(), Refusal> {
    let room = Room {
        nodes: 80,
        edges: 2000,
    };
    let mut memory = Memory::new(room);
    let mut memo = memo_of(room);
    let mut table = memory.lend();
    let mut union = table.from_comparison(X, LessThan, 0)?;
    for key in (2..=62).step_by(2) {
        let point = table.from_comparison(X, Equal, key)?;
        union = table.or(&mut memo, union, point)?;
    }
    let far = table.from_comparison(X, GreaterEqual, 100)?;
    assert_eq!(table.or(&mut memo, union, far), Err(Refusal::NoRoom));
    assert_eq!(
        memory.nodes[4 * (union.number() as usize / 2 - 1) + 1],
        64,
        "edges of the union"
    );
    Ok(())
}

/// "Variable 63 is taken, 64 gets 4."
#[test]
fn c16_variables() {
    let mut memory = Memory::new(Room::LEAST);
    let mut table = memory.lend();
    assert_eq!(table.from_bool(63), Ok(id(2)));
    assert_eq!(table.from_bool(64), Err(Refusal::BadVariable));
}

/// "Place 2^32-1 is read, 2^32 gets 5", and the same at the lower end.
#[test]
fn c16_places() -> Result<(), Refusal> {
    let mut memory = Memory::new(Room::LEAST);
    let mut table = memory.lend();
    let above_all = table
        .from_comparison(X, LessEqual, i32::MAX)
        .map(|id| !id)?;
    let at = |place| {
        let mut reading = Reading::default();
        reading.places[X as usize] = place;
        table.evaluate(&reading, above_all)
    };
    assert_eq!((HIGHEST_PLACE, LOWEST_PLACE), (4294967295, -4294967297));
    assert_eq!(at(HIGHEST_PLACE), Ok(true));
    assert_eq!(at(HIGHEST_PLACE + 1), Err(Refusal::BadPlace));
    assert_eq!(at(place(i32::MAX)), Ok(false));
    assert_eq!(at(LOWEST_PLACE), Ok(false));
    assert_eq!(at(LOWEST_PLACE - 1), Err(Refusal::BadPlace));
    Ok(())
}
