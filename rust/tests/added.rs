//! What the crate adds to the kernel's calls: shared views, ranges of keys, how things are written, and by feature an owned table and an
//! error that `?` takes.
mod lent;
use core::ops::Bound::{Excluded, Included, Unbounded};
use lent::{id, memo_of, Memory, A, B, X};
use spanwhistle::Comparison::{GreaterEqual, LessThan};
use spanwhistle::{NodeId, Reading, Refusal, Room, Used, View};

const ROOM: Room = Room {
    nodes: 16,
    edges: 64,
};

/// A view of the words gives what the table gives, from many threads at the same time, and refuses as it does.
#[test]
fn a_view_answers_as_the_table_does() -> Result<(), Refusal> {
    let mut memory = Memory::new(ROOM);
    let mut table = memory.lend();
    let below = table.from_comparison(X, LessThan, 5)?;
    let a = table.from_bool(A)?;
    let both = table.and(&mut memo_of(ROOM), below, a)?;
    let view = View::of(&memory.nodes, &memory.children, &memory.cuts, &memory.index);
    let mut reading = Reading::default();
    reading.set_bool(A, true)?;
    std::thread::scope(|threads| {
        for _ in 0..4 {
            threads.spawn(|| {
                assert_eq!(view.check(), Ok(Used { nodes: 3, edges: 6 }));
                assert_eq!(view.evaluate(&reading, both), Ok(true));
                assert_eq!(view.evaluate(&reading, !both), Ok(false));
                assert_eq!(view.is_disjoint(both, !below), Ok(true));
                assert_eq!(view.is_disjoint(both, a), Ok(false));
                assert_eq!(view.is_disjoint(both, id(8)), Err(Refusal::UnknownId));
            });
        }
    });
    let short = View::of(&memory.nodes, &memory.children, &memory.cuts, &[]);
    assert_eq!(short.check(), Err(Refusal::BadLength));
    let mut words = memory.nodes.clone();
    words[3] = 1;
    let not_sound = View::of(&words, &memory.children, &memory.cuts, &memory.index);
    assert_eq!(not_sound.check(), Err(Refusal::NotSound));
    Ok(())
}

/// Each form of a range is the comparison that it looks like.
#[test]
fn ranges_of_keys() -> Result<(), Refusal> {
    let mut memory = Memory::new(ROOM);
    let mut memo = memo_of(ROOM);
    let mut table = memory.lend();
    let from_3 = table.from_comparison(X, GreaterEqual, 3)?;
    let below_7 = table.from_comparison(X, LessThan, 7)?;
    let both = table.and(&mut memo, from_3, below_7)?;
    assert_eq!(table.from_range(X, 3..), Ok(from_3));
    assert_eq!(table.from_range(X, ..7), Ok(below_7));
    assert_eq!(table.from_range(X, 3..7), Ok(both));
    assert_eq!(table.from_range(X, ..), Ok(NodeId::TRUE));
    assert_eq!(
        table.from_range(X, (Included(7), Excluded(3))),
        Ok(NodeId::FALSE)
    );
    // 6.5 lies below 7 and above 6, so 3..7 is not 3..=6
    assert_ne!(table.from_range(X, 3..=6), Ok(both));
    let above_3 = table.from_range(X, (Excluded(3), Unbounded))?;
    assert_ne!(above_3, from_3);
    assert_eq!(table.from_range(X, (Included(3), Excluded(7))), Ok(both));
    assert_eq!(table.widen(&mut memo, NodeId::TRUE, X, 3..7), Ok(both));
    assert_eq!(table.narrow(&mut memo, both, X, 4..5), Ok(NodeId::TRUE));
    Ok(())
}

/// "No room" is told of no conjunction that is FALSE or an operand, so a program that compares rules may take it for an overlap. Tables of
/// every room up to 12 nodes, filled by conditions over two ranges and two booleans until one is refused; then every two of them.
#[test]
fn no_room_means_an_overlap_and_nothing_inside() {
    let mut met = 0;
    for nodes in 1..=12 {
        let room = Room { nodes, edges: 30 };
        let mut memory = Memory::new(room);
        let mut memo = memo_of(room);
        let mut table = memory.lend();
        let mut known = vec![NodeId::TRUE];
        for step in 0..40u32 {
            let key = (step % 5) as i32;
            let made = match step % 4 {
                0 => table.from_range(step % 3, key..key + 2),
                1 => table.from_bool(A + step % 2),
                2 => table.from_comparison(step % 2, LessThan, key),
                _ => table.from_bool(B),
            };
            let made = match made {
                Ok(made) => made,
                Err(_) => break,
            };
            let last = known[known.len() - 1];
            known.extend([made, !made]);
            if let Ok(joined) = table.or(&mut memo, last, made) {
                known.push(joined);
            }
        }
        for &x in &known {
            for &y in &known {
                let before = table.view().check();
                if table.and(&mut memo, x, y) == Err(Refusal::NoRoom) {
                    met += 1;
                    assert_eq!(table.is_disjoint(x, y), Ok(false));
                    assert_eq!(table.is_disjoint(x, !y), Ok(false));
                    assert_eq!(table.is_disjoint(!x, y), Ok(false));
                    assert_eq!(table.check(), before);
                }
            }
        }
    }
    assert!(met > 100, "refused only {met} times");
}

/// What a log shows: lengths and numbers, and not thousands of words.
#[test]
fn written_short() {
    let mut memory = Memory::new(Room::MOST);
    let table = memory.lend();
    let lengths = "{ nodes: 16384, children: 16384, cuts: 16384, index: 16384 }";
    assert_eq!(format!("{table:?}"), format!("Table {lengths}"));
    assert_eq!(format!("{:?}", table.view()), format!("View {lengths}"));
    assert_eq!(format!("{} {:>4}", NodeId::FALSE, id(15)), "1   15");
    let words = [
        (Refusal::BadLength, "refusal 1: a length is not allowed"),
        (Refusal::NotSound, "refusal 2: the table is not sound"),
        (Refusal::UnknownId, "refusal 3: the table has no such id"),
        (
            Refusal::BadVariable,
            "refusal 4: there is no such variable of this kind",
        ),
        (Refusal::BadPlace, "refusal 5: a place lies beyond the ends"),
        (
            Refusal::NoRoom,
            "refusal 6: there is no room for the answer",
        ),
    ];
    let header = include_str!("../../include/spanwhistle.h");
    for (refusal, text) in words {
        assert_eq!(refusal.to_string(), text);
        assert!(header.contains(&format!("\"{text}\"")), "in C: {text}");
    }
}

/// The crate and the header that it declares have one version.
#[test]
fn one_version() {
    let header = include_str!("../../include/spanwhistle.h");
    let line = format!(
        "#define SPANWHISTLE_VERSION {:?}\n",
        env!("CARGO_PKG_VERSION")
    );
    assert!(header.contains(&line), "{line}");
}

#[cfg(feature = "std")]
#[test]
fn a_refusal_goes_into_a_box() {
    fn refused() -> Result<NodeId, Box<dyn std::error::Error>> {
        let mut memory = Memory::new(Room::LEAST);
        let id = memory.lend().from_bool(X)?;
        Ok(id)
    }
    let error = refused().unwrap_err();
    assert_eq!(error.downcast_ref(), Some(&Refusal::BadVariable));
}

#[cfg(feature = "alloc")]
#[test]
fn an_owned_table() -> Result<(), Refusal> {
    use spanwhistle::OwnedTable;
    let mut owned = OwnedTable::new(ROOM)?;
    let empty = owned.clone();
    let (mut table, memo) = owned.lend();
    let from_3 = table.from_range(X, 3..)?;
    let a = table.from_bool(A)?;
    let both = table.and(memo, from_3, a)?;
    assert_eq!(owned.view().check().map(|used| used.nodes), Ok(3));
    assert_eq!(owned.view().is_disjoint(both, !a), Ok(true));
    assert_eq!(empty.view().check(), Ok(Used { nodes: 0, edges: 0 }));
    let lengths = "{ nodes: 64, children: 64, cuts: 64, index: 64 }";
    assert_eq!(format!("{owned:?}"), format!("OwnedTable {lengths}"));
    for (nodes, edges) in [(0, 2), (1, 1), (4097, 2), (1, 16385), (usize::MAX, 2)] {
        let refused = OwnedTable::new(Room { nodes, edges });
        assert_eq!(refused, Err(Refusal::BadLength));
    }
    for room in [Room::LEAST, Room::MOST] {
        assert!(OwnedTable::new(room)?.view().check().is_ok());
    }
    for sets in [0, ROOM.nodes + 1, usize::MAX] {
        assert_eq!(OwnedTable::with_memo(ROOM, sets), Err(Refusal::BadLength));
    }
    Ok(())
}

/// No answer goes by the memo's length: the same calls with any number of sets answer the same ids.
#[cfg(feature = "alloc")]
#[test]
fn a_memo_of_any_length() -> Result<(), Refusal> {
    use spanwhistle::OwnedTable;
    let built = |sets| {
        let mut owned = OwnedTable::with_memo(ROOM, sets)?;
        let (mut table, memo) = owned.lend();
        assert_eq!(memo.len(), Room::memo_words_of(sets));
        let warm = table.from_range(X, 3..7)?;
        let a = table.from_bool(A)?;
        let both = table.and(memo, warm, a)?;
        let either = table.or(memo, both, !warm)?;
        let without = table.restrict(memo, either, A, false)?;
        let narrowed = table.narrow(memo, either, X, 4..)?;
        let widened = table.widen(memo, either, X, ..=9)?;
        assert!(memo.iter().all(|word| *word == 0));
        Ok(([both, either, without, narrowed, widened], table.check()?))
    };
    let longest = built(ROOM.nodes)?;
    for sets in 1..ROOM.nodes {
        assert_eq!(built(sets)?, longest);
    }
    Ok(())
}
