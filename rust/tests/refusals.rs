//! Every refusal, by every call that gives it; that a refused call leaves the table as it was; and that a table may be given back and lent
//! again.
mod lent;
use lent::{id, memo_of, Memory, A, B, SOILED, X};
use spanwhistle::Comparison::{Equal, GreaterEqual, GreaterThan, LessEqual, LessThan, NotEqual};
use spanwhistle::{NodeId, Reading, Refusal, Room, Table, Used, HIGHEST_PLACE, RANGE_VARIABLES};

/// Room for what `full` holds, and for no more.
const ROOM: Room = Room { nodes: 2, edges: 5 };

/// A full table: a is 2, and "a, and x in [3,7]" is 5. "x in [3,7]" by itself is not there, so that restriction too has to make a node.
fn full() -> Memory {
    let mut memory = Memory::new(ROOM);
    let mut table = memory.lend();
    let widened = table
        .from_bool(A)
        .and_then(|a| table.widen(&mut memo_of(ROOM), a, X, 3..=7));
    assert_eq!(widened, Ok(id(5)));
    assert_eq!(table.check(), Ok(Used { nodes: 2, edges: 5 }));
    memory
}

/// A call of which only the refusal is asked.
type Call = fn(&mut Table, &mut [u64]) -> Result<(), Refusal>;

/// Conditions that `full` does not hold.
const CONDITIONS: [Call; 8] = [
    |table, _| table.from_comparison(X, Equal, 9).map(drop),
    |table, _| table.from_comparison(X, NotEqual, 9).map(drop),
    |table, _| table.from_comparison(X, LessThan, 9).map(drop),
    |table, _| table.from_comparison(X, LessEqual, 9).map(drop),
    |table, _| table.from_comparison(X, GreaterThan, 9).map(drop),
    |table, _| table.from_comparison(X, GreaterEqual, 9).map(drop),
    |table, _| table.from_range(X, ..=9).map(drop),
    |table, _| table.from_bool(B).map(drop),
];

/// The calls that are lent a memo, each with an answer that `full` does not hold.
const WITH_MEMO: [Call; 5] = [
    |table, memo| table.and(memo, id(2), id(4)).map(drop),
    |table, memo| table.or(memo, id(3), id(5)).map(drop),
    |table, memo| table.restrict(memo, id(5), A, true).map(drop),
    |table, memo| table.narrow(memo, id(5), X, 3..).map(drop),
    |table, memo| table.widen(memo, id(5), X, ..=5).map(drop),
];

/// The calls that write nothing.
const READING: [Call; 3] = [
    |table, _| table.check().map(drop),
    |table, _| table.is_disjoint(id(2), id(5)).map(drop),
    |table, _| table.evaluate(&Reading::default(), id(5)).map(drop),
];

const FRESH: Call = |table, _| table.fresh();

/// Every call that tests whether the table is sound.
fn testing_calls() -> impl Iterator<Item = &'static Call> {
    CONDITIONS.iter().chain(&WITH_MEMO).chain(&READING)
}

/// The call is refused so, and the four slices are as they were; the memo after it.
fn refused<C>(memory: &mut Memory, mut memo: Vec<u64>, call: C, why: Refusal) -> Vec<u64>
where
    C: FnOnce(&mut Table, &mut [u64]) -> Result<(), Refusal>,
{
    let before = memory.clone();
    assert_eq!(call(&mut memory.lend(), &mut memo), Err(why));
    assert_eq!(*memory, before, "the table after a refusal");
    memo
}

/// As `refused`, with a memo of the right length, which stays as it was too.
fn refused_early<C>(memory: &mut Memory, call: C, why: Refusal)
where
    C: FnOnce(&mut Table, &mut [u64]) -> Result<(), Refusal>,
{
    let memo = refused(memory, memo_of(ROOM), call, why);
    assert_eq!(memo, memo_of(ROOM), "the memo after a refusal");
}

#[test]
fn nothing_is_refused_without_a_reason() {
    for call in testing_calls().chain([&FRESH]) {
        let room = Room {
            nodes: 8,
            edges: 32,
        };
        let mut memory = Memory::new(room);
        let mut memo = memo_of(room);
        let mut table = memory.lend();
        let widened = table
            .from_bool(A)
            .and_then(|a| table.widen(&mut memo, a, X, 3..=7));
        assert_eq!(widened, Ok(id(5)));
        assert_eq!(call(&mut table, &mut memo), Ok(()));
    }
}

#[test]
fn refusal_1_one_word_more_or_less() {
    let lengthen: [fn(&mut Memory); 4] = [
        |memory| memory.nodes.push(0),
        |memory| memory.children.push(0),
        |memory| memory.cuts.push(0),
        |memory| memory.index.push(0),
    ];
    let shorten: [fn(&mut Memory); 4] = [
        |memory| memory.nodes.truncate(7),
        |memory| memory.children.truncate(4),
        |memory| memory.cuts.truncate(4),
        |memory| memory.index.truncate(7),
    ];
    for change in lengthen.iter().chain(&shorten) {
        for call in testing_calls().chain([&FRESH]) {
            let mut memory = full();
            change(&mut memory);
            refused_early(&mut memory, call, Refusal::BadLength);
        }
    }
}

#[test]
fn refusal_1_empty_slices() {
    let mut memory = Memory {
        nodes: vec![],
        children: vec![],
        cuts: vec![],
        index: vec![],
    };
    for call in testing_calls().chain([&FRESH]) {
        refused_early(&mut memory, call, Refusal::BadLength);
    }
}

#[test]
fn refusal_1_memo() {
    let set = Room::MEMO_SET;
    let most = ROOM.memo_words();
    for words in [0, set - 1, set + 1, most - 1, most + 1, most + set] {
        for call in &WITH_MEMO {
            let memo = refused(&mut full(), vec![SOILED; words], call, Refusal::BadLength);
            assert_eq!(memo, vec![SOILED; words]);
        }
    }
}

#[test]
fn refusal_2() {
    let damages: [fn(&mut Memory); 9] = [
        |memory| memory.nodes[0] = 64,   // no such variable
        |memory| memory.nodes[1] = 0,    // a hole in the records
        |memory| memory.nodes[6] = 1,    // edges that overlap
        |memory| memory.nodes[3] = 1,    // the spare word
        |memory| memory.children[3] = 4, // a node below itself
        |memory| memory.cuts[2] = 16,    // cuts that do not rise
        |memory| memory.index.fill(0),   // an index that finds nothing
        |memory| memory.index[6] ^= 1,   // a hash
        |memory| memory.index[4] = 0,    // the second of a bucket, said to be its first
    ];
    for damage in damages {
        for call in testing_calls() {
            let mut memory = full();
            damage(&mut memory);
            refused_early(&mut memory, call, Refusal::NotSound);
        }
    }
}

#[test]
fn refusal_3() {
    type CallOf = fn(&mut Table, &mut [u64], NodeId) -> Result<(), Refusal>;
    let calls: [CallOf; 10] = [
        |table, memo, id| table.and(memo, id, NodeId::FALSE).map(drop),
        |table, memo, id| table.and(memo, NodeId::FALSE, id).map(drop),
        |table, memo, id| table.or(memo, id, NodeId::TRUE).map(drop),
        |table, memo, id| table.or(memo, NodeId::TRUE, id).map(drop),
        |table, memo, id| table.restrict(memo, id, A, true).map(drop),
        |table, memo, id| table.narrow(memo, id, X, ..).map(drop),
        |table, memo, id| table.widen(memo, id, X, ..).map(drop),
        |table, _, id| table.is_disjoint(id, NodeId::FALSE).map(drop),
        |table, _, id| table.is_disjoint(NodeId::FALSE, id).map(drop),
        |table, _, id| table.evaluate(&Reading::default(), id).map(drop),
    ];
    for number in [6, 7, u32::MAX - 1, u32::MAX] {
        for call in calls {
            let call = |table: &mut Table, memo: &mut [u64]| call(table, memo, id(number));
            refused_early(&mut full(), call, Refusal::UnknownId);
        }
    }
}

#[test]
fn refusal_4() {
    type CallOf = fn(&mut Table, &mut [u64], u32) -> Result<(), Refusal>;
    let ask_a_range: [CallOf; 4] = [
        |table, _, variable| table.from_comparison(variable, Equal, 9).map(drop),
        |table, _, variable| table.from_range(variable, ..).map(drop),
        |table, memo, variable| table.narrow(memo, id(2), variable, ..).map(drop),
        |table, memo, variable| table.widen(memo, id(2), variable, ..).map(drop),
    ];
    let ask_a_boolean: CallOf = |table, _, variable| table.from_bool(variable).map(drop);
    let ask_a_variable: CallOf =
        |table, memo, variable| table.restrict(memo, id(2), variable, true).map(drop);
    let wrong_range = ask_a_range.map(|call| (call, [32, 63, 64, u32::MAX]));
    let wrong_boolean = (ask_a_boolean, [0, 31, 64, u32::MAX]);
    let wrong_variable = (ask_a_variable, [64, 65, 96, u32::MAX]);
    for (call, variables) in wrong_range.iter().chain([&wrong_boolean, &wrong_variable]) {
        for variable in *variables {
            let call = |table: &mut Table, memo: &mut [u64]| call(table, memo, variable);
            refused_early(&mut full(), call, Refusal::BadVariable);
        }
    }
}

#[test]
fn refusal_5_of_any_variable() {
    for variable in 0..RANGE_VARIABLES {
        let call = |table: &mut Table, _: &mut [u64]| {
            let mut reading = Reading::default();
            reading.places[variable] = HIGHEST_PLACE + 1;
            table.evaluate(&reading, NodeId::TRUE).map(drop)
        };
        refused_early(&mut full(), call, Refusal::BadPlace);
    }
}

#[test]
fn refusal_6() {
    for call in &CONDITIONS {
        refused_early(&mut full(), call, Refusal::NoRoom);
    }
    for call in &WITH_MEMO {
        let memo = refused(&mut full(), memo_of(ROOM), call, Refusal::NoRoom);
        assert_eq!(memo, vec![0; ROOM.memo_words()], "the memo after no room");
    }
}

/// Readings refuse by variable what the kernel cannot see, and keep what they had.
#[test]
fn readings() {
    let mut reading = Reading::default();
    for variable in [32, 63, 64, u32::MAX] {
        assert_eq!(reading.set_key(variable, 1), Err(Refusal::BadVariable));
        assert_eq!(reading.set_above(variable, 1), Err(Refusal::BadVariable));
    }
    for variable in [0, 31, 64, u32::MAX] {
        assert_eq!(reading.set_bool(variable, true), Err(Refusal::BadVariable));
    }
    assert_eq!(reading, Reading::default());
    assert_eq!(reading.set_bool(63, true), Ok(()));
    assert_eq!(reading.set_bool(32, true), Ok(()));
    assert_eq!(reading.set_bool(63, false), Ok(()));
    assert_eq!((reading.places, reading.bools), ([0; 32], 1));
}

/// The words are the whole table: given back, copied and lent again they are the same table, and the ids are still right.
#[test]
fn a_table_is_lent_again() {
    let mut memory = full();
    let mut copy = memory.clone();
    let mut reading = Reading::default();
    reading.set_key(X, 5).expect("a range");
    reading.set_bool(A, true).expect("a boolean");
    for table in [memory.lend(), copy.lend()] {
        assert_eq!(table.evaluate(&reading, id(5)), Ok(true));
    }
    memory.nodes[3] = 1;
    assert_eq!(memory.lend().check(), Err(Refusal::NotSound));
    assert_eq!(memory.lend().fresh(), Ok(()));
    assert_eq!(memory, Memory::new(ROOM));
    assert_eq!(copy, full());
}
