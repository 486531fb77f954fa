//! The replay program over the kernel's stripped source (bench/strip.py), in plain Rust: only for evidence/faults, which puts faults into
//! that source. It reads the same lines and writes the same answers as crates/replay, but nothing of it is proved.

extern crate lent;

use std::io::{BufRead, BufWriter, Write};

use lent::ids::NodeId;
use lent::kernel::{changes_calls, conditions_calls, disjointness_calls, joins_calls};
use lent::ranges::bounds::{Bound, Comparison};
use lent::table::calls;
use lent::table::lent::{Table, TableMut, Used};
use lent::table::refusal::Refusal;

/// What is held of each slice, and how many words of each are lent.
struct Held {
    nodes: Vec<u32>,
    children: Vec<u32>,
    cuts: Vec<i64>,
    index: Vec<u32>,
    memo: Vec<u64>,
    places: [i64; 32],
}

/// New words, all zero.
fn lend(places: [i64; 32], n: &[i64; 6]) -> Held {
    let at_most = |most: usize, wished: i64| most.min(wished as usize);
    Held {
        nodes: vec![0; at_most(16388, n[0])],
        children: vec![0; at_most(16385, n[1])],
        cuts: vec![0; at_most(16385, n[2])],
        index: vec![0; at_most(16388, n[3])],
        memo: vec![0; at_most(32776, n[4])],
        places,
    }
}

fn bound(kind: i64, key: i64) -> Bound {
    match kind {
        0 => Bound::Open,
        1 => Bound::Includes(key as i32),
        _ => Bound::Excludes(key as i32),
    }
}

fn comparison(number: i64) -> Comparison {
    match number {
        0 => Comparison::Equal,
        1 => Comparison::NotEqual,
        2 => Comparison::LessThan,
        3 => Comparison::LessEqual,
        4 => Comparison::GreaterThan,
        _ => Comparison::GreaterEqual,
    }
}

/// The words up to the last that is not 0, and a bar.
fn shown<T: PartialEq + Default + std::fmt::Display>(words: &[T]) -> String {
    let used = words.iter().rposition(|word| *word != T::default());
    let words = &words[..used.map_or(0, |last| last + 1)];
    words
        .iter()
        .map(|word| format!("{word} "))
        .collect::<String>()
        + "|"
}

fn poke(h: &mut Held, n: &[i64; 6]) {
    let words = match n[0] {
        0 => &mut h.nodes,
        1 => &mut h.children,
        3 => &mut h.index,
        4 => {
            if let Some(word) = h.memo.get_mut(n[1] as usize) {
                *word = n[2] as u64;
            }
            return;
        }
        _ => {
            if let Some(cut) = h.cuts.get_mut(n[1] as usize) {
                *cut = n[2];
            }
            return;
        }
    };
    if let Some(word) = words.get_mut(n[1] as usize) {
        *word = n[2] as u32;
    }
}

/// The number of an answer: 0, or that of its refusal.
fn number<T>(answer: &Result<T, Refusal>) -> u32 {
    answer.as_ref().err().map_or(0, |refusal| refusal.number())
}

/// Calls that make an id, if the letter is one of theirs.
fn make(h: &mut Held, letter: char, n: &[i64; 6]) -> Option<Result<NodeId, Refusal>> {
    let table = &mut TableMut {
        nodes: &mut h.nodes,
        children: &mut h.children,
        cuts: &mut h.cuts,
        index: &mut h.index,
    };
    let memo = &mut h.memo;
    let (x, y, v) = (NodeId(n[0] as u32), NodeId(n[1] as u32), n[0] as u32);
    let (low, high) = (bound(n[1], n[2]), bound(n[3], n[4]));
    let (lower, upper) = (bound(n[2], n[3]), bound(n[4], n[5]));
    Some(match letter {
        'b' => conditions_calls::from_bool(table, v),
        'c' => conditions_calls::from_comparison(table, v, comparison(n[1]), n[2] as i32),
        'r' => conditions_calls::from_range(table, v, low, high),
        'a' => joins_calls::and(table, memo, x, y),
        'o' => joins_calls::or(table, memo, x, y),
        't' => changes_calls::restrict(table, memo, x, y.0, n[2] != 0),
        'n' => changes_calls::narrow(table, memo, x, y.0, lower, upper),
        'w' => changes_calls::widen(table, memo, x, y.0, lower, upper),
        _ => return None,
    })
}

/// What a line that writes brings forth.
fn answer(h: &mut Held, letter: char, n: &[i64; 6]) -> String {
    if let Some(answer) = make(h, letter, n) {
        let id = answer.unwrap_or(NodeId::FALSE);
        return format!("{} {}", number(&answer), id.0);
    }
    if letter == 'f' {
        let table = &mut TableMut {
            nodes: &mut h.nodes,
            children: &mut h.children,
            cuts: &mut h.cuts,
            index: &mut h.index,
        };
        return number(&calls::fresh(table)).to_string();
    }
    let table = &Table {
        nodes: &h.nodes,
        children: &h.children,
        cuts: &h.cuts,
        index: &h.index,
    };
    let (first, second) = (n[0] as u32, NodeId(n[1] as u32));
    let told = match letter {
        'k' => {
            let answer = calls::check(table);
            let used = answer.unwrap_or(Used { nodes: 0, edges: 0 });
            return format!("{} {} {}", number(&answer), used.nodes, used.edges);
        }
        's' => {
            return [
                shown(&h.nodes),
                shown(&h.children),
                shown(&h.cuts),
                shown(&h.index),
                shown(&h.memo),
            ]
            .concat()
        }
        'e' => calls::evaluate(table, &h.places, first, second),
        'd' => disjointness_calls::is_disjoint(table, NodeId(first), second),
        _ => return "?".to_string(),
    };
    format!("{} {}", number(&told), u32::from(told.unwrap_or(false)))
}

fn main() {
    let mut held = lend([0; 32], &[0; 6]);
    let mut output = BufWriter::new(std::io::stdout().lock());
    for line in std::io::stdin().lock().lines() {
        let line = line.expect("the operations are text");
        let letter = line.chars().next().unwrap_or('#');
        let mut n = [0; 6];
        for (number, word) in n.iter_mut().zip(line.split(' ').skip(1)) {
            *number = word.parse().unwrap_or(0);
        }
        match letter {
            '#' => {}
            'l' => held = lend(held.places, &n),
            'p' => poke(&mut held, &n),
            'q' => held.places[n[0] as usize] = n[1],
            _ => {
                writeln!(output, "{}", answer(&mut held, letter, &n)).expect("the answer is taken")
            }
        }
    }
}
