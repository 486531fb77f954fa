// The speed of the check of a lent table, on full tables, small ones, empty ones, and tables built to be slow; against.rs has that of the
// operations. bench/run runs it.
mod crafted;
mod shim;
mod tables;
#[cfg(stripped)]
extern crate lent;
use crafted::{one_bucket, one_hash, Spread};
use shim::check;
use std::collections::HashMap;
use std::time::{Duration, Instant};
use tables::*;

fn time(name: &str, t: &Table, want: u32, secs: f64) {
    let (n, c, z, i) = (&t.nodes[..], &t.children[..], &t.cuts[..], &t.index[..]);
    let r = check(n, c, z, i);
    assert_eq!(r.number, want, "{name}");
    if want == 0 {
        assert_eq!((r.nodes, r.edges), (t.used, t.edges), "{name}");
    } else {
        assert_eq!((r.nodes, r.edges), (0, 0));
    }
    let mut best = Duration::MAX;
    let start = Instant::now();
    let mut runs = 0u64;
    // one check a sample, and where it is short, many
    let mut inner = 1u32;
    while runs < 5 || start.elapsed().as_secs_f64() < secs {
        let a = Instant::now();
        for _ in 0..inner {
            assert_eq!(check(n, c, z, i).number, want);
        }
        let d = a.elapsed();
        if d < Duration::from_micros(20) {
            inner *= 2;
            continue;
        }
        best = best.min(d / inner);
        runs += 1;
    }
    let ns = best.as_nanos() as f64;
    let per = if t.edges > 0 {
        format!("{:9.2}", ns / t.edges as f64)
    } else {
        "        -".into()
    };
    let mut longest = HashMap::new();
    let room = t.nodes.len() / 4;
    for n in 0..t.used {
        let e = t.nodes[n * 4 + 2] as usize;
        let k = t.nodes[n * 4 + 1] as usize;
        if e + k > t.children.len() {
            continue;
        }
        let mut h = t.nodes[n * 4] as u64;
        for j in e..e + k {
            h = mix(h, t.children[j], level(t.cuts[j]));
        }
        *longest.entry(h * room as u64 / M).or_insert(0) += 1;
    }
    println!(
        "{name:58} -> {want}  {:5} nodes {:6} edges  chain {:4}  {:11.2} us {per} ns/edge  ({runs} samples)",
        t.used,
        t.edges,
        longest.values().max().unwrap_or(&0),
        ns / 1000.0
    );
}

// Several tables in turn, so that the branch predictor has not learnt the one table by heart. Time of one check, the mean of a round.
fn turns(name: &str, ts: &[Table], secs: f64) {
    let mut best = Duration::MAX;
    let start = Instant::now();
    let mut runs = 0u64;
    while runs < 5 || start.elapsed().as_secs_f64() < secs {
        let a = Instant::now();
        for t in ts {
            let r = check(&t.nodes, &t.children, &t.cuts, &t.index);
            assert!(r.number == 0);
        }
        best = best.min(a.elapsed());
        runs += 1;
    }
    let ns = best.as_nanos() as f64 / ts.len() as f64;
    println!(
        "{name:58} -> 0  {:5} nodes {:6} edges              {:11.2} us {:9.2} ns/edge  ({runs} rounds)",
        ts[0].used,
        ts[0].edges,
        ns / 1000.0,
        ns / ts[0].edges as f64
    );
}

fn main() {
    let args: Vec<String> = std::env::args().collect();
    let secs: f64 = args.get(1).map(|s| s.parse().unwrap()).unwrap_or(1.0);
    let filter = args.get(2).cloned().unwrap_or_default();
    let go = |name: &str, t: &Table, want: u32| {
        if name.starts_with(&filter) {
            time(name, t, want, secs)
        }
    };
    let (room, er) = (4096, 16384);

    let a1 = lay(&random(1, room, er, false), room, er);
    let a2 = lay(&random(2, room, er, true), room, er);
    assert!(a1.edges == er && a2.edges == er);
    go("a1 random, full, variables descending", &a1, 0);
    go("a2 random, full, variables in no order", &a2, 0);

    for (many, f) in [
        (4u64, "a3 random, full, 4 tables in turn, descending"),
        (16, "a3 random, full, 16 tables in turn, descending"),
    ] {
        if f.starts_with(&filter) {
            turns(
                f,
                &(0..many)
                    .map(|i| lay(&random(100 + i, room, er, false), room, er))
                    .collect::<Vec<_>>(),
                secs,
            );
        }
    }
    let f = "a4 random, full, 4 tables in turn, no order";
    if f.starts_with(&filter) {
        turns(
            f,
            &(0..4)
                .map(|i| lay(&random(200 + i, room, er, true), room, er))
                .collect::<Vec<_>>(),
            secs,
        );
    }
    let f = "b3 random 64 nodes, room 64 and 256, 256 tables in turn";
    if f.starts_with(&filter) {
        turns(
            f,
            &(0..256)
                .map(|i| lay(&random(300 + i, 64, 256, false), 64, 256))
                .collect::<Vec<_>>(),
            secs,
        );
    }
    let l = random(3, 64, 256, false);
    go("b1 random 64 nodes, room 64 and 256", &lay(&l, 64, 256), 0);
    go(
        "b2 random 64 nodes, room 4096 and 16384",
        &lay(&l, room, er),
        0,
    );

    go("c  fresh, room 4096 and 16384", &lay(&[], room, er), 0);

    let narrow = |vars: usize, counts: &[usize], cut: &[usize]| Spread {
        vars,
        counts: counts.to_vec(),
        cut: cut.to_vec(),
    };
    let mut worst: Option<Table> = None;
    for count in [2, 3, 4, 5, 6, 8, 16, 32, 64] {
        let many = (er / count).min(room);
        let t = lay(
            &one_bucket(4, many, room, &narrow(1, &[count], &[])),
            room,
            er,
        );
        go(
            &format!("d1 one bucket, {many} x {count}, differ in the last cut"),
            &t,
            0,
        );
        if count == 4 {
            worst = Some(t);
        }
    }
    let mut fuzzy: Option<Table> = None;
    for (vars, counts, cut) in [
        (2usize, vec![4usize], vec![1usize, 1]),
        (4, vec![4], vec![1, 1]),
        (1, vec![4], vec![2, 1]),
        (1, vec![4], vec![4, 1]),
        (1, vec![4], vec![1, 2]),
        (1, vec![4], vec![1, 4]),
        (1, vec![4], vec![2, 2]),
        (1, vec![4], vec![2, 3]),
        (1, vec![4], vec![3, 2]),
        (1, vec![4], vec![2, 4]),
        (1, vec![4], vec![3, 3]),
        (2, vec![4], vec![2, 2]),
        (3, vec![4], vec![3, 2]),
        (1, vec![3, 4], vec![2, 2]),
        (2, vec![3, 4], vec![2, 2]),
        (1, vec![2, 3, 4, 5, 6], vec![2, 2, 2, 2]),
    ] {
        let sp = Spread {
            vars,
            counts: counts.clone(),
            cut: cut.clone(),
        };
        let mut l = one_bucket(5, room, room, &sp);
        let mut sum = 0;
        l.retain(|x| {
            sum += x.kids.len();
            sum <= er
        });
        let t = lay(&l, room, er);
        go(
            &format!("d2 one bucket, {vars} vars, counts {counts:?}, cuts {cut:?}"),
            &t,
            0,
        );
        if vars == 2 && counts == [4] && cut == [2, 2] {
            fuzzy = Some(t);
        }
    }

    // the hash says nothing of these: only their edges tell them apart
    for count in [4, 8, 16, 64] {
        let many = (er / count).min(room);
        let t = lay(&one_hash(many, room, count), room, er);
        go(
            &format!("d3 one hash, {many} x {count}, differ in two cuts"),
            &t,
            0,
        );
    }

    // (e) unsound
    let mut t = a1.clone();
    t.nodes[room * 4 - 1] = 1;
    go("e1 a1, last record's spare word 1", &t, 2);
    let mut t = a1.clone();
    let b = (0..room).find(|b| t.index[*b] == 0).unwrap();
    t.index[b] = 1;
    go("e2 a1, an empty bucket's head 1", &t, 2);
    // another node, none of its bucket, or another hash
    for (part, name) in [(2, "next"), (3, "one before"), (4, "hash")] {
        let mut t = a1.clone();
        let word = &mut t.index[part * room - 1];
        *word = 4095 - (*word == 4095) as u32;
        go(&format!("e3 a1, last {name} changed"), &t, 2);
    }
    // wrong index: one chain through all nodes, every head its first, the hashes right
    let chain = |t: &Table| {
        let mut t = t.clone();
        t.index[..room].fill(1);
        for n in 0..room {
            t.index[room + n] = (n as u32 + 2) % (room as u32 + 1);
            t.index[room * 2 + n] = n as u32;
        }
        t
    };
    go(
        "e4 a1, one chain through all, every head its first",
        &chain(&a1),
        2,
    );
    go(
        "e4 a2, one chain through all, every head its first",
        &chain(&a2),
        2,
    );
    let mut t = worst.clone().unwrap();
    t.index[0] = 1;
    go("e5 d1 4096 x 4, an empty bucket's head 1", &t, 2);
    let mut t = worst.clone().unwrap();
    t.nodes[room * 4 - 1] = 1;
    go("e5 d1 4096 x 4, last record's spare word 1", &t, 2);
    let mut t = worst.clone().unwrap();
    t.children[er - 1] = 2;
    go("e5 d1 4096 x 4, last edge's child no later variable", &t, 2);
    let mut t = fuzzy.clone().unwrap();
    t.index[0] = 1;
    go("e6 d2 2 vars, cuts 2 2, an empty bucket's head 1", &t, 2);
    // the last record the same as the first of the chain
    let mut l = one_bucket(4, room, room, &narrow(1, &[4], &[]));
    l[room - 1] = l[0].clone();
    go(
        "e7 d1 4096 x 4, last record that of the first",
        &lay(&l, room, er),
        2,
    );
    // zero behind a short table: a word at the very end
    let mut t = lay(&[], room, er);
    t.cuts[er - 1] = 1;
    go("e8 fresh, last cut 1", &t, 2);
    let mut t = lay(&[], room, er);
    t.index[room - 1] = 1;
    go("e8 fresh, last head 1", &t, 2);
    let mut t = lay(&[], room, er);
    t.index[room * 4 - 1] = 1;
    go("e8 fresh, last hash 1", &t, 2);
}
