// The kernel against the Rust: the same calls on both sides, round by round in turn. bench/run builds and runs it, bench/count counts
// instructions with it. No test, but it asserts that all sides did the same work.
extern crate lent;
extern crate source;
mod crafted;
mod families;
mod kernel;
mod shim;
mod sides;
mod source_sides;
mod tables;
mod workloads;
#[cfg(not(stripped))]
use kernel::{Below, Public, Walk};
use kernel::{Kernel, Stripped};
use sides::{Ask, Player, State, Work};
use source_sides::{Changed, Plain};
use std::time::{Duration, Instant};
use tables::{lay, random, Rng};

/// At least so many rounds.
const ROUNDS: usize = 51;

/// But no line goes on for longer, so that a call that became slow shows itself.
const LONGEST: f64 = 30.0;

/// Whole calls check the whole table each time, and are timed in the first rounds only.
const PUBLIC_ROUNDS: usize = 9;

const HEAD: &str = "\
Nanoseconds a call, less what timing takes: median and least of the rounds. The sides take turns in each round, and a ratio is the median
of the rounds' ratios, the Rust's time by the other's: above 1 the kernel is quicker. `leasts` is the ratio of the least times of the Rust
and `below`, or `stripped` where rt compiled nothing; a busy machine disturbs it less where a round is long.
  rust      the test Rust with its own crates: the source as it is; for widening, which breaks the order there, document 01's form
  below     the kernel as rt compiled it, below the checks of a call: its memo is zero before, and what was used of it is cleared
  stripped  the same source without contracts, through rustc
  walk      `and` and `or` with no memo cleared
  public    the whole call, with its check of the table and the pass that zeroes the memo
`fresh 64` is an empty table with room for 64 nodes, `kept 4096` one with room for 4,096 and 2,000 in it. `new`: the calls make their nodes.
`there`: the nodes are there, and no side knows that they were asked for. `again`: the same calls a second time, where the Rust's cache
answers at once; the kernel keeps none between calls (document 01: the memo is zeroed), and only the walk has its memo still.
Lines 1d to 1i look for nodes that are there: wide ones, and nodes among others that were built to meet in the index; 1e to 1i do so by restricting a
node at a switch that it does not test. Lines 9 are pairs of conditions that ask much of a memo, where not said otherwise in a table that is
full. `alone`: the Rust would take hours.
What stands before a round is restored outside the time: the kernel's table is copied back; the Rust's interner is built again with the same
nodes and an empty cache. Its maps grow inside the time on a fresh table; on a kept one they have room. Its lock, which its callers take for
each call, is taken once a round.";

/// The sides of a line; the Rust is first.
#[cfg(not(stripped))]
const SIDES: [&str; 5] = ["rust", "below", "stripped", "walk", "public"];
#[cfg(stripped)]
const SIDES: [&str; 2] = ["rust", "stripped"];

fn state(side: &str) -> Box<dyn State> {
    match side {
        "rust" => Box::new(Plain::default()),
        "changed" => Box::new(Changed::default()),
        #[cfg(not(stripped))]
        "below" => Box::new(Kernel::<Below>::new()),
        "stripped" => Box::new(Kernel::<Stripped>::new()),
        #[cfg(not(stripped))]
        "walk" => Box::new(Kernel::<Walk>::new()),
        #[cfg(not(stripped))]
        "public" => Box::new(Kernel::<Public>::new()),
        other => panic!("no side {}", other),
    }
}

/// The sides that a workload is timed on: only `and` and `or` have a walk, for widening the Rust is document 01's form, and some are the
/// kernel's alone.
fn players(work: &Work) -> Vec<Player> {
    let joins = matches!(work.asks[0], Ask::And(..) | Ask::Or(..));
    let widens = matches!(work.asks[0], Ask::Widen(..));
    let form = |side: &'static str| match side {
        "rust" if widens => "changed",
        side => side,
    };
    let sides = SIDES.iter().filter(|side| match **side {
        "rust" => !work.alone,
        "walk" => joins,
        _ => true,
    });
    sides
        .map(|side| Player::prepared(side, state(form(side)), work))
        .collect()
}

/// Readings near the keys of the workloads, and any.
fn readings() -> Vec<(Vec<i64>, u32)> {
    let mut r = Rng(9);
    let mut reading = |n: usize| {
        let any = (0..32).map(|_| r.below(4000) as i64 - 1000).collect();
        let wide = (0..32).map(|_| r.next() as i32 as i64 * 2).collect();
        (if n % 4 == 0 { wide } else { any }, r.next() as u32)
    };
    (0..200).map(&mut reading).collect()
}

/// One round of each side, not timed: all sides of the kernel give the ids of the Rust in document 01's form and leave its nodes; and the
/// Rust that is timed says the same as that under readings. Where the kernel is alone, its sides give the same. Returns how many nodes the
/// calls make.
fn agree(work: &Work, players: &mut [Player]) -> usize {
    let judged = if work.alone { "stripped" } else { "changed" };
    let mut judge = Player::prepared("judge", state(judged), work);
    let before = judge.state.nodes().len();
    judge.round(work);
    let nodes = judge.state.nodes();
    for player in players {
        player.round(work);
        if player.name == "rust" {
            same_meaning(work, player, &judge);
            continue;
        }
        let of = (&work.name, player.name);
        assert_eq!(player.answers, judge.answers, "ids of {:?}", of);
        assert!(player.state.nodes() == nodes, "nodes of {:?}", of);
    }
    nodes.len() - before
}

/// Two forms of the Rust give answers that mean the same: yes or no, or ids that are read under many readings, every seventh.
fn same_meaning(work: &Work, player: &Player, judge: &Player) {
    if matches!(work.asks[0], Ask::Disjoint(..)) {
        return assert_eq!(player.last(), judge.last(), "{}", work.name);
    }
    for (x, y) in player.last().iter().zip(judge.last()).step_by(7) {
        for (places, bools) in readings() {
            let said = player.state.holds(*x, &places, bools);
            assert_eq!(said, judge.state.holds(*y, &places, bools), "{}", work.name);
        }
    }
}

fn median(list: &mut [f64]) -> f64 {
    list.sort_by(|a, b| a.partial_cmp(b).unwrap());
    list[list.len() / 2]
}

/// What timing itself takes, in nanoseconds.
fn idle() -> f64 {
    let mut list: Vec<f64> = (0..1001)
        .map(|_| Instant::now().elapsed().as_nanos() as f64)
        .collect();
    median(&mut list)
}

/// Rounds of all sides in turn, until the time is over; nanoseconds a call for each side and round.
fn rounds(work: &Work, players: &mut [Player], seconds: f64) -> Vec<Vec<f64>> {
    let (idle, calls) = (idle(), work.asks.len() as f64);
    let mut times = vec![vec![]; players.len()];
    let start = Instant::now();
    let more = |rounds: usize| match start.elapsed().as_secs_f64() {
        time if time < seconds => true,
        time => rounds == 0 || rounds < ROUNDS && time < LONGEST,
    };
    while more(times[0].len()) {
        for (player, list) in players.iter_mut().zip(&mut times) {
            if player.name == "public" && list.len() == PUBLIC_ROUNDS {
                continue;
            }
            let time = player.round(work).as_nanos() as f64;
            list.push((time - idle) / calls);
        }
    }
    times
}

/// A workload's line. A side that is not timed has dashes.
fn line(work: &Work, seconds: f64) {
    let mut players = players(work);
    let made = agree(work, &mut players);
    let mut times = rounds(work, &mut players, seconds);
    let of = |side: &str| players.iter().position(|player| player.name == side);
    let rust: Vec<f64> = of("rust").map_or(vec![], |at| times[at].clone());
    let rounds = times[0].len();
    print!("{:46} {:5} {:5}", work.name, work.asks.len(), made);
    let (mut ratios, mut leasts) = (String::new(), vec![]);
    for side in SIDES {
        let mut ratio: Vec<f64> = vec![];
        match of(side) {
            Some(at) => {
                ratio.extend(rust.iter().zip(&times[at]).map(|(r, t)| r / t));
                print!(" {:9.0} {:9.0}", median(&mut times[at]), times[at][0]);
                leasts.push(times[at][0]);
            }
            None => print!(" {:>9} {:>9}", "-", "-"),
        }
        if side != "rust" && ratio.is_empty() {
            ratios += &format!("{:>10}", "-");
        } else if side != "rust" {
            ratios += &format!("{:10.2}", median(&mut ratio));
        }
    }
    let least = match rust.is_empty() {
        true => "-".into(),
        false => format!("{:.2}", leasts[0] / leasts[1]),
    };
    println!("{} {:>9} {:7}", ratios, least, rounds);
}

/// 8: one check of a full table. The Rust has nothing to set beside it.
fn full_check(seconds: f64) {
    let t = lay(&random(1, 4096, 16384, false), 4096, 16384);
    let mut list = vec![];
    let start = Instant::now();
    while list.len() < ROUNDS || start.elapsed().as_secs_f64() < seconds {
        let one = Instant::now();
        let c = shim::check(&t.nodes, &t.children, &t.cuts, &t.index);
        list.push(one.elapsed().as_nanos() as f64);
        assert_eq!((c.number, c.nodes, c.edges), (0, 4096, 16384));
    }
    let middle = median(&mut list);
    println!(
        "8 one check of a full table, 4,096 nodes and 16,384 edges: median {:.0}, least {:.0} ns",
        middle, list[0]
    );
}

/// Runs one workload on one side so many times, for bench/count.
fn count(side: &str, name: &str, times: usize) {
    let list = workloads::all(name);
    let work = list.first().expect("a workload of that name");
    let mut player = Player::prepared("counted", state(side), work);
    let total: Duration = (0..times).map(|_| player.round(work)).sum();
    println!("{}|{}|{:?}", work.name, work.asks.len(), total);
}

fn main() {
    let args: Vec<String> = std::env::args().skip(1).collect();
    if args[0] == "count" {
        return count(&args[1], &args[2], args[3].parse().unwrap());
    }
    let seconds: f64 = args[0].parse().unwrap();
    println!("{}\n", HEAD);
    print!("{:46} {:>5} {:>5}", "", "calls", "made");
    for side in SIDES {
        print!(" {:>9} {:>9}", side, "least");
    }
    for side in &SIDES[1..] {
        print!("{:>10}", format!("/{}", side));
    }
    println!(" {:>9} {:>7}", "leasts", "rounds");
    for work in workloads::all(&args[1]) {
        line(&work, seconds);
    }
    if "8".starts_with(&args[1]) {
        full_check(seconds);
    }
}
