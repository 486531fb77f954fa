// Nodes whose cuts are chosen so that they meet in one bucket of the index, or have one hash: tables built to be slow.
use crate::tables::*;
use std::collections::HashSet;

// The cuts that, as last cut of this prefix and before this last child, bring a node of `room` into bucket b, above `low`: the i-th found.
struct Solver {
    inv: u64,
    lo: u64,
    hi: u64,
    t: u64,
}
impl Solver {
    fn new(room: usize, b: u64) -> Solver {
        let room = room as u64;
        Solver {
            inv: inv_a(),
            lo: (b * M + room - 1) / room,
            hi: ((b + 1) * M + room - 1) / room,
            t: 0,
        }
    }
    fn cut(&mut self, h: u64, c: u32, last: u32, low: u64) -> Option<i64> {
        // hash = (h2 * A + last * B + ZERO) mod M = t, h2 = (h * A + c * B + x) mod M
        let (lo, hi) = (self.lo, self.hi);
        for _ in 0..1000000u32 {
            let t = lo + self.t % (hi - lo);
            let high = (self.t / (hi - lo)) % 2;
            self.t += 1;
            let h2 = (t + M - (last as u64 * B + ZERO) % M) % M * self.inv % M;
            let mut x = (h2 + M - (h * A + c as u64 * B) % M) % M + high * M;
            if x == 0 {
                x = 2 * M;
            }
            if x > low && x <= 2 * M {
                return Some(x as i64 - ZERO as i64);
            }
            if high == 0 && x + M > low && x + M <= 2 * M {
                return Some((x + M) as i64 - ZERO as i64);
            }
        }
        None
    }
}

// Spread of the worst cases: how many values each place of a record may have, before the last cut, which is solved for.
#[derive(Clone, Default)]
pub struct Spread {
    pub vars: usize,
    pub counts: Vec<usize>,
    pub cut: Vec<usize>,
}

// many nodes in one bucket of `room`; records agree but for the spread, and the last cut.
pub fn one_bucket(seed: u64, many: usize, room: usize, sp: &Spread) -> Vec<Node> {
    let mut r = Rng(seed);
    let mut s = Solver::new(room, room as u64 / 2);
    let mut seen = HashSet::new();
    let mut list = vec![];
    for _ in 0..many {
        let count = sp.counts[if sp.counts.len() > 1 {
            r.below(sp.counts.len())
        } else {
            0
        }];
        let var = if sp.vars > 1 {
            r.below(sp.vars) as u32
        } else {
            0
        };
        let kids: Vec<u32> = (0..count).map(|j| j as u32 % 2).collect();
        let mut h = var as u64;
        let mut low = 0u64;
        let mut cuts: Vec<i64> = vec![];
        for j in 0..count.saturating_sub(2) {
            let w = *sp.cut.get(j).unwrap_or(&1);
            let x = 1 + 10000 * j as u64 + r.below(w) as u64;
            h = mix(h, kids[j], x);
            low = x;
            cuts.push(x as i64 - ZERO as i64);
        }
        loop {
            let z = s
                .cut(h, kids[count - 2], kids[count - 1], low)
                .expect("a cut");
            let mut c = cuts.clone();
            c.push(z);
            c.push(0);
            let x = Node {
                var,
                kids: kids.clone(),
                cuts: c,
            };
            assert_eq!(hash(&x) * room as u64 / M, room as u64 / 2);
            if seen.insert(x.clone()) {
                list.push(x);
                break;
            }
        }
    }
    list
}

// many nodes of one hash, in the middle bucket of `room`: the last cut but one counts up, and the last is solved for.
pub fn one_hash(many: usize, room: usize, count: usize) -> Vec<Node> {
    let mut s = Solver::new(room, room as u64 / 2);
    s.hi = s.lo + 1;
    let kids: Vec<u32> = (0..count).map(|j| j as u32 % 2).collect();
    let mut node = |n: u64| {
        let (mut h, mut low, mut cuts) = (0, 0, vec![]);
        for j in 0..count - 2 {
            low = 1 + 10000 * j as u64 + if j + 3 == count { n * 3 } else { 0 };
            h = mix(h, kids[j], low);
            cuts.push(low as i64 - ZERO as i64);
        }
        let last = s.cut(h, kids[count - 2], kids[count - 1], low);
        cuts.extend([last.expect("a cut"), 0]);
        Node {
            var: 0,
            kids: kids.clone(),
            cuts,
        }
    };
    (0..many as u64).map(&mut node).collect()
}
