// The test Rust as sides, in both its forms, with the hash map and the small vector that the source uses.
use crate::sides::{put_to, Ask, Ends, Side, State};
use crate::tables::Node;
use source::stand_ins::MarkerOperator;
use source::stand_ins::MarkerOperator::*;
use source::{changed, plain};
use std::time::Duration;

/// The operators by their numbers.
const OPERATORS: [MarkerOperator; 6] = [
    Equal,
    NotEqual,
    LessThan,
    LessEqual,
    GreaterThan,
    GreaterEqual,
];

// A form of the test Rust as a side. The source's callers take its lock for each call; here it is taken once for all, in its favour.
macro_rules! source_side {
    ($side:ident, $state:ident, $form:ident) => {
        pub struct $side<'a>($form::InternerGuard<'a>);

        impl Side for $side<'_> {
            fn compare(&mut self, v: u32, op: u32, key: i32) -> u32 {
                self.0.comparison(v, OPERATORS[op as usize], key).number()
            }
            fn range(&mut self, v: u32, (lower, upper): Ends) -> u32 {
                self.0.range(v, lower, upper).number()
            }
            fn boolean(&mut self, v: u32) -> u32 {
                self.0.boolean(v).number()
            }
            fn and(&mut self, x: u32, y: u32) -> u32 {
                let id = $form::NodeId::from_number;
                self.0.and(id(x), id(y)).number()
            }
            fn or(&mut self, x: u32, y: u32) -> u32 {
                let id = $form::NodeId::from_number;
                self.0.or(id(x), id(y)).number()
            }
            fn is_disjoint(&mut self, x: u32, y: u32) -> bool {
                let id = $form::NodeId::from_number;
                self.0.is_disjoint(id(x), id(y))
            }
            fn restrict(&mut self, x: u32, v: u32, value: bool) -> u32 {
                let id = $form::NodeId::from_number(x);
                self.0.restrict_one(id, v, value).number()
            }
            fn narrow(&mut self, x: u32, v: u32, (lower, upper): Ends) -> u32 {
                let id = $form::NodeId::from_number(x);
                self.0.simplify(id, v, lower, upper).number()
            }
            fn widen(&mut self, x: u32, v: u32, (lower, upper): Ends) -> u32 {
                let id = $form::NodeId::from_number(x);
                self.0.complexify(id, v, lower, upper).number()
            }
        }

        /// An interner, and the nodes that it is built again with.
        #[derive(Default)]
        pub struct $state {
            interner: $form::Interner,
            kept: Vec<Node>,
        }

        impl State for $state {
            /// Where there are many nodes, the maps have room for more, as those of an interner that was in use for long; where there are
            /// few, they grow as they do from the start. The test Rust has no limit of room.
            fn begin(&mut self, base: &[Node], _: (usize, usize)) {
                self.interner = $form::Interner::default();
                let mut guard = self.interner.lock();
                for n in base {
                    guard.record(n.var, &n.cuts, &n.kids);
                }
                if base.len() > 1000 {
                    guard.reserve(4096);
                }
            }

            fn put(&mut self, asks: &[Ask], answers: &mut Vec<u32>) -> Duration {
                put_to(&mut $side(self.interner.lock()), asks, answers)
            }

            fn keep(&mut self) {
                self.kept = self.nodes();
            }

            fn restore(&mut self) {
                let kept = std::mem::take(&mut self.kept);
                self.begin(&kept, (0, 0));
                self.kept = kept;
            }

            fn nodes(&self) -> Vec<Node> {
                let shared = &self.interner.shared;
                let node = |n| Node {
                    var: shared.variable(n),
                    kids: shared.edges(n).iter().map(|e| e.child).collect(),
                    cuts: shared.edges(n).iter().map(|e| e.cut).collect(),
                };
                (0..shared.count()).map(node).collect()
            }

            fn holds(&self, id: u32, places: &[i64], bools: u32) -> bool {
                let id = $form::NodeId::from_number(id);
                self.interner.shared.evaluate(id, places, bools)
            }
        }
    };
}

source_side!(PlainSide, Plain, plain);
source_side!(ChangedSide, Changed, changed);
