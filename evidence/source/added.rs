//! What the judge and the benchmark ask beside the source's own functions. Nothing here is from the source.

use std::ops::Bound;

use super::super::super::ranges::{Ranges, HIGHEST, LOWEST};
use super::super::super::record::{Edge, FIRST_BOOLEAN};
use super::super::super::stand_ins::{MarkerOperator, SmallVec, Version};
use super::{Edges, InternerGuard, InternerShared, Node, NodeId, Variable};

impl Variable {
    /// The variable of a number, 0 to 63, as document 01 counts them.
    pub fn numbered(number: u32) -> Variable {
        if number < FIRST_BOOLEAN {
            Variable::Version(number)
        } else {
            Variable::Extra(number)
        }
    }

    pub fn number(&self) -> u32 {
        match *self {
            Variable::Version(number) | Variable::Extra(number) => number,
        }
    }
}

impl NodeId {
    /// The id as a number: 0 is TRUE, 1 is FALSE.
    pub fn number(self) -> u32 {
        self.0 as u32
    }

    pub fn from_number(number: u32) -> NodeId {
        NodeId(number as usize)
    }
}

impl InternerShared {
    /// How many nodes were made.
    pub fn count(&self) -> usize {
        self.nodes.count()
    }

    /// The variable of node number `n`.
    pub fn variable(&self, n: usize) -> u32 {
        self.nodes[n].var.number()
    }

    /// The edges of node number `n`: of a range node from left to right, of a boolean one high, then low.
    pub fn edges(&self, n: usize) -> Vec<Edge> {
        match &self.nodes[n].children {
            Edges::Version { edges } => edges.iter().map(with_cut).collect(),
            Edges::Boolean { high, low } => vec![uncut(*high), uncut(*low)],
        }
    }

    /// What an id says under a place for each range variable and a bit for each boolean one (bit i is variable 32+i).
    pub fn evaluate(&self, id: NodeId, places: &[i64], bools: u32) -> bool {
        let mut id = id;
        while !(id.is_true() || id.is_false()) {
            id = self.node(id).child(places, bools).negate(id);
        }
        id.is_true()
    }
}

/// A boolean edge as it is stored.
fn uncut(child: NodeId) -> Edge {
    Edge {
        cut: 0,
        child: child.number(),
    }
}

/// A range edge as it is stored.
fn with_cut((range, child): &(Ranges, NodeId)) -> Edge {
    let last = range.last();
    Edge {
        cut: if last == HIGHEST { 0 } else { last + 1 },
        child: child.number(),
    }
}

impl Node {
    /// The child that a reading leads to.
    fn child(&self, places: &[i64], bools: u32) -> NodeId {
        let number = self.var.number();
        match &self.children {
            Edges::Version { edges } => {
                let place = places[number as usize];
                let found = edges.iter().find(|(range, _)| range.contains(place));
                found.expect("the ranges cover every place").1
            }
            Edges::Boolean { high, low } => {
                if bools >> (number - FIRST_BOOLEAN) & 1 == 1 {
                    *high
                } else {
                    *low
                }
            }
        }
    }
}

/// A bound of a reference (`Bound::as_ref`, which rustc 1.63 does not have).
fn by_reference(bound: &Bound<Version>) -> Bound<&Version> {
    match bound {
        Bound::Unbounded => Bound::Unbounded,
        Bound::Included(key) => Bound::Included(key),
        Bound::Excluded(key) => Bound::Excluded(key),
    }
}

/// The ranges between the cuts of a range node's edges, each with its child.
fn ranges_of(edges: &[Edge]) -> SmallVec<(Ranges, NodeId)> {
    let mut ranges = SmallVec::new();
    let mut first = LOWEST;
    for (i, edge) in edges.iter().enumerate() {
        let is_last = i + 1 == edges.len();
        let last = if is_last { HIGHEST } else { edge.cut - 1 };
        ranges.push((
            Ranges::between(first, last),
            NodeId::from_number(edge.child),
        ));
        first = edge.cut;
    }
    ranges
}

impl InternerGuard<'_> {
    /// The condition that a range variable lies inside two bounds. As in `complexify_python_versions`, an empty range is FALSE and both
    /// ends open are TRUE: `create_node` makes no node of one edge.
    pub fn range(&mut self, variable: u32, lower: Bound<Version>, upper: Bound<Version>) -> NodeId {
        let edges = Edges::from_range(&Ranges::from_range_bounds((lower, upper)));
        self.create_node(Variable::numbered(variable), Edges::Version { edges })
    }

    /// A range variable compared with a key.
    pub fn comparison(&mut self, variable: u32, operator: MarkerOperator, key: Version) -> NodeId {
        let edges = Edges::from_string(operator, key);
        self.create_node(Variable::numbered(variable), edges)
    }

    /// The condition that a boolean variable is yes.
    pub fn boolean(&mut self, variable: u32) -> NodeId {
        self.create_node(Variable::numbered(variable), Edges::from_bool(true))
    }

    /// The node of a record, as [`InternerShared::edges`] reads it.
    pub fn node(&mut self, variable: u32, edges: &[Edge]) -> NodeId {
        let children = if variable < FIRST_BOOLEAN {
            Edges::Version {
                edges: ranges_of(edges),
            }
        } else {
            Edges::Boolean {
                high: NodeId::from_number(edges[0].child),
                low: NodeId::from_number(edges[1].child),
            }
        };
        self.create_node(Variable::numbered(variable), children)
    }

    /// `simplify_python_versions` of a variable by its number.
    pub fn simplify(
        &mut self,
        id: NodeId,
        variable: u32,
        lower: Bound<Version>,
        upper: Bound<Version>,
    ) -> NodeId {
        let variable = Variable::numbered(variable);
        self.simplify_python_versions(id, &variable, by_reference(&lower), by_reference(&upper))
    }

    /// `complexify_python_versions` of a variable by its number.
    pub fn complexify(
        &mut self,
        id: NodeId,
        variable: u32,
        lower: Bound<Version>,
        upper: Bound<Version>,
    ) -> NodeId {
        let variable = Variable::numbered(variable);
        self.complexify_python_versions(id, &variable, by_reference(&lower), by_reference(&upper))
    }

    /// `restrict` of one variable by its number.
    pub fn restrict_one(&mut self, id: NodeId, variable: u32, value: bool) -> NodeId {
        let chosen = Variable::numbered(variable);
        self.restrict(id, &|named| (*named == chosen).then(|| value))
    }
}

impl Edges {
    /// Neighbouring edges with equal children made one: the merge step of the form `changed`.
    pub(super) fn merged(self) -> Edges {
        let edges = match self {
            Edges::Version { edges } if edges.windows(2).any(|pair| pair[0].1 == pair[1].1) => {
                edges
            }
            already => return already,
        };
        let mut merged: SmallVec<(Ranges, NodeId)> = SmallVec::new();
        for (range, child) in edges {
            match merged.last_mut() {
                Some((before, same)) if *same == child => *before = before.union(&range),
                _ => merged.push((range, child)),
            }
        }
        Edges::Version { edges: merged }
    }

    /// The edges of widening above a node of a later variable, in the form `changed`: the id inside the range, FALSE outside.
    pub(super) fn above(range: &Ranges, id: NodeId) -> Edges {
        let mut edges = Edges::from_range(range);
        for (_, child) in edges.iter_mut() {
            if child.is_true() {
                *child = id;
            }
        }
        Edges::Version { edges }
    }
}

/// What the benchmark builds an interner again with.
impl InternerGuard<'_> {
    /// The node of a record, whose cuts and children are lists.
    pub fn record(&mut self, variable: u32, cuts: &[i64], children: &[u32]) -> NodeId {
        let edge = |(cut, child): (&i64, &u32)| Edge {
            cut: *cut,
            child: *child,
        };
        let edges: Vec<Edge> = cuts.iter().zip(children).map(edge).collect();
        self.node(variable, &edges)
    }

    /// Room in both maps for so many entries more, as maps have that were in use for long.
    pub fn reserve(&mut self, many: usize) {
        self.state.unique.reserve(many);
        self.state.cache.reserve(many);
    }
}
