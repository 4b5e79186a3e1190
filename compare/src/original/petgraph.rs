//! Stand-in for petgraph's `GraphMap`, as document 01 describes it:
//! "neighbours stand in the order in which edges were first added; an edge
//! added again keeps its place and takes the new weight".

use std::collections::HashMap;
use std::hash::{BuildHasher, Hash};
use std::marker::PhantomData;

pub mod prelude {
    pub use super::GraphMap;
}

#[derive(Clone, Copy, Debug, PartialEq, Eq)]
pub enum EdgeDirection {
    Outgoing,
    Incoming,
}

use EdgeDirection::{Incoming, Outgoing};

/// The kind of graph that is used.
#[derive(Debug)]
pub enum Directed {}

#[derive(Debug)]
pub struct GraphMap<N, E, D, S> {
    /// Each node's neighbours of both directions, in the order of their edges.
    nodes: HashMap<N, Vec<(N, EdgeDirection)>, S>,
    edges: HashMap<(N, N), E, S>,
    kind: PhantomData<D>,
}

impl<N, E, D, S: Default> Default for GraphMap<N, E, D, S> {
    fn default() -> Self {
        GraphMap {
            nodes: HashMap::default(),
            edges: HashMap::default(),
            kind: PhantomData,
        }
    }
}

impl<N: Copy + Eq + Hash, E, D, S: BuildHasher> GraphMap<N, E, D, S> {
    pub fn node_count(&self) -> usize {
        self.nodes.len()
    }

    pub fn add_node(&mut self, node: N) -> N {
        self.nodes.entry(node).or_default();
        node
    }

    pub fn add_edge(&mut self, a: N, b: N, weight: E) -> Option<E> {
        let old = self.edges.insert((a, b), weight);
        if old.is_none() {
            self.nodes.entry(a).or_default().push((b, Outgoing));
            self.nodes.entry(b).or_default().push((a, Incoming));
        }
        old
    }

    pub fn edge_weight(&self, a: N, b: N) -> Option<&E> {
        self.edges.get(&(a, b))
    }

    pub fn neighbors_directed(
        &self,
        node: N,
        direction: EdgeDirection,
    ) -> impl Iterator<Item = N> + '_ {
        let all = self.nodes.get(&node).into_iter().flatten();
        all.filter(move |(_, d)| *d == direction).map(|(n, _)| *n)
    }
}
