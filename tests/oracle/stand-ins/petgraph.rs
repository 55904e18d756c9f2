//! Stand-in for `petgraph`: the signatures that `topology.rs` calls, without their work.
//! No search and no lookup that the oracle runs comes here; a call would panic.

use std::marker::PhantomData;
use std::ops::Index;

const NOT_HERE: &str = "petgraph is a stand-in: only its signatures are here";

pub struct Undirected;

pub struct Graph<N, E, Ty>(PhantomData<(N, E, Ty)>);

impl<N, E> Graph<N, E, Undirected> {
    pub fn new_undirected() -> Self {
        unimplemented!("{NOT_HERE}")
    }
    pub fn add_node(&mut self, _: N) -> graph::NodeIndex {
        unimplemented!("{NOT_HERE}")
    }
    pub fn add_edge(&mut self, _: graph::NodeIndex, _: graph::NodeIndex, _: E) {
        unimplemented!("{NOT_HERE}")
    }
    pub fn node_indices(&self) -> std::vec::IntoIter<graph::NodeIndex> {
        unimplemented!("{NOT_HERE}")
    }
    pub fn edge_indices(&self) -> std::vec::IntoIter<graph::EdgeIndex> {
        unimplemented!("{NOT_HERE}")
    }
    pub fn edge_endpoints(&self, _: graph::EdgeIndex) -> Option<(graph::NodeIndex, graph::NodeIndex)> {
        unimplemented!("{NOT_HERE}")
    }
}

impl<N, E, Ty> Index<graph::NodeIndex> for Graph<N, E, Ty> {
    type Output = N;
    fn index(&self, _: graph::NodeIndex) -> &N {
        unimplemented!("{NOT_HERE}")
    }
}

impl<N, E, Ty> Index<graph::EdgeIndex> for Graph<N, E, Ty> {
    type Output = E;
    fn index(&self, _: graph::EdgeIndex) -> &E {
        unimplemented!("{NOT_HERE}")
    }
}

pub mod graph {
    #[derive(Clone, Copy, PartialEq, Eq, Hash)]
    pub struct NodeIndex(usize);

    impl NodeIndex {
        pub fn new(position: usize) -> Self {
            Self(position)
        }
        pub fn index(self) -> usize {
            self.0
        }
    }

    #[derive(Clone, Copy)]
    pub struct EdgeIndex;
}

pub mod visit {
    use super::{graph::NodeIndex, Graph, NOT_HERE};

    pub trait VisitMap<N> {
        fn visit(&mut self, node: N) -> bool;
        fn is_visited(&self, node: &N) -> bool;
    }

    impl VisitMap<NodeIndex> for Vec<bool> {
        fn visit(&mut self, _: NodeIndex) -> bool {
            unimplemented!("{NOT_HERE}")
        }
        fn is_visited(&self, _: &NodeIndex) -> bool {
            unimplemented!("{NOT_HERE}")
        }
    }

    pub trait Visitable {
        fn visit_map(&self) -> Vec<bool>;
    }

    impl<N, E, Ty> Visitable for Graph<N, E, Ty> {
        fn visit_map(&self) -> Vec<bool> {
            unimplemented!("{NOT_HERE}")
        }
    }

    pub struct Bfs;

    impl Bfs {
        pub fn new<N, E, Ty>(_: &Graph<N, E, Ty>, _: NodeIndex) -> Self {
            unimplemented!("{NOT_HERE}")
        }
        pub fn next<N, E, Ty>(&mut self, _: &Graph<N, E, Ty>) -> Option<NodeIndex> {
            unimplemented!("{NOT_HERE}")
        }
    }
}

pub mod algo {
    use super::{graph::NodeIndex, Graph, NOT_HERE};
    use std::collections::HashMap;

    pub struct EdgeReference<'a, E>(&'a E);

    impl<'a, E> EdgeReference<'a, E> {
        pub fn weight(&self) -> &'a E {
            self.0
        }
    }

    pub fn connected_components<N, E, Ty>(_: &Graph<N, E, Ty>) -> usize {
        unimplemented!("{NOT_HERE}")
    }

    pub fn dijkstra<N, E, Ty>(
        _: &Graph<N, E, Ty>,
        _: NodeIndex,
        _: Option<NodeIndex>,
        _: impl FnMut(EdgeReference<E>) -> f64,
    ) -> HashMap<NodeIndex, f64> {
        unimplemented!("{NOT_HERE}")
    }

    pub fn astar<N, E, Ty>(
        _: &Graph<N, E, Ty>,
        _: NodeIndex,
        _: impl FnMut(NodeIndex) -> bool,
        _: impl FnMut(EdgeReference<E>) -> f64,
        _: impl FnMut(NodeIndex) -> f64,
    ) -> Option<(f64, Vec<NodeIndex>)> {
        unimplemented!("{NOT_HERE}")
    }
}
