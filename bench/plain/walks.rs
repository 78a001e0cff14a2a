//! Walks of edges of one sign: which states are on a closed walk, and the length of the longest walk from each state.
use crate::contracts::Graph;
use crate::tree::Sign;

const UNSEEN: u32 = u32::MAX;

/// The walks of both signs in a contract.
pub struct Walks {
    sent: Vec<Node>,
    received: Vec<Node>,
}

/// What the search knows about a state.
#[derive(Clone)]
struct Node {
    /// Its number in the order of discovery, and the lowest number among the states known to reach it and to be reached from it.
    order: u32,
    earliest: u32,
    /// The number of edges in the longest walk from it. Only valid if there is no closed walk.
    length: u32,
    /// Set until its component is known.
    open: bool,
    /// Set if it is on a closed walk: in a component with others, or with an edge to itself.
    closed: bool,
}

impl Walks {
    pub fn new(graph: &Graph) -> Walks {
        Walks { sent: Search::all(graph, Sign::Sent), received: Search::all(graph, Sign::Received) }
    }

    pub fn closed(&self, state: usize) -> bool {
        self.sent[state].closed || self.received[state].closed
    }

    /// Returns the bounds of the queues to the exporter and to the importer: the lengths of the longest walks from reachable states.
    /// The contract has to meet its conditions.
    pub fn bounds(&self, graph: &Graph) -> (u32, u32) {
        let reached = graph.reached();
        let longest = |nodes: &[Node]| reached.iter().map(|state| nodes[*state as usize].length).max().unwrap_or(0);
        (longest(&self.received), longest(&self.sent))
    }
}

/// Tarjan's search for strongly connected components, with a stack of its own: a path may be as long as the text.
struct Search<'g, 'a> {
    graph: &'g Graph<'a>,
    sign: Sign,
    nodes: Vec<Node>,
    seen: u32,
    /// The open states, in the order in which they were seen.
    open: Vec<u32>,
    /// The states of the current path, each with the number of its next edge.
    path: Vec<(u32, u32)>,
}

impl Search<'_, '_> {
    fn all(graph: &Graph, sign: Sign) -> Vec<Node> {
        let unseen = Node { order: UNSEEN, earliest: UNSEEN, length: 0, open: false, closed: false };
        let nodes = vec![unseen; graph.states()];
        let mut search = Search { graph, sign, nodes, seen: 0, open: Vec::new(), path: Vec::new() };
        for state in 0..graph.states() as u32 {
            if search.nodes[state as usize].order == UNSEEN {
                search.from(state);
            }
        }
        search.nodes
    }

    fn enter(&mut self, state: u32) {
        let node = &mut self.nodes[state as usize];
        node.order = self.seen;
        node.earliest = self.seen;
        node.open = true;
        self.seen += 1;
        self.open.push(state);
        self.path.push((state, 0));
    }

    fn from(&mut self, first: u32) {
        self.enter(first);
        while let Some((state, next)) = self.path.last_mut() {
            let state = *state;
            match self.graph.edges(state).get(*next as usize) {
                Some(edge) => {
                    *next += 1;
                    if edge.sign == self.sign {
                        self.follow(state, edge.to);
                    }
                }
                None => self.leave(state),
            }
        }
    }

    fn follow(&mut self, state: u32, to: u32) {
        let Node { order, length, open, .. } = self.nodes[to as usize];
        if order == UNSEEN {
            return self.enter(to);
        }
        let node = &mut self.nodes[state as usize];
        node.closed |= to == state;
        node.length = node.length.max(length + 1);
        if open {
            node.earliest = node.earliest.min(order);
        }
    }

    fn leave(&mut self, state: u32) {
        let Node { order, earliest, length, .. } = self.nodes[state as usize];
        self.path.pop();
        if let Some((before, _)) = self.path.last() {
            let node = &mut self.nodes[*before as usize];
            node.earliest = node.earliest.min(earliest);
            node.length = node.length.max(length + 1);
        }
        if earliest != order {
            return;
        }
        // The component is the state and all open states seen after it.
        let alone = self.open.last() == Some(&state);
        while let Some(member) = self.open.pop() {
            let node = &mut self.nodes[member as usize];
            node.open = false;
            node.closed |= !alone;
            if member == state {
                break;
            }
        }
    }
}
