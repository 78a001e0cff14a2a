//! A contract as a graph, and the four conditions on it: signs agree with the directions of messages, no state has a message twice or
//! edges of both signs, and none is on a closed walk of edges of one sign.
use crate::names::{Contract, Edge, State};
use crate::report::{Code, Findings};
use crate::tree::{Direction, Sign};
use crate::walks::Walks;

/// A contract with its edges sorted by the states that they leave.
pub struct Graph<'a> {
    pub contract: Contract<'a>,
    /// The index of the first edge of each state, and at the end the number of all edges.
    starts: Vec<u32>,
}

impl<'a> Graph<'a> {
    /// The edges of one state keep the order of the text.
    pub fn new(mut contract: Contract<'a>) -> Graph<'a> {
        contract.edges.sort_by_key(|edge| edge.from);
        let states = contract.states.len();
        let mut starts = Vec::with_capacity(states + 1);
        for (number, edge) in contract.edges.iter().enumerate() {
            while starts.len() <= edge.from as usize {
                starts.push(number as u32);
            }
        }
        starts.resize(states + 1, contract.edges.len() as u32);
        Graph { contract, starts }
    }

    pub fn states(&self) -> usize {
        self.contract.states.len()
    }

    pub fn edges(&self, state: u32) -> &[Edge] {
        let state = state as usize;
        &self.contract.edges[self.starts[state] as usize..self.starts[state + 1] as usize]
    }

    /// Returns the states that can be reached from the start state.
    pub fn reached(&self) -> Vec<u32> {
        let mut seen = vec![false; self.states()];
        seen[0] = true;
        let mut reached = vec![0];
        let mut at = 0;
        while at < reached.len() {
            for edge in self.edges(reached[at]) {
                if !seen[edge.to as usize] {
                    seen[edge.to as usize] = true;
                    reached.push(edge.to);
                }
            }
            at += 1;
        }
        reached
    }
}

pub fn check(graph: &Graph, walks: &Walks, findings: &mut Findings) {
    check_directions(graph, findings);
    check_states(graph, findings);
    for (number, state) in graph.contract.states.iter().enumerate() {
        if walks.closed(number) {
            findings.add(state.name.place, Code::C04, about("one direction round ", state, findings));
        }
    }
}

/// Returns the text of a finding about a state. A state without a name of its own is printed in parentheses.
fn about(what: &str, state: &State, findings: &Findings) -> String {
    let name = findings.shown(state.name);
    if state.named {
        [what, &name].concat()
    } else {
        [what, "(", &name, ")"].concat()
    }
}

fn check_directions(graph: &Graph, findings: &mut Findings) {
    for edge in &graph.contract.edges {
        let message = &graph.contract.messages[edge.message as usize];
        if (message.direction == Direction::In) != (edge.sign == Sign::Received) {
            findings.add(edge.place, Code::C01, format!("{} against its direction", findings.shown(message.name)));
        }
    }
}

fn check_states(graph: &Graph, findings: &mut Findings) {
    // For each message the last state that had an edge with it.
    let mut last = vec![None; graph.contract.messages.len()];
    for (number, state) in (0..).zip(&graph.contract.states) {
        let edges = graph.edges(number);
        for edge in edges {
            if last[edge.message as usize] == Some(number) {
                let name = findings.shown(graph.contract.messages[edge.message as usize].name);
                findings.add(edge.place, Code::C02, format!("{name} twice in a state"));
            }
            last[edge.message as usize] = Some(number);
        }
        if edges.iter().any(|edge| edge.sign != edges[0].sign) {
            findings.add(state.name.place, Code::C03, about("both directions in ", state, findings));
        }
    }
}
