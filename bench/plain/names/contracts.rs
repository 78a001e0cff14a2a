//! The names of contracts: messages, states and the edges between them.
use super::table::Table;
use super::{Parameter, Tables};
use crate::report::{Findings, Name, Place};
use crate::tree::{self, Direction, Sign};

const MOST_STATES: usize = 500_000;
const MOST_PARAMETERS: usize = 8;

pub struct Message<'a> {
    pub name: Name<'a>,
    pub direction: Direction,
    pub parameters: Vec<Parameter>,
}

/// A state inside a path has no name of its own. It is named after the next message in the path.
pub struct State<'a> {
    pub name: Name<'a>,
    pub named: bool,
}

pub struct Edge {
    pub from: u32,
    pub to: u32,
    pub message: u32,
    pub sign: Sign,
    pub place: Place,
}

/// A contract in numbers. Its states are in the order of the text, the start state first.
pub struct Contract<'a> {
    pub name: Name<'a>,
    pub messages: Vec<Message<'a>>,
    pub message_names: Table<'a, u32>,
    pub states: Vec<State<'a>>,
    pub state_names: Table<'a, u32>,
    pub edges: Vec<Edge>,
}

/// Lists the messages and states; `before` is the number of states of earlier contracts.
pub fn declare<'a>(node: &tree::Contract<'a>, before: usize, findings: &mut Findings<'a>) -> Contract<'a> {
    let message_names = Table::new(node.messages.iter().map(|message| message.name).zip(0..), findings);
    let message = |it: &tree::Message<'a>| Message { name: it.name, direction: it.direction, parameters: Vec::new() };
    let messages = node.messages.iter().map(message).collect();
    let mut states = Vec::new();
    let mut names = Vec::new();
    let mut push = |name: Name<'a>, named: bool| {
        if before + states.len() == MOST_STATES {
            findings.limit_passed(name);
        }
        states.push(State { name, named });
        states.len() as u32 - 1
    };
    for state in &node.states {
        names.push((state.name, push(state.name, true)));
        for edge in state.paths.iter().flat_map(|path| &path.edges[1..]) {
            push(edge.message, false);
        }
    }
    let state_names = Table::new(names, findings);
    Contract { name: node.name, messages, message_names, states, state_names, edges: Vec::new() }
}

/// Returns the parameters of each message, in order.
pub fn parameters<'a>(node: &tree::Contract<'a>, tables: &Tables<'a>, findings: &mut Findings<'a>) -> Vec<Vec<Parameter>> {
    let mut all = Vec::with_capacity(node.messages.len());
    for message in &node.messages {
        if let Some((_, name)) = message.parameters.get(MOST_PARAMETERS) {
            findings.limit_passed(*name);
        }
        Table::new(message.parameters.iter().map(|(_, name)| (*name, ())), findings);
        all.push(message.parameters.iter().map(|(written, _)| tables.parameter(written, true, findings)).collect());
    }
    all
}

impl<'a> Contract<'a> {
    /// Lists the edges whose states and message are found.
    pub fn connect(&mut self, node: &tree::Contract<'a>, findings: &mut Findings) {
        let mut number = 0;
        for state in &node.states {
            let named = number;
            number += 1;
            for path in &state.paths {
                let target = self.state_names.get(path.target.word(findings.text));
                if target.is_none() {
                    findings.unknown(path.target);
                }
                let mut from = named;
                for (place, edge) in path.edges.iter().enumerate() {
                    let last = place + 1 == path.edges.len();
                    let to = if last { target } else { Some(number) };
                    self.connect_edge(edge, from, to, findings);
                    if !last {
                        from = number;
                        number += 1;
                    }
                }
            }
        }
    }

    fn connect_edge(&mut self, edge: &tree::Edge<'a>, from: u32, to: Option<u32>, findings: &mut Findings) {
        let name = edge.message;
        match (self.message_names.get(name.word(findings.text)), to) {
            (Some(message), Some(to)) => self.edges.push(Edge { from, to, message, sign: edge.sign, place: name.place }),
            (Some(_), None) => {}
            (None, _) => findings.unknown(name),
        }
    }
}
