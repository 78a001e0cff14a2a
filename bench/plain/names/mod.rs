//! Names and types: resolves each name, and reports all findings of the stage.
mod bodies;
mod calls;
mod channels;
mod contracts;
mod expressions;
mod table;
mod types;

pub use contracts::{Contract, Edge, State};

use crate::report::{Findings, Name};
use crate::tree::{self, ItemBody, Program};
use table::Table;
use types::Type;

const MOST_CONTRACTS: usize = 256;
const MOST_METHODS: usize = 4096;
const MOST_FIELDS: usize = 8;

#[derive(Clone, Copy)]
pub enum ItemNumber {
    Contract(usize),
    Struct(usize),
    Class(usize),
}

/// A parameter of a message or method, or a field of a struct; `claims` is set if the argument is given away.
#[derive(Clone, Copy)]
pub struct Parameter {
    pub typed: Type,
    pub in_heap: bool,
    pub claims: bool,
}

pub struct Struct<'a> {
    pub field_names: Table<'a, u32>,
    pub fields: Vec<Parameter>,
    /// The fields that own what they hold.
    pub owning: Vec<Parameter>,
}

/// The methods of a class are numbered through the whole program.
pub struct Class<'a> {
    pub method_names: Table<'a, u32>,
}

/// A method without a result is void.
pub struct Method<'a> {
    pub node: &'a tree::Method<'a>,
    pub class: usize,
    pub result: Option<Type>,
    pub parameters: Vec<Parameter>,
    /// Whether it has a lent parameter. Computed once, so that the time of a start does not depend on the parameters.
    pub borrows: bool,
}

pub struct Tables<'a> {
    pub text: &'a [u8],
    pub items: Table<'a, ItemNumber>,
    pub contracts: Vec<Contract<'a>>,
    pub structs: Vec<Struct<'a>>,
    pub classes: Vec<Class<'a>>,
    pub methods: Vec<Method<'a>>,
}

/// The items of a program by their kinds.
#[derive(Default)]
struct Nodes<'a> {
    contracts: Vec<&'a tree::Contract<'a>>,
    structs: Vec<&'a tree::Struct<'a>>,
    classes: Vec<&'a tree::Class<'a>>,
    names: Vec<(Name<'a>, ItemNumber)>,
}

impl<'a> Nodes<'a> {
    fn new(program: &'a Program<'a>) -> Nodes<'a> {
        let mut nodes = Nodes::default();
        for item in &program.items {
            match &item.body {
                ItemBody::Contract(node) => {
                    nodes.names.push((node.name, ItemNumber::Contract(nodes.contracts.len())));
                    nodes.contracts.push(node);
                }
                ItemBody::Struct(node) => {
                    nodes.names.push((node.name, ItemNumber::Struct(nodes.structs.len())));
                    nodes.structs.push(node);
                }
                ItemBody::Class(node) => {
                    nodes.names.push((node.name, ItemNumber::Class(nodes.classes.len())));
                    nodes.classes.push(node);
                }
            }
        }
        nodes
    }
}

impl<'a> Tables<'a> {
    /// Returns the tables for looking up names: everything but the types of fields, parameters and results, and the edges.
    fn declare(nodes: &mut Nodes<'a>, findings: &mut Findings<'a>) -> Tables<'a> {
        if let Some(node) = nodes.contracts.get(MOST_CONTRACTS) {
            findings.limit_passed(node.name);
        }
        let items = Table::new(std::mem::take(&mut nodes.names), findings);
        let mut contracts = Vec::with_capacity(nodes.contracts.len());
        let mut states = 0;
        for node in &nodes.contracts {
            let contract = contracts::declare(node, states, findings);
            states += contract.states.len();
            contracts.push(contract);
        }
        let structs = nodes.structs.iter().map(|node| Struct::declare(node, findings)).collect();
        let mut methods = 0;
        let classes = nodes.classes.iter().map(|node| Class::declare(node, &mut methods, findings)).collect();
        Tables { text: findings.text, items, contracts, structs, classes, methods: Vec::new() }
    }

    pub fn word(&self, name: Name) -> &'a [u8] {
        name.word(self.text)
    }

    pub fn parameter(&self, written: &tree::Type, claims: bool, findings: &mut Findings<'a>) -> Parameter {
        Parameter { typed: self.written(written, findings), in_heap: types::in_heap(written), claims }
    }

    fn method(&self, node: &'a tree::Method<'a>, class: usize, findings: &mut Findings<'a>) -> Method<'a> {
        let result = node.result.as_ref().map(|written| self.written(written, findings));
        let parameter = |it: &tree::Parameter| self.parameter(&it.written, it.claims, findings);
        let parameters: Vec<_> = node.parameters.iter().map(parameter).collect();
        let borrows = parameters.iter().any(|parameter| parameter.in_heap && !parameter.claims);
        Method { node, class, result, parameters, borrows }
    }

    /// Adds what needs the tables to look up names: the types of fields, parameters and results, and the edges.
    fn complete(&mut self, nodes: &Nodes<'a>, findings: &mut Findings<'a>) {
        for (number, node) in nodes.structs.iter().enumerate() {
            let fields = node.fields.iter().map(|field| self.parameter(&field.written, true, findings)).collect();
            self.structs[number].fill(fields);
        }
        for (class, node) in nodes.classes.iter().enumerate() {
            for method in &node.methods {
                let method = self.method(method, class, findings);
                self.methods.push(method);
            }
        }
        if let Some(method) = self.methods.get(MOST_METHODS) {
            findings.limit_passed(method.node.name);
        }
        for (number, node) in nodes.contracts.iter().enumerate() {
            let parameters = contracts::parameters(node, self, findings);
            let contract = &mut self.contracts[number];
            for (message, parameters) in contract.messages.iter_mut().zip(parameters) {
                message.parameters = parameters;
            }
            contract.connect(node, findings);
        }
    }
}

impl<'a> Struct<'a> {
    fn declare(node: &tree::Struct<'a>, findings: &mut Findings<'a>) -> Struct<'a> {
        let field_names = Table::new(node.fields.iter().map(|field| field.name).zip(0..), findings);
        if let Some(field) = node.fields.iter().filter(|field| types::in_heap(&field.written)).nth(MOST_FIELDS) {
            findings.limit_passed(field.name);
        }
        Struct { field_names, fields: Vec::new(), owning: Vec::new() }
    }

    fn fill(&mut self, fields: Vec<Parameter>) {
        self.owning = fields.iter().copied().filter(|field| field.in_heap).collect();
        self.fields = fields;
    }
}

impl<'a> Class<'a> {
    fn declare(node: &tree::Class<'a>, methods: &mut u32, findings: &mut Findings<'a>) -> Class<'a> {
        let before = *methods;
        *methods += node.methods.len() as u32;
        let names = node.methods.iter().map(|method| method.name).zip(before..);
        Class { method_names: Table::new(names, findings) }
    }
}

/// Returns the contracts in numbers. They are only valid if there are no findings.
pub fn resolve<'a>(program: &'a Program<'a>, findings: &mut Findings<'a>) -> Vec<Contract<'a>> {
    let mut nodes = Nodes::new(program);
    let mut tables = Tables::declare(&mut nodes, findings);
    tables.complete(&nodes, findings);
    for method in &tables.methods {
        bodies::check(&tables, method, findings);
    }
    tables.contracts
}
