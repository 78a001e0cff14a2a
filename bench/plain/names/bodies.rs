//! The body of a method: scopes, statements and targets.
use super::types::{self, Type, INT};
use super::{ItemNumber, Method, Tables};
use crate::report::{Code, Findings, Name, Place};
use crate::tree::{Block, Side, Statement, Target};
use std::collections::BTreeMap;

const MOST_HEAP_VARIABLES: usize = 1000;

/// A variable: its number, in order of declaration, and its type.
#[derive(Clone, Copy)]
pub struct Variable {
    pub number: usize,
    pub typed: Type,
}

pub struct Body<'t, 'a> {
    pub tables: &'t Tables<'a>,
    pub method: &'t Method<'a>,
    pub findings: &'t mut Findings<'a>,
    scope: BTreeMap<&'a [u8], Variable>,
    /// The names in scope in order of declaration, so that the end of a scope can remove the last ones.
    names: Vec<&'a [u8]>,
    variables: usize,
    heap_variables: usize,
    loops: usize,
    pub switches: usize,
}

pub fn check<'a>(tables: &Tables<'a>, method: &Method<'a>, findings: &mut Findings<'a>) {
    let (scope, names) = (BTreeMap::new(), Vec::new());
    let mut body = Body { tables, method, findings, scope, names, variables: 0, heap_variables: 0, loops: 0, switches: 0 };
    for (node, parameter) in method.node.parameters.iter().zip(&method.parameters) {
        body.declare(node.name, parameter.typed, parameter.in_heap);
    }
    body.statements(&method.node.body.statements);
}

impl<'a> Body<'_, 'a> {
    pub fn word(&self, name: Name) -> &'a [u8] {
        self.tables.word(name)
    }

    pub fn find(&self, name: Name) -> Option<Variable> {
        self.scope.get(self.word(name)).copied()
    }

    /// Returns the variable, or adds a finding.
    pub fn look_up(&mut self, name: Name) -> Option<Variable> {
        let variable = self.find(name);
        if variable.is_none() {
            self.findings.unknown(name);
        }
        variable
    }

    pub fn declare(&mut self, name: Name<'a>, typed: Type, in_heap: bool) {
        if in_heap {
            if self.heap_variables == MOST_HEAP_VARIABLES {
                self.findings.limit_passed(name);
            }
            self.heap_variables += 1;
        }
        if self.scope.contains_key(self.word(name)) {
            return self.findings.declared_twice(name);
        }
        self.scope.insert(self.word(name), Variable { number: self.variables, typed });
        self.names.push(self.word(name));
        self.variables += 1;
    }

    /// Runs `inner` in a scope of its own. What it declares goes out of scope afterwards.
    pub fn scoped(&mut self, inner: impl FnOnce(&mut Self)) {
        let before = self.names.len();
        inner(self);
        for name in self.names.drain(before..) {
            self.scope.remove(name);
        }
    }

    fn block(&mut self, block: &Block<'a>) {
        self.scoped(|body| body.statements(&block.statements));
    }

    pub fn statements(&mut self, statements: &[Statement<'a>]) {
        for statement in statements {
            self.statement(statement);
        }
    }

    fn statement(&mut self, statement: &Statement<'a>) {
        match statement {
            Statement::Block(block) => self.block(block),
            Statement::Declare { written, name, value } => {
                let typed = self.tables.written(written, self.findings);
                if let Some(value) = value {
                    self.value(value, typed);
                }
                self.declare(*name, typed, types::in_heap(written));
            }
            Statement::Assign { target, value } => {
                let typed = self.assigned(target);
                self.value(value, typed);
            }
            Statement::Call(call) => self.call_statement(call),
            Statement::Start(call) => self.start(call),
            Statement::Delete(name) => self.delete(*name),
            Statement::Exchange { holder, field, given } => self.exchange(*holder, *field, *given),
            Statement::NewChannel { contract, first, second, .. } => self.new_channel(*contract, *first, *second),
            Statement::Switch { cases, .. } => self.switch(cases),
            _ => self.control(statement),
        }
    }

    /// Checks the statements that contain others.
    fn control(&mut self, statement: &Statement<'a>) {
        match statement {
            Statement::If { arms, otherwise } => {
                for arm in arms {
                    self.condition(&arm.test);
                    self.block(&arm.body);
                }
                if let Some(block) = otherwise {
                    self.block(block);
                }
            }
            Statement::While(arm) => {
                self.condition(&arm.test);
                self.loops += 1;
                self.block(&arm.body);
                self.loops -= 1;
            }
            Statement::Break(place) if self.loops + self.switches == 0 => self.findings.add(*place, Code::N05, "break outside"),
            Statement::Continue(place) if self.loops == 0 => self.findings.add(*place, Code::N05, "continue outside"),
            Statement::Return { place, value } => self.return_statement(*place, value.as_ref()),
            _ => {}
        }
    }

    fn delete(&mut self, name: Name) {
        if self.look_up(name).is_some_and(|variable| variable.typed.is_scalar()) {
            self.findings.wrong_type(name.place);
        }
    }

    fn exchange(&mut self, holder: Name, field: Name, given: Name) {
        let asked = match self.find(holder).map(|variable| variable.typed) {
            Some(Type::Pointer(_)) => {
                let typed = self.field(holder, field);
                if typed.is_scalar() {
                    self.findings.wrong_type(field.place);
                }
                typed
            }
            _ => {
                if self.look_up(holder).is_some_and(|variable| variable.typed != Type::Unknown) {
                    self.findings.wrong_type(holder.place);
                }
                Type::Unknown
            }
        };
        if self.look_up(given).is_some_and(|variable| !variable.typed.agrees(asked)) {
            self.findings.wrong_type(given.place);
        }
    }

    fn new_channel(&mut self, contract: Name, first: Name, second: Name) {
        let number = match self.tables.items.get(self.word(contract)) {
            Some(ItemNumber::Contract(number)) => Some(number),
            _ => {
                self.findings.unknown(contract);
                None
            }
        };
        let left = self.look_up(first);
        let right = self.look_up(second);
        let Some(number) = number else { return };
        let taken = left.and_then(|variable| self.end(variable.typed, number, None, first.place));
        if let Some(variable) = right {
            self.end(variable.typed, number, taken, second.place);
        }
    }

    /// Returns the side of an end of this contract. Adds a finding if it is no end of it, or if the side is taken.
    fn end(&mut self, typed: Type, contract: usize, taken: Option<Side>, place: Place) -> Option<Side> {
        match typed {
            Type::Unknown => None,
            Type::End(number, side) if number == contract && taken != Some(side) => Some(side),
            _ => {
                self.findings.wrong_type(place);
                None
            }
        }
    }

    /// Returns the type that a value for this target has to have.
    fn assigned(&mut self, target: &Target<'a>) -> Type {
        match target {
            Target::Variable(name) => self.look_up(*name).map_or(Type::Unknown, |variable| variable.typed),
            Target::Index(name, index) => self.indexed(*name, index),
            Target::Field(name, field) => {
                let typed = self.field(*name, *field);
                let array = self.find(*name).is_some_and(|variable| matches!(variable.typed, Type::Array(_)));
                // The length of an array cannot be assigned.
                if array && typed == INT || self.owns(*name, *field) {
                    self.findings.wrong_type(field.place);
                }
                typed
            }
        }
    }
}
