//! The cases of a `switch receive`.
use super::bodies::Body;
use super::types::{self, Type};
use super::Parameter;
use crate::report::{Code, Name};
use crate::tree::{self, Case, Direction, Side};
use std::collections::{BTreeMap, BTreeSet};

/// What earlier cases have named.
#[derive(Default)]
struct Named<'a> {
    /// Endpoints by the numbers of their variables: the first mention, and whether there is a case for the closed channel.
    endpoints: BTreeMap<usize, (Name<'a>, bool)>,
    /// Endpoints with a message, or with `None` for the closed channel.
    cases: BTreeSet<(usize, Option<u32>)>,
}

impl<'t, 'a> Body<'t, 'a> {
    pub fn switch(&mut self, cases: &[Case<'a>]) {
        let mut named = Named::default();
        self.switches += 1;
        for case in cases {
            let parameters = self.awaited(case, &mut named);
            self.scoped(|body| {
                for (number, (written, name)) in case.bindings.iter().enumerate() {
                    body.bind(written.as_ref(), *name, parameters.get(number));
                }
                body.statements(&case.statements);
            });
        }
        self.switches -= 1;
        for (first, _) in named.endpoints.values().filter(|(_, closed)| !closed) {
            self.findings.add(first.place, Code::N09, format!("{} lacks ChannelClosed", self.findings.shown(first)));
        }
    }

    /// Checks what a case waits for, and returns the parameters of the message.
    fn awaited(&mut self, case: &Case<'a>, named: &mut Named<'a>) -> &'t [Parameter] {
        let Some(variable) = self.look_up(case.endpoint) else { return &[] };
        let end = match variable.typed {
            Type::Unknown => return &[],
            Type::End(contract, side) => Some((contract, side)),
            _ => {
                self.findings.wrong_type(case.endpoint.place);
                None
            }
        };
        if case.closed && !case.bindings.is_empty() {
            self.findings.wrong_number(case.message);
        }
        let Some((contract, side)) = end else { return &[] };
        let (_, closed) = named.endpoints.entry(variable.number).or_insert((case.endpoint, false));
        *closed |= case.closed;
        let message = if case.closed { None } else { self.received(case, contract, side) };
        if (case.closed || message.is_some()) && !named.cases.insert((variable.number, message)) {
            let text = format!("case {}.{} twice", self.findings.shown(case.endpoint), self.findings.shown(case.message));
            self.findings.add(case.endpoint.place, Code::N08, text);
        }
        message.map_or(&[], |message| &self.tables.contracts[contract].messages[message as usize].parameters)
    }

    /// Returns the number of the message that a case receives.
    fn received(&mut self, case: &Case<'a>, contract: usize, side: Side) -> Option<u32> {
        let contract = &self.tables.contracts[contract];
        let Some(number) = contract.message_names.get(self.word(case.message)) else {
            self.findings.unknown(case.message);
            return None;
        };
        let message = &contract.messages[number as usize];
        let receives = match side {
            Side::Importer => Direction::Out,
            Side::Exporter => Direction::In,
        };
        if message.direction != receives {
            self.findings.wrong_type(case.message.place);
        }
        if message.parameters.len() != case.bindings.len() {
            self.findings.wrong_number(case.message);
        }
        Some(number)
    }

    /// Declares a bound name. Without a written type it has that of the parameter.
    fn bind(&mut self, written: Option<&tree::Type<'a>>, name: Name<'a>, parameter: Option<&Parameter>) {
        let given = parameter.map_or(Type::Unknown, |parameter| parameter.typed);
        let Some(written) = written else {
            return self.declare(name, given, parameter.is_some_and(|parameter| parameter.in_heap));
        };
        let typed = self.tables.written(written, self.findings);
        if !typed.agrees(given) {
            self.findings.wrong_type(name.place);
        }
        self.declare(name, typed, types::in_heap(written));
    }
}
