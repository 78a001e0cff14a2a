//! Values, calls and sends.
use super::bodies::{Body, Variable};
use super::contracts::Message;
use super::types::Type;
use super::{ItemNumber, Method, Parameter};
use crate::report::{Code, Name, Place};
use crate::tree::{Call, Direction, Expression, Side, Value};

/// The kind of a call. A call as a value has to have a type.
#[derive(Clone, Copy)]
enum Standing {
    Statement,
    Start,
    Value(Type),
}

/// What a call resolves to, as far as its names are found.
enum Callee<'t, 'a> {
    Endpoint(Name<'a>, Variable),
    Method(&'t Method<'a>),
    Nothing,
}

impl<'t, 'a> Body<'t, 'a> {
    pub fn value(&mut self, value: &Value<'a>, asked: Type) {
        let (typed, place) = match value {
            Value::Call(call) => return self.call(call, Standing::Value(asked)),
            Value::Expression(expression) => (self.whole(expression), expression.place()),
            Value::NewArray { place, element, length } => {
                self.number(length);
                (Type::Array(*element), *place)
            }
            Value::NewStruct { place, name, arguments } => (self.new_struct(*name, arguments), *place),
        };
        if !typed.agrees(asked) {
            self.findings.wrong_type(place);
        }
    }

    fn new_struct(&mut self, name: Name<'a>, arguments: &[Expression<'a>]) -> Type {
        let Some(ItemNumber::Struct(number)) = self.tables.items.get(self.word(name)) else {
            self.findings.unknown(name);
            self.arguments(arguments, &[]);
            return Type::Unknown;
        };
        let owning = &self.tables.structs[number].owning;
        if arguments.len() != owning.len() {
            self.findings.wrong_number(name);
        }
        self.arguments(arguments, owning);
        Type::Pointer(number)
    }

    pub fn return_statement(&mut self, place: Place, value: Option<&Expression<'a>>) {
        match (value, self.method.result) {
            (None, None) => {}
            (None, Some(_)) => self.findings.wrong_type(place),
            (Some(value), None) => {
                self.whole(value);
                self.findings.wrong_type(place);
            }
            (Some(value), Some(asked)) => {
                if !self.whole(value).agrees(asked) {
                    self.findings.wrong_type(value.place());
                }
            }
        }
    }

    pub fn call_statement(&mut self, call: &Call<'a>) {
        self.call(call, Standing::Statement);
    }

    pub fn start(&mut self, call: &Call<'a>) {
        self.call(call, Standing::Start);
    }

    /// Compares arguments with parameters. Names in surplus arguments are looked up too.
    fn arguments(&mut self, arguments: &[Expression<'a>], parameters: &[Parameter]) {
        for (number, argument) in arguments.iter().enumerate() {
            let typed = self.whole(argument);
            if parameters.get(number).is_some_and(|parameter| !typed.agrees(parameter.typed)) {
                self.findings.wrong_type(argument.place());
            }
        }
    }

    fn callee(&mut self, call: &Call<'a>) -> Callee<'t, 'a> {
        let class = match call.of {
            None => self.method.class,
            Some(of) => match (self.find(of), self.tables.items.get(self.word(of))) {
                (Some(variable), _) => return Callee::Endpoint(of, variable),
                (None, Some(ItemNumber::Class(class))) => class,
                _ => {
                    self.findings.unknown(of);
                    return Callee::Nothing;
                }
            },
        };
        match self.tables.classes[class].method_names.get(self.word(call.name)) {
            Some(number) => Callee::Method(&self.tables.methods[number as usize]),
            None => {
                self.findings.unknown(call.name);
                Callee::Nothing
            }
        }
    }

    fn call(&mut self, call: &Call<'a>, standing: Standing) {
        match self.callee(call) {
            Callee::Nothing => self.arguments(&call.arguments, &[]),
            Callee::Method(method) => self.method_call(call, method, standing),
            Callee::Endpoint(of, variable) => match self.sent(call, of, variable) {
                Some((message, side)) => self.send(call, message, side, standing),
                None => self.arguments(&call.arguments, &[]),
            },
        }
    }

    fn method_call(&mut self, call: &Call<'a>, method: &Method<'a>, standing: Standing) {
        if call.arguments.len() != method.parameters.len() {
            self.findings.wrong_number(call.name);
        }
        self.arguments(&call.arguments, &method.parameters);
        let wrong = match (standing, method.result) {
            (Standing::Start, result) => {
                if result.is_some() || method.borrows {
                    let text = format!("{} cannot be started", self.findings.shown(call.name));
                    self.findings.add(call.name.place, Code::N07, text);
                }
                false
            }
            (Standing::Statement, result) => result.is_some_and(|typed| typed != Type::Unknown && !typed.is_scalar()),
            (Standing::Value(asked), result) => !result.is_some_and(|typed| typed.agrees(asked)),
        };
        if wrong {
            self.findings.wrong_type(call.name.place);
        }
    }

    /// Returns the message that is sent, and the side that sends it.
    fn sent(&mut self, call: &Call<'a>, of: Name, variable: Variable) -> Option<(&'t Message<'a>, Side)> {
        let (contract, side) = match variable.typed {
            Type::Unknown => return None,
            Type::End(number, side) => (&self.tables.contracts[number], side),
            _ => {
                self.findings.wrong_type(of.place);
                return None;
            }
        };
        let number = self.word(call.name).strip_prefix(b"Send").and_then(|text| contract.message_names.get(text));
        if number.is_none() {
            self.findings.unknown(call.name);
        }
        number.map(|number| (&contract.messages[number as usize], side))
    }

    fn send(&mut self, call: &Call<'a>, message: &Message, side: Side, standing: Standing) {
        let sends = match side {
            Side::Importer => Direction::In,
            Side::Exporter => Direction::Out,
        };
        if message.direction != sends || !matches!(standing, Standing::Statement) {
            self.findings.wrong_type(call.name.place);
        }
        if call.arguments.len() != message.parameters.len() {
            self.findings.wrong_number(call.name);
        }
        self.arguments(&call.arguments, &message.parameters);
    }
}
