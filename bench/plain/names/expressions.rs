//! The types of expressions.
use super::bodies::Body;
use super::types::{Type, BOOL, INT};
use crate::report::{Name, Place};
use crate::tree::{Expression, Operator, Prefix, Target};

/// What an operator requires of an operand.
#[derive(Clone, Copy)]
enum Asked {
    Number,
    Truth,
    Either,
}

impl<'a> Body<'_, 'a> {
    pub fn condition(&mut self, expression: &Expression<'a>) {
        self.asked(expression, Asked::Truth);
    }

    pub fn number(&mut self, expression: &Expression<'a>) -> Type {
        self.asked(expression, Asked::Number)
    }

    fn asked(&mut self, expression: &Expression<'a>, asked: Asked) -> Type {
        let typed = self.inner(expression);
        self.ask(typed, asked, expression.place());
        typed
    }

    fn ask(&mut self, typed: Type, asked: Asked, place: Place) {
        let met = match asked {
            Asked::Number => typed.is_number(),
            Asked::Truth => typed == BOOL,
            Asked::Either => typed.is_scalar(),
        };
        if !met && !typed.is_silent() {
            self.findings.wrong_type(place);
        }
    }

    /// Returns the type of an expression that is a whole value, argument or result. It may be a variable of the exchange heap.
    pub fn whole(&mut self, expression: &Expression<'a>) -> Type {
        match expression {
            Expression::Target(Target::Variable(name)) => self.look_up(*name).map_or(Type::Unknown, |variable| variable.typed),
            _ => self.inner(expression),
        }
    }

    /// Returns the type of an expression inside another one.
    fn inner(&mut self, expression: &Expression<'a>) -> Type {
        match expression {
            Expression::Number(_) => INT,
            Expression::Truth(..) => BOOL,
            Expression::Bracketed(_, inner) => self.inner(inner),
            Expression::Target(Target::Variable(name)) => self.scalar_variable(*name),
            Expression::Target(Target::Field(name, field)) => {
                if self.owns(*name, *field) {
                    self.findings.wrong_type(name.place);
                }
                self.field(*name, *field)
            }
            Expression::Target(Target::Index(name, index)) => self.indexed(*name, index),
            Expression::Prefixed(prefixes, atom) => self.prefixed(prefixes, atom),
            Expression::Chain(first, rest) => self.chain(first, rest),
        }
    }

    fn scalar_variable(&mut self, name: Name) -> Type {
        let Some(variable) = self.look_up(name) else { return Type::Unknown };
        if !variable.typed.is_scalar() && variable.typed != Type::Unknown {
            self.findings.wrong_type(name.place);
        }
        variable.typed
    }

    pub fn field(&mut self, name: Name, field: Name) -> Type {
        let found = match self.look_up(name).map_or(Type::Unknown, |variable| variable.typed) {
            Type::Unknown => return Type::Unknown,
            Type::Array(_) => Some(INT).filter(|_| self.word(field) == b"Length"),
            Type::Pointer(number) => {
                let structure = &self.tables.structs[number];
                structure.field_names.get(self.word(field)).map(|place| structure.fields[place as usize].typed)
            }
            _ => {
                self.findings.wrong_type(name.place);
                return Type::Missing;
            }
        };
        found.unwrap_or_else(|| {
            self.findings.unknown(field);
            Type::Unknown
        })
    }

    /// Returns whether a field owns what it holds.
    pub fn owns(&self, name: Name, field: Name) -> bool {
        let Some(Type::Pointer(number)) = self.find(name).map(|variable| variable.typed) else { return false };
        let structure = &self.tables.structs[number];
        structure.field_names.get(self.word(field)).is_some_and(|place| structure.fields[place as usize].in_heap)
    }

    pub fn indexed(&mut self, name: Name, index: &Expression<'a>) -> Type {
        let variable = self.look_up(name);
        let index = self.number(index);
        let typed = match variable.map_or(Type::Unknown, |variable| variable.typed) {
            Type::Unknown => return Type::Unknown,
            Type::Array(element) => Type::Scalar(element),
            _ => {
                self.findings.wrong_type(name.place);
                Type::Missing
            }
        };
        if index == Type::Unknown {
            Type::Unknown
        } else {
            typed
        }
    }

    /// The innermost operator is the last one. The operand of each begins at the next one.
    fn prefixed(&mut self, prefixes: &[(Prefix, Place)], atom: &Expression<'a>) -> Type {
        let mut typed = self.inner(atom);
        let mut place = atom.place();
        for (prefix, before) in prefixes.iter().rev() {
            let (asked, given) = match prefix {
                Prefix::Not => (Asked::Truth, BOOL),
                Prefix::Negative => (Asked::Number, INT),
            };
            self.ask(typed, asked, place);
            if typed != Type::Unknown {
                typed = given;
            }
            place = *before;
        }
        typed
    }

    /// The left operand of each operator is everything to its left.
    fn chain(&mut self, first: &Expression<'a>, rest: &[(Operator, Expression<'a>)]) -> Type {
        let place = first.place();
        let mut left = self.inner(first);
        for (operator, operand) in rest {
            let right = self.inner(operand);
            let (of_left, of_right) = operands(*operator, left);
            self.ask(left, of_left, place);
            self.ask(right, of_right, operand.place());
            left = match operator {
                _ if left == Type::Unknown || right == Type::Unknown => Type::Unknown,
                Operator::Plus | Operator::Minus | Operator::Times => INT,
                _ => BOOL,
            };
        }
        left
    }
}

/// Returns what an operator requires of its operands. In a comparison for equality the left operand decides for the right one.
fn operands(operator: Operator, left: Type) -> (Asked, Asked) {
    match operator {
        Operator::Equal | Operator::Unequal if left.is_number() => (Asked::Either, Asked::Number),
        Operator::Equal | Operator::Unequal if left == BOOL => (Asked::Either, Asked::Truth),
        Operator::Equal | Operator::Unequal => (Asked::Either, Asked::Either),
        Operator::And | Operator::Or => (Asked::Truth, Asked::Truth),
        _ => (Asked::Number, Asked::Number),
    }
}
