//! Expressions, values and calls.
use super::{Parsed, Parser, Unexpected};
use crate::lexer::Kind;
use crate::tree::{Call, Expression, Operator, Prefix, Target, Value};

/// Returns the operator of a token and its level. A higher level binds more tightly.
fn operator(kind: Kind) -> Option<(Operator, u32)> {
    Some(match kind {
        Kind::Or => (Operator::Or, 0),
        Kind::And => (Operator::And, 1),
        Kind::Equal => (Operator::Equal, 2),
        Kind::Unequal => (Operator::Unequal, 2),
        Kind::Less => (Operator::Less, 3),
        Kind::AtMost => (Operator::AtMost, 3),
        Kind::Greater => (Operator::Greater, 3),
        Kind::AtLeast => (Operator::AtLeast, 3),
        Kind::Plus => (Operator::Plus, 4),
        Kind::Minus => (Operator::Minus, 4),
        Kind::Star => (Operator::Times, 5),
        _ => return None,
    })
}

impl<'a> Parser<'a> {
    pub(super) fn expression(&mut self) -> Parsed<Expression<'a>> {
        self.chain(0)
    }

    /// Parses an expression of operators of this level or higher. The result of one level is the first operand of a lower one.
    fn chain(&mut self, least: u32) -> Parsed<Expression<'a>> {
        let mut first = self.prefixed()?;
        while let Some((operator, level)) = self.operator(least) {
            let mut rest = vec![(operator, self.chain(level + 1)?)];
            while let Some((operator, _)) = self.operator(level) {
                rest.push((operator, self.chain(level + 1)?));
            }
            first = Expression::Chain(Box::new(first), rest);
        }
        Ok(first)
    }

    /// Takes an operator of this level or higher.
    fn operator(&mut self, least: u32) -> Option<(Operator, u32)> {
        let found = operator(self.peek()).filter(|(_, level)| *level >= least);
        self.at += found.is_some() as usize;
        found
    }

    fn prefixed(&mut self) -> Parsed<Expression<'a>> {
        let mut prefixes = Vec::new();
        loop {
            let prefix = match self.peek() {
                Kind::Exclamation => Prefix::Not,
                Kind::Minus => Prefix::Negative,
                _ => break,
            };
            prefixes.push((prefix, self.place()));
            self.at += 1;
        }
        let atom = self.atom()?;
        Ok(if prefixes.is_empty() { atom } else { Expression::Prefixed(prefixes, Box::new(atom)) })
    }

    fn atom(&mut self) -> Parsed<Expression<'a>> {
        let place = self.place();
        match self.peek() {
            Kind::Identifier => return Ok(Expression::Target(self.target()?)),
            Kind::Number | Kind::True | Kind::False | Kind::OpenParenthesis => {}
            _ => return Err(Unexpected),
        }
        let kind = self.peek();
        self.at += 1;
        Ok(match kind {
            Kind::Number => Expression::Number(place),
            Kind::True | Kind::False => Expression::Truth(kind == Kind::True, place),
            _ => {
                let inner = self.expression()?;
                self.expect(Kind::CloseParenthesis)?;
                Expression::Bracketed(place, Box::new(inner))
            }
        })
    }

    pub(super) fn target(&mut self) -> Parsed<Target<'a>> {
        let name = self.name()?;
        if self.accept(Kind::Dot) {
            return Ok(Target::Field(name, self.name()?));
        }
        if self.accept(Kind::OpenBracket) {
            let index = self.expression()?;
            self.expect(Kind::CloseBracket)?;
            return Ok(Target::Index(name, Box::new(index)));
        }
        Ok(Target::Variable(name))
    }

    /// Returns whether a call begins here: a name, or two with a dot between them, and a parenthesis.
    pub(super) fn at_call(&self) -> bool {
        match (self.peek(), self.ahead(1)) {
            (Kind::Identifier, Kind::OpenParenthesis) => true,
            (Kind::Identifier, Kind::Dot) => self.ahead(2) == Kind::Identifier && self.ahead(3) == Kind::OpenParenthesis,
            _ => false,
        }
    }

    pub(super) fn call(&mut self) -> Parsed<Call<'a>> {
        let first = self.name()?;
        let (of, name) = if self.accept(Kind::Dot) { (Some(first), self.name()?) } else { (None, first) };
        Ok(Call { of, name, arguments: self.list(Self::expression)? })
    }

    pub(super) fn value(&mut self) -> Parsed<Value<'a>> {
        if self.peek() == Kind::New {
            self.new_block()
        } else if self.at_call() {
            Ok(Value::Call(self.call()?))
        } else {
            Ok(Value::Expression(self.expression()?))
        }
    }

    fn new_block(&mut self) -> Parsed<Value<'a>> {
        let place = self.expect_place(Kind::New)?;
        self.expect(Kind::OpenBracket)?;
        self.expect(Kind::ExHeap)?;
        self.expect(Kind::CloseBracket)?;
        if self.peek() == Kind::Identifier {
            let name = self.name()?;
            return Ok(Value::NewStruct { place, name, arguments: self.list(Self::expression)? });
        }
        let element = self.scalar()?;
        self.expect(Kind::OpenBracket)?;
        let length = self.expression()?;
        self.expect(Kind::CloseBracket)?;
        Ok(Value::NewArray { place, element, length })
    }
}
