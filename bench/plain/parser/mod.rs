//! Makes the tree of a program from its tokens. Every rule reads from left to right and looks at most three tokens ahead. A rule gives up
//! at the first token with which no program can continue.
mod contracts;
mod expressions;
mod statements;

use crate::lexer::{Kind, Token, Tokens};
use crate::report::{Code, Finding, Name, Place};
use crate::tree::{Access, Class, Field, Item, ItemBody, Method, Parameter, Program, Scalar, Side, Struct, Type};

/// The parser cannot accept its current token.
pub struct Unexpected;

type Parsed<T> = Result<T, Unexpected>;

pub struct Parser<'a> {
    tokens: &'a [Token],
    end: Place,
    at: usize,
}

pub fn parse(tokens: &Tokens) -> Result<Program<'_>, Finding> {
    let mut parser = Parser { tokens: &tokens.list, end: tokens.end, at: 0 };
    parser.program().map_err(|Unexpected| {
        let text = if parser.peek() == Kind::End { "unexpected end" } else { "unexpected token" };
        Finding::new(parser.place(), Code::S05, text)
    })
}

impl<'a> Parser<'a> {
    fn ahead(&self, distance: usize) -> Kind {
        self.tokens.get(self.at + distance).map_or(Kind::End, |token| token.kind)
    }

    fn peek(&self) -> Kind {
        self.ahead(0)
    }

    fn place(&self) -> Place {
        self.tokens.get(self.at).map_or(self.end, |token| token.place)
    }

    fn accept(&mut self, kind: Kind) -> bool {
        let there = self.peek() == kind;
        self.at += there as usize;
        there
    }

    fn expect(&mut self, kind: Kind) -> Parsed<()> {
        if self.accept(kind) {
            Ok(())
        } else {
            Err(Unexpected)
        }
    }

    /// Takes an expected token and returns its place.
    fn expect_place(&mut self, kind: Kind) -> Parsed<Place> {
        let place = self.place();
        self.expect(kind)?;
        Ok(place)
    }

    /// Takes an expected token and returns it as a name: an identifier, or a reserved word in the position of a name.
    fn expect_name(&mut self, kind: Kind) -> Parsed<Name<'a>> {
        match self.tokens.get(self.at) {
            Some(token) if token.kind == kind => {
                self.at += 1;
                Ok(token)
            }
            _ => Err(Unexpected),
        }
    }

    fn name(&mut self) -> Parsed<Name<'a>> {
        self.expect_name(Kind::Identifier)
    }

    /// Parses a list in parentheses, with commas between its parts. It may be empty.
    fn list<T>(&mut self, part: impl Fn(&mut Self) -> Parsed<T>) -> Parsed<Vec<T>> {
        self.expect(Kind::OpenParenthesis)?;
        if self.accept(Kind::CloseParenthesis) {
            return Ok(Vec::new());
        }
        let mut parts = vec![part(self)?];
        while self.accept(Kind::Comma) {
            parts.push(part(self)?);
        }
        self.expect(Kind::CloseParenthesis)?;
        Ok(parts)
    }

    fn program(&mut self) -> Parsed<Program<'a>> {
        let mut items = Vec::new();
        while self.peek() != Kind::End {
            let access = self.access();
            let body = match self.peek() {
                Kind::Contract => ItemBody::Contract(self.contract()?),
                Kind::Rep => ItemBody::Struct(self.structure()?),
                Kind::Class => ItemBody::Class(self.class()?),
                _ => return Err(Unexpected),
            };
            items.push(Item { access, body });
        }
        Ok(Program { items })
    }

    fn access(&mut self) -> Option<Access> {
        let access = match self.peek() {
            Kind::Public => Access::Public,
            Kind::Private => Access::Private,
            Kind::Internal => Access::Internal,
            _ => return None,
        };
        self.at += 1;
        Some(access)
    }

    fn structure(&mut self) -> Parsed<Struct<'a>> {
        self.expect(Kind::Rep)?;
        self.expect(Kind::Struct)?;
        let name = self.name()?;
        self.expect(Kind::OpenBrace)?;
        let mut fields = Vec::new();
        while !self.accept(Kind::CloseBrace) {
            let access = self.access();
            let written = self.written_type()?;
            let name = self.name()?;
            self.expect(Kind::Semicolon)?;
            fields.push(Field { access, written, name });
        }
        Ok(Struct { name, fields })
    }

    fn class(&mut self) -> Parsed<Class<'a>> {
        self.expect(Kind::Class)?;
        let name = self.name()?;
        self.expect(Kind::OpenBrace)?;
        let mut methods = Vec::new();
        while !self.accept(Kind::CloseBrace) {
            let access = self.access();
            methods.push(self.method(access)?);
        }
        Ok(Class { name, methods })
    }

    fn method(&mut self, access: Option<Access>) -> Parsed<Method<'a>> {
        self.expect(Kind::Static)?;
        let result = if self.accept(Kind::Void) { None } else { Some(self.written_type()?) };
        let name = self.name()?;
        let parameters = self.list(Self::parameter)?;
        let body = self.block()?;
        Ok(Method { access, result, name, parameters, body })
    }

    fn parameter(&mut self) -> Parsed<Parameter<'a>> {
        let claims = self.accept(Kind::OpenBracket);
        if claims {
            self.expect(Kind::Claims)?;
            self.expect(Kind::CloseBracket)?;
        }
        Ok(Parameter { claims, written: self.written_type()?, name: self.name()? })
    }

    fn scalar(&mut self) -> Parsed<Scalar> {
        let scalar = match self.peek() {
            Kind::Int => Scalar::Int,
            Kind::Bool => Scalar::Bool,
            Kind::Byte => Scalar::Byte,
            _ => return Err(Unexpected),
        };
        self.at += 1;
        Ok(scalar)
    }

    fn written_type(&mut self) -> Parsed<Type<'a>> {
        if self.peek() == Kind::Identifier {
            return self.named_type();
        }
        let element = self.scalar()?;
        if !self.accept(Kind::OpenBracket) {
            return Ok(Type::Scalar(element));
        }
        self.expect(Kind::CloseBracket)?;
        let marked = self.accept(Kind::Exclamation);
        self.in_heap()?;
        Ok(Type::Array { element, marked })
    }

    fn in_heap(&mut self) -> Parsed<()> {
        self.expect(Kind::In)?;
        self.expect(Kind::ExHeap)
    }

    fn named_type(&mut self) -> Parsed<Type<'a>> {
        let name = self.name()?;
        if self.accept(Kind::Star) {
            let marked = self.accept(Kind::Exclamation);
            self.in_heap()?;
            return Ok(Type::Pointer { target: name, marked });
        }
        self.expect(Kind::Dot)?;
        let side = match self.peek() {
            Kind::Imp => Side::Importer,
            Kind::Exp => Side::Exporter,
            _ => return Err(Unexpected),
        };
        self.at += 1;
        let state = if self.accept(Kind::Colon) { Some(self.name()?) } else { None };
        let marked = self.accept(Kind::Exclamation);
        let in_heap = self.peek() == Kind::In;
        if in_heap {
            self.in_heap()?;
        }
        Ok(Type::End { contract: name, side, state, marked, in_heap })
    }
}
