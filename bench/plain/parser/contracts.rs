//! Contracts: their messages, states and paths.
use super::{Parsed, Parser, Unexpected};
use crate::lexer::Kind;
use crate::tree::{Contract, Direction, Edge, Message, Path, Sign, State};

impl<'a> Parser<'a> {
    pub(super) fn contract(&mut self) -> Parsed<Contract<'a>> {
        self.expect(Kind::Contract)?;
        let name = self.name()?;
        self.expect(Kind::OpenBrace)?;
        let (mut messages, mut states) = (Vec::new(), Vec::new());
        while !matches!(self.peek(), Kind::CloseBrace) || states.is_empty() {
            match self.peek() {
                Kind::In | Kind::Out => messages.push(self.message()?),
                Kind::State => states.push(self.state()?),
                _ => return Err(Unexpected),
            }
        }
        self.expect(Kind::CloseBrace)?;
        Ok(Contract { name, messages, states })
    }

    fn message(&mut self) -> Parsed<Message<'a>> {
        let direction = if self.accept(Kind::In) {
            Direction::In
        } else {
            self.expect(Kind::Out)?;
            Direction::Out
        };
        self.expect(Kind::Message)?;
        let name = self.name()?;
        let parameters = self.list(|parser| Ok((parser.written_type()?, parser.name()?)))?;
        self.expect(Kind::Semicolon)?;
        Ok(Message { direction, name, parameters })
    }

    fn state(&mut self) -> Parsed<State<'a>> {
        self.expect(Kind::State)?;
        let name = self.name()?;
        self.expect(Kind::Colon)?;
        let paths = if self.accept(Kind::Semicolon) {
            Vec::new()
        } else if self.accept(Kind::One) {
            self.paths()?
        } else {
            vec![self.path()?]
        };
        Ok(State { name, paths })
    }

    fn paths(&mut self) -> Parsed<Vec<Path<'a>>> {
        self.expect(Kind::OpenBrace)?;
        let mut paths = Vec::new();
        while !self.accept(Kind::CloseBrace) {
            paths.push(self.path()?);
        }
        self.accept(Kind::Semicolon);
        Ok(paths)
    }

    /// A name followed by a sign is an edge, and a name without one is the end.
    fn path(&mut self) -> Parsed<Path<'a>> {
        let mut edges = vec![self.edge()?];
        while matches!(self.ahead(1), Kind::Exclamation | Kind::Question) {
            edges.push(self.edge()?);
        }
        let target = self.name()?;
        self.expect(Kind::Semicolon)?;
        Ok(Path { edges, target })
    }

    fn edge(&mut self) -> Parsed<Edge<'a>> {
        let message = self.name()?;
        let sign = match self.peek() {
            Kind::Exclamation => Sign::Sent,
            Kind::Question => Sign::Received,
            _ => return Err(Unexpected),
        };
        self.at += 1;
        self.expect(Kind::Arrow)?;
        Ok(Edge { message, sign })
    }
}
