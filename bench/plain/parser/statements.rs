//! Blocks and statements.
use super::{Parsed, Parser, Unexpected};
use crate::lexer::Kind;
use crate::report::Name;
use crate::tree::{Arm, Block, Case, Statement, Type};

impl<'a> Parser<'a> {
    pub(super) fn block(&mut self) -> Parsed<Block<'a>> {
        self.expect(Kind::OpenBrace)?;
        let statements = self.statements()?;
        let close = self.expect_place(Kind::CloseBrace)?;
        Ok(Block { statements, close })
    }

    /// Parses the statements up to the end of a block or case. Most lists are short, so each gives back its unused memory.
    fn statements(&mut self) -> Parsed<Vec<Statement<'a>>> {
        let mut statements = Vec::new();
        while !matches!(self.peek(), Kind::Case | Kind::CloseBrace) {
            statements.push(self.statement()?);
        }
        statements.shrink_to_fit();
        Ok(statements)
    }

    fn statement(&mut self) -> Parsed<Statement<'a>> {
        match self.peek() {
            Kind::OpenBrace => Ok(Statement::Block(self.block()?)),
            Kind::Int | Kind::Bool | Kind::Byte => self.declaration(),
            Kind::Identifier => self.named_statement(),
            Kind::If => self.if_statement(),
            Kind::While => Ok(Statement::While(self.arm(Kind::While)?)),
            Kind::Switch => self.switch(),
            _ => {
                let statement = self.short_statement()?;
                self.expect(Kind::Semicolon)?;
                Ok(statement)
            }
        }
    }

    /// Parses a statement that begins with a word of its own and ends with a semicolon, without that semicolon.
    fn short_statement(&mut self) -> Parsed<Statement<'a>> {
        let place = self.place();
        let kind = self.peek();
        match kind {
            Kind::Start | Kind::Delete | Kind::Exchange | Kind::Break | Kind::Continue | Kind::Return => self.at += 1,
            _ => return Err(Unexpected),
        }
        Ok(match kind {
            Kind::Start => Statement::Start(self.call()?),
            Kind::Delete => Statement::Delete(self.name()?),
            Kind::Exchange => self.exchange()?,
            Kind::Break => Statement::Break(place),
            Kind::Continue => Statement::Continue(place),
            _ if self.peek() == Kind::Semicolon => Statement::Return { place, value: None },
            _ => Statement::Return { place, value: Some(self.expression()?) },
        })
    }

    fn exchange(&mut self) -> Parsed<Statement<'a>> {
        self.expect(Kind::OpenParenthesis)?;
        let holder = self.name()?;
        self.expect(Kind::Dot)?;
        let field = self.name()?;
        self.expect(Kind::Comma)?;
        let given = self.name()?;
        self.expect(Kind::CloseParenthesis)?;
        Ok(Statement::Exchange { holder, field, given })
    }

    fn declaration(&mut self) -> Parsed<Statement<'a>> {
        let written = self.written_type()?;
        let name = self.name()?;
        let value = if self.accept(Kind::Assign) { Some(self.value()?) } else { None };
        self.expect(Kind::Semicolon)?;
        Ok(Statement::Declare { written, name, value })
    }

    /// Parses a statement that begins with a name.
    fn named_statement(&mut self) -> Parsed<Statement<'a>> {
        let statement = match (self.ahead(1), self.ahead(2)) {
            (Kind::Star, _) | (Kind::Dot, Kind::Imp | Kind::Exp) => return self.declaration(),
            (Kind::Dot, Kind::NewChannel) => self.new_channel()?,
            _ if self.at_call() => Statement::Call(self.call()?),
            _ => {
                let target = self.target()?;
                self.expect(Kind::Assign)?;
                Statement::Assign { target, value: self.value()? }
            }
        };
        self.expect(Kind::Semicolon)?;
        Ok(statement)
    }

    fn new_channel(&mut self) -> Parsed<Statement<'a>> {
        let contract = self.name()?;
        self.expect(Kind::Dot)?;
        let place = self.expect_place(Kind::NewChannel)?;
        self.expect(Kind::OpenParenthesis)?;
        self.expect(Kind::Out)?;
        let first = self.name()?;
        self.expect(Kind::Comma)?;
        self.expect(Kind::Out)?;
        let second = self.name()?;
        self.expect(Kind::CloseParenthesis)?;
        Ok(Statement::NewChannel { contract, place, first, second })
    }

    /// Parses `if` or `while`, its test and its block.
    fn arm(&mut self, word: Kind) -> Parsed<Arm<'a>> {
        let place = self.expect_place(word)?;
        self.expect(Kind::OpenParenthesis)?;
        let test = self.expression()?;
        self.expect(Kind::CloseParenthesis)?;
        let body = self.block()?;
        Ok(Arm { place, test, body })
    }

    fn if_statement(&mut self) -> Parsed<Statement<'a>> {
        let mut arms = vec![self.arm(Kind::If)?];
        while self.accept(Kind::Else) {
            if self.peek() != Kind::If {
                return Ok(Statement::If { arms, otherwise: Some(self.block()?) });
            }
            arms.push(self.arm(Kind::If)?);
        }
        Ok(Statement::If { arms, otherwise: None })
    }

    fn switch(&mut self) -> Parsed<Statement<'a>> {
        let place = self.expect_place(Kind::Switch)?;
        self.expect(Kind::Receive)?;
        self.expect(Kind::OpenBrace)?;
        let mut cases = vec![self.case()?];
        while !self.accept(Kind::CloseBrace) {
            cases.push(self.case()?);
        }
        Ok(Statement::Switch { place, cases })
    }

    fn case(&mut self) -> Parsed<Case<'a>> {
        let place = self.expect_place(Kind::Case)?;
        let endpoint = self.name()?;
        self.expect(Kind::Dot)?;
        let closed = self.peek() == Kind::ChannelClosed;
        let message = self.expect_name(if closed { Kind::ChannelClosed } else { Kind::Identifier })?;
        let bindings = self.list(Self::binding)?;
        self.expect(Kind::Colon)?;
        let statements = self.statements()?;
        Ok(Case { place, endpoint, message, closed, bindings, statements })
    }

    /// Parses a name alone, or a type and a name. Only a type continues with a star or a dot.
    fn binding(&mut self) -> Parsed<(Option<Type<'a>>, Name<'a>)> {
        let bare = self.peek() == Kind::Identifier && !matches!(self.ahead(1), Kind::Star | Kind::Dot);
        let written = if bare { None } else { Some(self.written_type()?) };
        Ok((written, self.name()?))
    }
}
