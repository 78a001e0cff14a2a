//! Cuts a text into tokens, without blanks and comments.
use crate::report::{Code, Finding, Place};

const DEEPEST: u32 = 100;
const LARGEST: &[u8] = b"2147483647";
const BYTE_ORDER_MARK: &[u8] = b"\xef\xbb\xbf";

#[derive(Clone, Copy, Debug, PartialEq, Eq)]
#[rustfmt::skip]
pub enum Kind {
    Identifier, Number,
    OpenBrace, CloseBrace, OpenParenthesis, CloseParenthesis, OpenBracket, CloseBracket,
    Semicolon, Colon, Comma, Dot, Star, Exclamation, Question, Assign,
    Equal, Unequal, Less, AtMost, Greater, AtLeast, Plus, Minus, And, Or, Arrow,
    Bool, Break, Byte, Case, Class, ChannelClosed, Claims, Continue, Contract, Delete, Else, Exchange, Exp, ExHeap, False, If, Imp, In,
    Int, Internal, Message, New, NewChannel, One, Out, Private, Public, Receive, Rep, Return, Start, State, Static, Struct, Switch, True,
    Void, While,
    End,
}

#[derive(Clone, Copy)]
pub struct Token {
    pub kind: Kind,
    pub start: u32,
    pub end: u32,
    pub place: Place,
}

impl Token {
    pub fn word<'a>(&self, text: &'a [u8]) -> &'a [u8] {
        &text[self.start as usize..self.end as usize]
    }
}

/// The tokens of a text, and the place one past its last byte.
pub struct Tokens {
    pub list: Vec<Token>,
    pub end: Place,
}

struct Lexer<'a> {
    text: &'a [u8],
    at: usize,
    line: u32,
    line_start: usize,
    depth: u32,
    tokens: Vec<Token>,
}

#[rustfmt::skip]
fn word_kind(word: &[u8]) -> Kind {
    match word {
        b"bool" => Kind::Bool, b"break" => Kind::Break, b"byte" => Kind::Byte, b"case" => Kind::Case, b"class" => Kind::Class,
        b"ChannelClosed" => Kind::ChannelClosed, b"Claims" => Kind::Claims, b"continue" => Kind::Continue,
        b"contract" => Kind::Contract, b"delete" => Kind::Delete, b"else" => Kind::Else,
        b"exchange" => Kind::Exchange, b"Exp" => Kind::Exp,
        b"ExHeap" => Kind::ExHeap, b"false" => Kind::False, b"if" => Kind::If, b"Imp" => Kind::Imp, b"in" => Kind::In,
        b"int" => Kind::Int, b"internal" => Kind::Internal, b"message" => Kind::Message, b"new" => Kind::New,
        b"NewChannel" => Kind::NewChannel, b"one" => Kind::One, b"out" => Kind::Out, b"private" => Kind::Private,
        b"public" => Kind::Public, b"receive" => Kind::Receive, b"rep" => Kind::Rep, b"return" => Kind::Return,
        b"start" => Kind::Start, b"state" => Kind::State, b"static" => Kind::Static, b"struct" => Kind::Struct,
        b"switch" => Kind::Switch, b"true" => Kind::True, b"void" => Kind::Void, b"while" => Kind::While,
        _ => Kind::Identifier,
    }
}

/// Returns the longest symbol that these two bytes begin with, and its length.
fn symbol(first: u8, second: u8) -> Option<(Kind, usize)> {
    let two = match (first, second) {
        (b'=', b'=') => Kind::Equal,
        (b'!', b'=') => Kind::Unequal,
        (b'<', b'=') => Kind::AtMost,
        (b'>', b'=') => Kind::AtLeast,
        (b'&', b'&') => Kind::And,
        (b'|', b'|') => Kind::Or,
        (b'-', b'>') => Kind::Arrow,
        _ => return one_byte_symbol(first).map(|kind| (kind, 1)),
    };
    Some((two, 2))
}

fn one_byte_symbol(byte: u8) -> Option<Kind> {
    Some(match byte {
        b'{' => Kind::OpenBrace,
        b'}' => Kind::CloseBrace,
        b'(' => Kind::OpenParenthesis,
        b')' => Kind::CloseParenthesis,
        b'[' => Kind::OpenBracket,
        b']' => Kind::CloseBracket,
        b';' => Kind::Semicolon,
        b':' => Kind::Colon,
        b',' => Kind::Comma,
        b'.' => Kind::Dot,
        b'*' => Kind::Star,
        b'!' => Kind::Exclamation,
        b'?' => Kind::Question,
        b'=' => Kind::Assign,
        b'<' => Kind::Less,
        b'>' => Kind::Greater,
        b'+' => Kind::Plus,
        b'-' => Kind::Minus,
        _ => return None,
    })
}

/// Returns whether a number passes the limit. Leading zeros do not count.
fn too_large(digits: &[u8]) -> bool {
    let zeros = digits.iter().take_while(|digit| **digit == b'0').count();
    let digits = &digits[zeros..];
    digits.len() > LARGEST.len() || digits.len() == LARGEST.len() && digits > LARGEST
}

impl Lexer<'_> {
    fn place(&self) -> Place {
        Place { line: self.line, column: (self.at - self.line_start + 1) as u32 }
    }

    fn fault<T>(&self, code: Code, text: &str) -> Result<T, Finding> {
        Err(Finding::new(self.place(), code, text))
    }

    fn push(&mut self, kind: Kind, end: usize) {
        let place = self.place();
        self.tokens.push(Token { kind, start: self.at as u32, end: end as u32, place });
        self.at = end;
    }

    /// Returns the end of the run of such bytes that begins here.
    fn run_end(&self, belongs: impl Fn(u8) -> bool) -> usize {
        let rest = &self.text[self.at..];
        self.at + rest.iter().position(|byte| !belongs(*byte)).unwrap_or(rest.len())
    }

    fn word(&mut self) {
        let end = self.run_end(|byte| byte.is_ascii_alphanumeric() || byte == b'_');
        self.push(word_kind(&self.text[self.at..end]), end);
    }

    fn number(&mut self) -> Result<(), Finding> {
        let end = self.run_end(|byte| byte.is_ascii_digit());
        if too_large(&self.text[self.at..end]) {
            return self.fault(Code::S06, "number too large");
        }
        self.push(Kind::Number, end);
        Ok(())
    }

    fn symbol(&mut self) -> Result<(), Finding> {
        let second = self.text.get(self.at + 1).copied().unwrap_or(0);
        let Some((kind, length)) = symbol(self.text[self.at], second) else {
            return self.fault(Code::S01, "stray byte");
        };
        match kind {
            Kind::OpenBrace | Kind::OpenParenthesis | Kind::OpenBracket if self.depth == DEEPEST => {
                return self.fault(Code::S04, "brackets too deep");
            }
            Kind::OpenBrace | Kind::OpenParenthesis | Kind::OpenBracket => self.depth += 1,
            Kind::CloseBrace | Kind::CloseParenthesis | Kind::CloseBracket => self.depth = self.depth.saturating_sub(1),
            _ => {}
        }
        self.push(kind, self.at + length);
        Ok(())
    }

    fn comment(&mut self) -> Result<(), Finding> {
        match self.text.get(self.at + 1) {
            Some(b'/') => self.at = self.run_end(|byte| byte != b'\n'),
            Some(b'*') => return self.block_comment(),
            _ => return self.fault(Code::S01, "stray byte"),
        }
        Ok(())
    }

    fn block_comment(&mut self) -> Result<(), Finding> {
        let (mut line, mut line_start, mut at) = (self.line, self.line_start, self.at + 2);
        while at < self.text.len() {
            match self.text[at] {
                b'*' if self.text.get(at + 1) == Some(&b'/') => {
                    (self.line, self.line_start, self.at) = (line, line_start, at + 2);
                    return Ok(());
                }
                b'\n' => (line, line_start) = (line + 1, at + 1),
                _ => {}
            }
            at += 1;
        }
        self.fault(Code::S02, "comment not closed")
    }

    fn run(&mut self) -> Result<(), Finding> {
        while let Some(byte) = self.text.get(self.at) {
            match byte {
                b'\n' => {
                    self.at += 1;
                    self.line += 1;
                    self.line_start = self.at;
                }
                b' ' | b'\t' | b'\r' => self.at += 1,
                b'/' => self.comment()?,
                b'a'..=b'z' | b'A'..=b'Z' | b'_' => self.word(),
                b'0'..=b'9' => self.number()?,
                _ => self.symbol()?,
            }
        }
        Ok(())
    }
}

/// Returns the tokens of the text, or the finding at the first place that is no token. Skips a byte order mark at the front.
pub fn tokens(text: &[u8]) -> Result<Tokens, Finding> {
    let begin = if text.starts_with(BYTE_ORDER_MARK) { BYTE_ORDER_MARK.len() } else { 0 };
    let mut lexer = Lexer { text, at: begin, line: 1, line_start: begin, depth: 0, tokens: Vec::new() };
    lexer.run()?;
    let end = lexer.place();
    Ok(Tokens { list: lexer.tokens, end })
}
