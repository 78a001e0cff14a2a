//! Places in the text, findings, and the report of them.
use crate::lexer::Token;
use std::borrow::Cow;
use std::fmt::Write;

#[derive(Clone, Copy, PartialEq, Eq, PartialOrd, Ord)]
pub struct Place {
    pub line: u32,
    pub column: u32,
}

#[derive(Clone, Copy, Debug, PartialEq, Eq, PartialOrd, Ord)]
pub enum Code {
    S01,
    S02,
    S03,
    S04,
    S05,
    S06,
    N01,
    N02,
    N03,
    N04,
    N05,
    N06,
    N07,
    N08,
    N09,
    C01,
    C02,
    C03,
    C04,
}

/// The order of the fields is the sort order of the report.
#[derive(PartialEq, Eq, PartialOrd, Ord)]
pub struct Finding {
    place: Place,
    code: Code,
    text: String,
}

impl Finding {
    pub fn new(place: Place, code: Code, text: impl Into<String>) -> Finding {
        Finding { place, code, text: text.into() }
    }
}

/// An occurrence of a name in the text.
pub type Name<'a> = &'a Token;

/// The findings in a text.
pub struct Findings<'a> {
    pub text: &'a [u8],
    list: Vec<Finding>,
}

impl<'a> Findings<'a> {
    pub fn new(text: &'a [u8]) -> Findings<'a> {
        Findings { text, list: Vec::new() }
    }

    /// Returns a name as it is printed. Names consist of letters, digits and underscores, so nothing is lost.
    pub fn shown(&self, name: Name) -> Cow<'a, str> {
        String::from_utf8_lossy(name.word(self.text))
    }

    pub fn is_empty(&self) -> bool {
        self.list.is_empty()
    }

    pub fn push(&mut self, finding: Finding) {
        self.list.push(finding);
    }

    pub fn add(&mut self, place: Place, code: Code, text: impl Into<String>) {
        self.list.push(Finding::new(place, code, text));
    }

    pub fn declared_twice(&mut self, name: Name) {
        self.add(name.place, Code::N01, format!("{} declared twice", self.shown(name)));
    }

    pub fn unknown(&mut self, name: Name) {
        self.add(name.place, Code::N02, format!("{} unknown", self.shown(name)));
    }

    pub fn wrong_type(&mut self, place: Place) {
        self.add(place, Code::N03, "wrong type");
    }

    pub fn wrong_number(&mut self, name: Name) {
        self.add(name.place, Code::N04, "wrong number of arguments");
    }

    pub fn limit_passed(&mut self, name: Name) {
        self.add(name.place, Code::N06, "limit passed");
    }

    /// Returns the lines in order, each once, since two checks can have the same finding.
    pub fn report(mut self) -> String {
        self.list.sort();
        self.list.dedup();
        let mut lines = String::new();
        for Finding { place, code, text } in &self.list {
            write!(lines, "{}:{} {:?} ", place.line, place.column, code).expect("a string takes every text");
            lines.push_str(text);
            lines.push('\n');
        }
        writeln!(lines, "findings: {}", self.list.len()).expect("a string takes every text");
        lines
    }
}
