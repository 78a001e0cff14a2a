//! The tree of a program: a node for each rule of the grammar. Optional and repeated parts are an `Option`, a flag or a list.
//! Chains of operators are lists and not nested nodes, so that no tree is deeper than its brackets.
// The tree is whole, although the bounds of contracts do not need every part of it.
#![allow(dead_code)]
use crate::report::{Name, Place};

pub struct Program<'a> {
    pub items: Vec<Item<'a>>,
}

#[derive(Clone, Copy)]
pub enum Access {
    Public,
    Private,
    Internal,
}

pub struct Item<'a> {
    pub access: Option<Access>,
    pub body: ItemBody<'a>,
}

pub enum ItemBody<'a> {
    Contract(Contract<'a>),
    Struct(Struct<'a>),
    Class(Class<'a>),
}

pub struct Contract<'a> {
    pub name: Name<'a>,
    pub messages: Vec<Message<'a>>,
    pub states: Vec<State<'a>>,
}

#[derive(Clone, Copy, PartialEq, Eq)]
pub enum Direction {
    In,
    Out,
}

pub struct Message<'a> {
    pub direction: Direction,
    pub name: Name<'a>,
    pub parameters: Vec<(Type<'a>, Name<'a>)>,
}

pub struct State<'a> {
    pub name: Name<'a>,
    pub paths: Vec<Path<'a>>,
}

/// At least one edge, then the state in which the path ends.
pub struct Path<'a> {
    pub edges: Vec<Edge<'a>>,
    pub target: Name<'a>,
}

/// The exporter sends at `!` and receives at `?`.
#[derive(Clone, Copy, PartialEq, Eq)]
pub enum Sign {
    Sent,
    Received,
}

pub struct Edge<'a> {
    pub message: Name<'a>,
    pub sign: Sign,
}

pub struct Struct<'a> {
    pub name: Name<'a>,
    pub fields: Vec<Field<'a>>,
}

pub struct Field<'a> {
    pub access: Option<Access>,
    pub written: Type<'a>,
    pub name: Name<'a>,
}

pub struct Class<'a> {
    pub name: Name<'a>,
    pub methods: Vec<Method<'a>>,
}

/// A method without a result type is void.
pub struct Method<'a> {
    pub access: Option<Access>,
    pub result: Option<Type<'a>>,
    pub name: Name<'a>,
    pub parameters: Vec<Parameter<'a>>,
    pub body: Block<'a>,
}

pub struct Parameter<'a> {
    pub claims: bool,
    pub written: Type<'a>,
    pub name: Name<'a>,
}

#[derive(Clone, Copy, PartialEq, Eq)]
pub enum Scalar {
    Int,
    Bool,
    Byte,
}

#[derive(Clone, Copy, PartialEq, Eq)]
pub enum Side {
    Importer,
    Exporter,
}

/// `marked` is set if an exclamation mark follows the type.
pub enum Type<'a> {
    Scalar(Scalar),
    Pointer { target: Name<'a>, marked: bool },
    Array { element: Scalar, marked: bool },
    End { contract: Name<'a>, side: Side, state: Option<Name<'a>>, marked: bool, in_heap: bool },
}

pub struct Block<'a> {
    pub statements: Vec<Statement<'a>>,
    pub close: Place,
}

pub enum Statement<'a> {
    Block(Block<'a>),
    Declare { written: Type<'a>, name: Name<'a>, value: Option<Value<'a>> },
    Assign { target: Target<'a>, value: Value<'a> },
    Call(Call<'a>),
    Start(Call<'a>),
    Delete(Name<'a>),
    Exchange { holder: Name<'a>, field: Name<'a>, given: Name<'a> },
    NewChannel { contract: Name<'a>, place: Place, first: Name<'a>, second: Name<'a> },
    If { arms: Vec<Arm<'a>>, otherwise: Option<Block<'a>> },
    While(Arm<'a>),
    Break(Place),
    Continue(Place),
    Return { place: Place, value: Option<Expression<'a>> },
    Switch { place: Place, cases: Vec<Case<'a>> },
}

/// A test and the block that runs if it holds. The place is that of its `if` or `while`.
pub struct Arm<'a> {
    pub place: Place,
    pub test: Expression<'a>,
    pub body: Block<'a>,
}

/// `message` is the word `ChannelClosed` if `closed` is set.
pub struct Case<'a> {
    pub place: Place,
    pub endpoint: Name<'a>,
    pub message: Name<'a>,
    pub closed: bool,
    pub bindings: Vec<(Option<Type<'a>>, Name<'a>)>,
    pub statements: Vec<Statement<'a>>,
}

pub enum Target<'a> {
    Variable(Name<'a>),
    Field(Name<'a>, Name<'a>),
    Index(Name<'a>, Box<Expression<'a>>),
}

pub enum Value<'a> {
    Expression(Expression<'a>),
    Call(Call<'a>),
    NewStruct { place: Place, name: Name<'a>, arguments: Vec<Expression<'a>> },
    NewArray { place: Place, element: Scalar, length: Expression<'a> },
}

/// `of` is the class or endpoint before the dot.
pub struct Call<'a> {
    pub of: Option<Name<'a>>,
    pub name: Name<'a>,
    pub arguments: Vec<Expression<'a>>,
}

#[derive(Clone, Copy, PartialEq, Eq)]
pub enum Operator {
    Or,
    And,
    Equal,
    Unequal,
    Less,
    AtMost,
    Greater,
    AtLeast,
    Plus,
    Minus,
    Times,
}

#[derive(Clone, Copy, PartialEq, Eq)]
pub enum Prefix {
    Not,
    Negative,
}

pub enum Expression<'a> {
    Number(Place),
    Truth(bool, Place),
    Target(Target<'a>),
    Bracketed(Place, Box<Expression<'a>>),
    Prefixed(Vec<(Prefix, Place)>, Box<Expression<'a>>),
    Chain(Box<Expression<'a>>, Vec<(Operator, Expression<'a>)>),
}

impl<'a> Target<'a> {
    pub fn variable(&self) -> Name<'a> {
        match self {
            Target::Variable(name) | Target::Field(name, _) | Target::Index(name, _) => *name,
        }
    }
}

impl Expression<'_> {
    /// Returns the place of its first token.
    pub fn place(&self) -> Place {
        match self {
            Expression::Number(place) | Expression::Truth(_, place) | Expression::Bracketed(place, _) => *place,
            Expression::Target(target) => target.variable().place,
            Expression::Prefixed(prefixes, _) => prefixes[0].1,
            Expression::Chain(first, _) => first.place(),
        }
    }
}
