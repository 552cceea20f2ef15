//! The words that all parts share: kinds, places, lexemes, tokens and faults, as docs/vocabulary.md numbers them.

use std::fmt;

#[derive(Clone, Copy, Debug, PartialEq, Eq)]
pub enum Kind {
    Name = 1,
    Number,
    OpenBrace,
    CloseBrace,
    Semicolon,
    OpenParen,
    CloseParen,
    Equals,
    Comma,
    Operator,
    Let,
    In,
    Where,
    Of,
    Do,
}

impl Kind {
    pub const ALL: [Kind; 15] = [
        Kind::Name,
        Kind::Number,
        Kind::OpenBrace,
        Kind::CloseBrace,
        Kind::Semicolon,
        Kind::OpenParen,
        Kind::CloseParen,
        Kind::Equals,
        Kind::Comma,
        Kind::Operator,
        Kind::Let,
        Kind::In,
        Kind::Where,
        Kind::Of,
        Kind::Do,
    ];

    pub fn from_number(number: u32) -> Option<Kind> {
        Kind::ALL.into_iter().find(|kind| kind.number() == number)
    }

    pub fn number(self) -> u32 {
        self as u32
    }

    pub fn is_block_keyword(self) -> bool {
        matches!(self, Kind::Let | Kind::Where | Kind::Of | Kind::Do)
    }
}

/// Line and column, both from 1. Places are ordered as they stand in the text.
#[derive(Clone, Copy, Debug, PartialEq, Eq, PartialOrd, Ord)]
pub struct Place {
    pub line: u32,
    pub column: u32,
}

impl Place {
    /// What is shown of a fault that has no place.
    pub const NONE: Place = Place { line: 0, column: 0 };
}

#[derive(Clone, Copy, Debug, PartialEq, Eq)]
pub struct Lexeme {
    pub kind: Kind,
    pub place: Place,
    /// The flag: only blanks stand before it on its line.
    pub first_on_line: bool,
    pub offset: usize,
    pub length: usize,
}

#[derive(Clone, Copy, Debug, PartialEq, Eq)]
pub struct Token {
    pub kind: Kind,
    pub place: Place,
    pub offset: usize,
    pub length: usize,
}

impl Token {
    pub fn typed(lexeme: &Lexeme) -> Token {
        Token { kind: lexeme.kind, place: lexeme.place, offset: lexeme.offset, length: lexeme.length }
    }

    pub fn inserted(kind: Kind, place: Place) -> Token {
        Token { kind, place, offset: 0, length: 0 }
    }
}

/// A layout context: the column of an implicit block, or 0 for an explicit one.
pub type Context = u32;

/// Why something is refused, with its number.
#[derive(Clone, Copy, Debug, PartialEq, Eq)]
pub enum Why {
    BeginsNoLexeme = 1,
    RunTooLong = 2,
    TooFarRight = 3,
    TextTooLong = 4,
    SheetIsOpen = 5,
    NumbersSpent = 6,
    OtherTicket = 7,
    NoLexeme = 8,
    StrayClose = 9,
    TooDeep = 10,
    NotViable = 11,
    ReachSpent = 12,
    QueueTooFull = 13,
    BlockLeftOpen = 14,
    NoSentence = 15,
}

impl Why {
    pub fn number(self) -> u32 {
        self as u32
    }

    /// 1 text, 2 layout, 3 parser; 0 stands for the absent layer of a plain answer.
    pub fn layer(self) -> u32 {
        match self {
            Why::TextTooLong => 0,
            Why::BeginsNoLexeme | Why::RunTooLong | Why::TooFarRight => 1,
            Why::SheetIsOpen | Why::NumbersSpent | Why::OtherTicket | Why::NoLexeme => 2,
            Why::StrayClose | Why::TooDeep | Why::QueueTooFull | Why::BlockLeftOpen => 2,
            Why::NotViable | Why::ReachSpent | Why::NoSentence => 3,
        }
    }
}

#[derive(Clone, Copy, Debug, PartialEq, Eq)]
pub struct Fault {
    pub why: Why,
    pub place: Place,
    pub context: Option<Context>,
}

impl Fault {
    pub const TEXT_TOO_LONG: Fault = Fault { why: Why::TextTooLong, place: Place::NONE, context: None };

    pub fn in_text(why: Why, place: Place) -> Fault {
        Fault { why, place, context: None }
    }
}

/// Line, column, layer, number and context, with one space between.
impl fmt::Display for Fault {
    fn fmt(&self, out: &mut fmt::Formatter) -> fmt::Result {
        let Place { line, column } = self.place;
        write!(out, "{line} {column} {} {} ", self.why.layer(), self.why.number())?;
        match self.context {
            Some(context) => write!(out, "{context}"),
            None => write!(out, "-"),
        }
    }
}
