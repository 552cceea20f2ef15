//! What the plain reader and the plain resolver share (docs/vocabulary.md).

#[derive(Clone, Copy, PartialEq, Eq)]
pub enum Kind {
    Name = 1,
    Number = 2,
    OpenBrace = 3,
    CloseBrace = 4,
    Semicolon = 5,
    OpenParen = 6,
    CloseParen = 7,
    Equals = 8,
    Comma = 9,
    Operator = 10,
    Let = 11,
    In = 12,
    Where = 13,
    Of = 14,
    Do = 15,
}

#[derive(Clone, Copy, Default)]
pub struct Lexeme {
    pub kind: u32,
    pub line: u32,
    pub column: u32,
    pub first: bool,
    pub offset: u32,
    pub length: u32,
}

#[derive(Clone, Copy, Default)]
pub struct Token {
    pub kind: u32,
    pub line: u32,
    pub column: u32,
    pub offset: u32,
    pub length: u32,
}

#[derive(Clone, Copy)]
pub struct Place {
    pub line: u32,
    pub column: u32,
}

#[derive(Clone, Copy)]
pub struct Fault {
    pub number: u32,
    pub line: u32,
    pub column: u32,
    pub context: Option<u32>,
}
