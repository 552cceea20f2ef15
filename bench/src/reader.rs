//! The reader again, in plain safe Rust: the same rules (docs/reader.md), the same queue in a lent slice, the same
//! sum of all that a text tells.

use crate::queue::{Full, Queue};
use crate::vocabulary::{Fault, Kind, Lexeme, Place};

pub const LONGEST_TEXT: usize = 65_535;
const LONGEST_RUN: usize = 64;
pub const LAST_COLUMN: u32 = 4_095;
/// How many lexemes the queue takes.
pub const PLACES: usize = 64;

#[derive(Clone, Copy, PartialEq, Eq)]
enum Class {
    Blank,
    LineEnd,
    Letter,
    Digit,
    Apostrophe,
    Sign,
    Other,
}

/// What the table says of a byte; the kind is that of a sign. A class that held the kind would be packed into one byte,
/// which takes more instructions to look at.
#[derive(Clone, Copy)]
struct Entry {
    class: Class,
    kind: Kind,
}

const ENTRIES: [Entry; 256] = {
    let mut entries = [Entry { class: Class::Other, kind: Kind::Name }; 256];
    let mut byte = 0;
    while byte < 256 {
        let (class, kind) = match byte as u8 {
            b'\t' | b' ' => (Class::Blank, Kind::Name),
            b'\n' | 12 | b'\r' => (Class::LineEnd, Kind::Name),
            b'A'..=b'Z' | b'a'..=b'z' | b'_' => (Class::Letter, Kind::Name),
            b'0'..=b'9' => (Class::Digit, Kind::Name),
            b'\'' => (Class::Apostrophe, Kind::Name),
            b'{' => (Class::Sign, Kind::OpenBrace),
            b'}' => (Class::Sign, Kind::CloseBrace),
            b';' => (Class::Sign, Kind::Semicolon),
            b'(' => (Class::Sign, Kind::OpenParen),
            b')' => (Class::Sign, Kind::CloseParen),
            b'=' => (Class::Sign, Kind::Equals),
            b',' => (Class::Sign, Kind::Comma),
            b'+' | b'-' | b'*' | b'/' => (Class::Sign, Kind::Operator),
            _ => (Class::Other, Kind::Name),
        };
        entries[byte] = Entry { class, kind };
        byte += 1;
    }
    entries
};

fn entry(byte: u8) -> Entry {
    ENTRIES[byte as usize]
}

pub enum Stop {
    Fault(Fault),
    Full,
}

impl From<Full> for Stop {
    fn from(_: Full) -> Stop {
        Stop::Full
    }
}

pub struct Reader<'a> {
    text: &'a [u8],
    offset: usize,
    line: u32,
    column: u32,
    first: bool,
}

impl<'a> Reader<'a> {
    pub fn open(text: &'a [u8]) -> Reader<'a> {
        let text = if text.len() > LONGEST_TEXT { &[] } else { text };
        Reader { text, offset: 0, line: 1, column: 1, first: true }
    }

    #[inline(always)]
    pub fn read(&mut self, queue: &mut Queue<Lexeme>) -> Result<u32, Stop> {
        let mut count = 0;
        while let Some(entry) = self.pass_gaps() {
            let rest = &self.text[self.offset..];
            let (kind, length) = match entry.class {
                Class::Letter => {
                    let length = run(rest, |class| matches!(class, Class::Letter | Class::Digit | Class::Apostrophe));
                    (kind_of_name(&rest[..length]), length)
                }
                Class::Digit => (Kind::Number, number_length(rest)),
                Class::Sign => (entry.kind, 1),
                _ => return Err(self.fault(1, 1)),
            };
            if length > LONGEST_RUN {
                return Err(self.fault(2, length));
            }
            if self.column > LAST_COLUMN {
                return Err(self.fault(3, length));
            }
            queue.put(Lexeme {
                kind: kind as u32,
                line: self.line,
                column: self.column,
                first: self.first,
                offset: self.offset as u32,
                length: length as u32,
            })?;
            self.pass_run(length);
            count += 1;
        }
        Ok(count)
    }

    /// Passes blanks and line ends, and looks up the byte behind them, if there is one.
    fn pass_gaps(&mut self) -> Option<Entry> {
        while let Some(&byte) = self.text.get(self.offset) {
            let entry = entry(byte);
            match entry.class {
                Class::Blank => {
                    self.column += if byte == b'\t' { 8 - (self.column - 1) % 8 } else { 1 };
                    self.offset += 1;
                }
                Class::LineEnd => {
                    let two = byte == b'\r' && self.text.get(self.offset + 1) == Some(&b'\n');
                    self.offset += if two { 2 } else { 1 };
                    self.line += 1;
                    self.column = 1;
                    self.first = true;
                }
                _ => return Some(entry),
            }
        }
        None
    }

    /// Where reading goes on.
    pub fn place(&self) -> Place {
        Place { line: self.line, column: self.column }
    }

    fn pass_run(&mut self, length: usize) {
        self.offset += length;
        self.column += length as u32;
        self.first = false;
    }

    fn fault(&mut self, number: u32, length: usize) -> Stop {
        let fault = Fault { number, line: self.line, column: self.column, context: None };
        self.pass_run(length);
        Stop::Fault(fault)
    }
}

fn run(bytes: &[u8], belongs: impl Fn(Class) -> bool) -> usize {
    bytes.iter().position(|&byte| !belongs(entry(byte).class)).unwrap_or(bytes.len())
}

fn number_length(bytes: &[u8]) -> usize {
    let whole = run(bytes, |class| class == Class::Digit);
    match &bytes[whole..] {
        [b'.', behind @ ..] => match run(behind, |class| class == Class::Digit) {
            0 => whole,
            digits => whole + 1 + digits,
        },
        _ => whole,
    }
}

fn kind_of_name(name: &[u8]) -> Kind {
    match name {
        b"let" => Kind::Let,
        b"in" => Kind::In,
        b"where" => Kind::Where,
        b"of" => Kind::Of,
        b"do" => Kind::Do,
        _ => Kind::Name,
    }
}

/// Reads a text to its end, through a queue that is emptied whenever it is full, and adds up all that it tells.
#[inline(never)]
pub fn read(text: &[u8]) -> u64 {
    let mut places = [Lexeme::default(); PLACES];
    let mut queue = Queue::new(&mut places);
    let mut reader = Reader::open(text);
    let mut sum = 0u64;
    loop {
        let answer = reader.read(&mut queue);
        while let Some(lexeme) = queue.take() {
            sum = sum.wrapping_add(
                lexeme.kind as u64
                    + lexeme.line as u64
                    + lexeme.column as u64
                    + lexeme.first as u64
                    + lexeme.offset as u64
                    + lexeme.length as u64,
            );
        }
        match answer {
            Ok(_) => return sum,
            Err(Stop::Fault(fault)) => {
                sum = sum.wrapping_add(fault.number as u64 + fault.line as u64 + fault.column as u64)
            }
            Err(Stop::Full) => {}
        }
    }
}
