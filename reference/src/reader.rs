//! From bytes to lexemes, as docs/reader.md says. The text is cut into lines first; each line is then read by itself,
//! since no lexeme goes over a line end.

use crate::vocabulary::{Fault, Kind, Lexeme, Place, Why};

const LONGEST_TEXT: usize = 65_535;
const LONGEST_RUN: usize = 64;
pub const LAST_COLUMN: u32 = 4_095;

const TAB: u8 = 9;
const LINE_FEED: u8 = 10;
const FORM_FEED: u8 = 12;
const CARRIAGE_RETURN: u8 = 13;
const SPACE: u8 = 32;

#[derive(Clone, Copy, Debug, PartialEq, Eq)]
pub enum Item {
    Lexeme(Lexeme),
    Fault(Fault),
}

/// All that a text has, in its order, and the place after its last byte.
#[derive(Clone, Debug, PartialEq, Eq)]
pub struct Reading {
    pub items: Vec<Item>,
    pub end: Place,
}

impl Reading {
    pub fn lexemes(&self) -> Vec<Lexeme> {
        self.items
            .iter()
            .filter_map(|item| if let Item::Lexeme(lexeme) = item { Some(*lexeme) } else { None })
            .collect()
    }

    pub fn faults(&self) -> Vec<Fault> {
        self.items.iter().filter_map(|item| if let Item::Fault(fault) = item { Some(*fault) } else { None }).collect()
    }
}

#[derive(Clone, Copy, Debug, PartialEq, Eq)]
pub struct TooLong;

pub fn read(text: &[u8]) -> Result<Reading, TooLong> {
    if text.len() > LONGEST_TEXT {
        return Err(TooLong);
    }
    let mut items = Vec::new();
    let mut end = Place { line: 1, column: 1 };
    for (line, (start, bytes)) in (1..).zip(lines(text)) {
        let columns = columns(bytes);
        read_line(Line { number: line, start, bytes, columns: &columns }, &mut items);
        end = Place { line, column: columns[bytes.len()] };
    }
    Ok(Reading { items, end })
}

/// The lines of a text without their ends, each with its offset. There is one more line than there are line ends.
fn lines(text: &[u8]) -> Vec<(usize, &[u8])> {
    let mut lines = Vec::new();
    let mut start = 0;
    let mut at = 0;
    while at < text.len() {
        let width = match text[at..] {
            [CARRIAGE_RETURN, LINE_FEED, ..] => 2,
            [LINE_FEED | FORM_FEED | CARRIAGE_RETURN, ..] => 1,
            _ => 0,
        };
        if width > 0 {
            lines.push((start, &text[start..at]));
            start = at + width;
        }
        at += width.max(1);
    }
    lines.push((start, &text[start..]));
    lines
}

/// The column of each byte of a line, and last the column behind it.
fn columns(line: &[u8]) -> Vec<u32> {
    let mut columns = vec![1];
    let mut column = 1;
    for &byte in line {
        column += if byte == TAB { 8 - (column - 1) % 8 } else { 1 };
        columns.push(column);
    }
    columns
}

struct Line<'a> {
    number: u32,
    start: usize,
    bytes: &'a [u8],
    columns: &'a [u32],
}

fn read_line(line: Line, items: &mut Vec<Item>) {
    let mut at = 0;
    let mut only_blanks = true;
    while at < line.bytes.len() {
        let rest = &line.bytes[at..];
        if is_blank(rest[0]) {
            at += 1;
            continue;
        }
        let place = Place { line: line.number, column: line.columns[at] };
        let found = longest_lexeme(rest);
        let length = found.map_or(1, |(_, length)| length);
        items.push(match judge(found, place) {
            Ok(kind) => {
                Item::Lexeme(Lexeme { kind, place, first_on_line: only_blanks, offset: line.start + at, length })
            }
            Err(why) => Item::Fault(Fault::in_text(why, place)),
        });
        only_blanks = false;
        at += length;
    }
}

fn judge(found: Option<(Kind, usize)>, place: Place) -> Result<Kind, Why> {
    let (kind, length) = found.ok_or(Why::BeginsNoLexeme)?;
    if length > LONGEST_RUN {
        return Err(Why::RunTooLong);
    }
    if place.column > LAST_COLUMN {
        return Err(Why::TooFarRight);
    }
    Ok(kind)
}

/// The kind and the length of the longest lexeme that the bytes begin with. They are not empty.
fn longest_lexeme(bytes: &[u8]) -> Option<(Kind, usize)> {
    if is_letter(bytes[0]) {
        let length = run(bytes, is_in_name);
        return Some((kind_of_name(&bytes[..length]), length));
    }
    if bytes[0].is_ascii_digit() {
        return Some((Kind::Number, number_length(bytes)));
    }
    sign(bytes[0]).map(|kind| (kind, 1))
}

fn number_length(bytes: &[u8]) -> usize {
    let whole = run(bytes, |byte| byte.is_ascii_digit());
    match &bytes[whole..] {
        [b'.', behind @ ..] => match run(behind, |byte| byte.is_ascii_digit()) {
            0 => whole,
            digits => whole + 1 + digits,
        },
        _ => whole,
    }
}

fn run(bytes: &[u8], belongs: impl Fn(u8) -> bool) -> usize {
    bytes.iter().take_while(|&&byte| belongs(byte)).count()
}

fn is_blank(byte: u8) -> bool {
    byte == TAB || byte == SPACE
}

fn is_letter(byte: u8) -> bool {
    byte.is_ascii_alphabetic() || byte == b'_'
}

fn is_in_name(byte: u8) -> bool {
    is_letter(byte) || byte.is_ascii_digit() || byte == b'\''
}

fn kind_of_name(name: &[u8]) -> Kind {
    match name {
        b"let" => Kind::Let,
        b"in" => Kind::In,
        b"where" => Kind::Where,
        b"of" => Kind::Of,
        b"do" => Kind::Do,
        _ => Kind::Name,
    }
}

fn sign(byte: u8) -> Option<Kind> {
    match byte {
        b'{' => Some(Kind::OpenBrace),
        b'}' => Some(Kind::CloseBrace),
        b';' => Some(Kind::Semicolon),
        b'(' => Some(Kind::OpenParen),
        b')' => Some(Kind::CloseParen),
        b'=' => Some(Kind::Equals),
        b',' => Some(Kind::Comma),
        b'+' | b'-' | b'*' | b'/' => Some(Kind::Operator),
        _ => None,
    }
}

#[cfg(test)]
mod tests {
    use super::*;

    /// Each lexeme as its text, with `!` before it if its flag is set; each fault as `?` and its number.
    fn told(text: &str) -> String {
        let words: Vec<String> = read(text.as_bytes()).unwrap().items.iter().map(|item| tell(text, item)).collect();
        words.join(" ")
    }

    fn tell(text: &str, item: &Item) -> String {
        match item {
            Item::Lexeme(lexeme) => {
                let flag = if lexeme.first_on_line { "!" } else { "" };
                format!("{flag}{}", &text[lexeme.offset..lexeme.offset + lexeme.length])
            }
            Item::Fault(fault) => format!("?{}", fault.why.number()),
        }
    }

    fn end(text: &str) -> (u32, u32) {
        let Place { line, column } = read(text.as_bytes()).unwrap().end;
        (line, column)
    }

    #[test]
    fn the_longest_run_is_taken() {
        assert_eq!(told("12ab"), "!12 ab");
        assert_eq!(told("1."), "!1 ?1");
        assert_eq!(told("1.5.6"), "!1.5 ?1 6");
    }

    #[test]
    fn keywords_are_exactly_five_names() {
        let kinds: Vec<Kind> = read(b"let Let let' of").unwrap().lexemes().iter().map(|lexeme| lexeme.kind).collect();
        assert_eq!(kinds, [Kind::Let, Kind::Name, Kind::Name, Kind::Of]);
    }

    #[test]
    fn line_ends() {
        assert_eq!(end("\r\r\n"), (3, 1));
        assert_eq!(end("\n\r"), (3, 1));
        assert_eq!(end("a\x0cbc"), (2, 3));
        assert_eq!(end(""), (1, 1));
    }

    #[test]
    fn tabs_lead_to_the_next_of_nine_and_seventeen() {
        assert_eq!(end("\t"), (1, 9));
        assert_eq!(end("1234567\t"), (1, 9));
        assert_eq!(end("12345678\t"), (1, 17));
    }

    #[test]
    fn a_refused_byte_or_run_is_no_blank() {
        assert_eq!(told(" ' a\n b"), "?1 a !b");
        assert_eq!(told(&format!("{} a", "x".repeat(65))), "?2 a");
    }

    #[test]
    fn the_first_fault_that_fits() {
        let far = " ".repeat(4_095);
        assert_eq!(told(&format!("{}a", " ".repeat(4_094))), "!a");
        assert_eq!(told(&format!("{far}a b")), "?3 ?3");
        assert_eq!(told(&format!("{far}'{}", "1".repeat(65))), "?1 ?2");
        assert_eq!(told(&format!("{}.{}", "1".repeat(32), "2".repeat(32))), "?2");
    }

    #[test]
    fn a_text_has_at_most_65535_bytes() {
        assert!(read(&[b' '; 65_535]).is_ok());
        assert_eq!(read(&[b' '; 65_536]), Err(TooLong));
    }
}
