//! What the plain resolver makes of a sheet, to be compared with the other programs: docs/service.md, "The program
//! `tokens`".

use crate::reader::LONGEST_TEXT;
use crate::resolver::{resolve_for, Listener};
use crate::vocabulary::{Fault, Kind, Token};

const MOST_FAULTS: usize = 256;

/// How many tokens a sheet comes to, and how many of them are its lexemes.
#[derive(Default)]
pub struct Counts {
    pub tokens: usize,
    pub lexemes: usize,
    faults: usize,
}

impl Listener for Counts {
    fn token(&mut self, token: Token) {
        self.tokens += 1;
        // An inserted token has no bytes of the text.
        self.lexemes += usize::from(token.length > 0);
    }

    fn fault(&mut self, _: Fault) {
        self.faults += 1;
    }
}

/// None where anything is refused.
pub fn counts(text: &[u8]) -> Option<Counts> {
    let mut counts = Counts::default();
    resolve_for(text, &mut counts);
    (counts.faults == 0).then_some(counts)
}

#[derive(Default)]
struct Listing {
    tokens: Vec<Token>,
    faults: Vec<Fault>,
}

impl Listener for Listing {
    fn token(&mut self, token: Token) {
        self.tokens.push(token);
    }

    fn fault(&mut self, fault: Fault) {
        self.faults.push(fault);
    }
}

/// The tokens on one line, or the faults with a line each.
pub fn tokens(text: &[u8]) -> String {
    if text.len() > LONGEST_TEXT {
        return "0 0 0 4 -\n".to_string();
    }
    let mut listing = Listing::default();
    resolve_for(text, &mut listing);
    if listing.faults.is_empty() {
        let words: Vec<_> = listing.tokens.iter().map(|token| word(text, token)).collect();
        words.join(" ") + "\n"
    } else {
        listing.faults.iter().take(MOST_FAULTS).map(line).collect()
    }
}

fn word(text: &[u8], token: &Token) -> String {
    if token.length > 0 {
        let bytes = &text[token.offset as usize..][..token.length as usize];
        return String::from_utf8_lossy(bytes).into_owned();
    }
    match token.kind {
        kind if kind == Kind::OpenBrace as u32 => "{".to_string(),
        kind if kind == Kind::CloseBrace as u32 => "}".to_string(),
        _ => ";".to_string(),
    }
}

fn line(fault: &Fault) -> String {
    let Fault { number, line, column, context } = *fault;
    let context = context.map_or("-".to_string(), |context| context.to_string());
    format!("{line} {column} {} {number} {context}\n", layer(number))
}

fn layer(number: u32) -> u32 {
    match number {
        1..=3 => 1,
        11 | 12 | 15 => 3,
        _ => 2,
    }
}
