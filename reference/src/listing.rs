//! What is printed of a sheet: its lexemes, or its tokens.

use crate::layout;
use crate::reader::{self, Item};
use crate::vocabulary::{Fault, Kind, Lexeme, Token};

/// A line for each lexeme and each fault in the order of the text, and a line that counts both.
pub fn lexemes(text: &[u8]) -> String {
    let Ok(reading) = reader::read(text) else {
        return format!("fault {}\n", Fault::TEXT_TOO_LONG);
    };
    let mut out = String::new();
    for item in &reading.items {
        match item {
            Item::Lexeme(lexeme) => out += &lexeme_line(text, lexeme),
            Item::Fault(fault) => out += &format!("fault {fault}\n"),
        }
    }
    out += &format!("{} lexemes, {} faults\n", reading.lexemes().len(), reading.faults().len());
    out
}

fn lexeme_line(text: &[u8], lexeme: &Lexeme) -> String {
    let Lexeme { kind, place, first_on_line, offset, length } = *lexeme;
    let flag = u32::from(first_on_line);
    let spelling = spelling(text, offset, length);
    format!("{} {} {} {flag} {offset} {length} {spelling}\n", place.line, place.column, kind.number())
}

/// The tokens on one line, or the faults with a line each.
pub fn tokens(text: &[u8]) -> String {
    let Ok(reading) = reader::read(text) else {
        return format!("{}\n", Fault::TEXT_TOO_LONG);
    };
    match layout::resolve(&reading) {
        Ok(tokens) => {
            let words: Vec<String> = tokens.iter().map(|token| token_text(text, token)).collect();
            words.join(" ") + "\n"
        }
        Err(faults) => faults.iter().map(|fault| format!("{fault}\n")).collect(),
    }
}

fn token_text(text: &[u8], token: &Token) -> String {
    if token.length > 0 {
        return spelling(text, token.offset, token.length);
    }
    match token.kind {
        Kind::OpenBrace => "{".to_string(),
        Kind::CloseBrace => "}".to_string(),
        Kind::Semicolon => ";".to_string(),
        other => unreachable!("{other:?} is never inserted"),
    }
}

/// All bytes of a lexeme are ASCII.
fn spelling(text: &[u8], offset: usize, length: usize) -> String {
    text[offset..offset + length].iter().map(|&byte| char::from(byte)).collect()
}

#[cfg(test)]
mod tests {
    use super::*;

    /// What is printed of a sheet in which a slash stands for a line end; a slash stands also between lines of output.
    fn resolved(sheet: &str) -> String {
        tokens(sheet.replace('/', "\n").as_bytes()).trim_end().replace('\n', "/")
    }

    #[test]
    fn lexemes_and_faults_in_their_places() {
        assert_eq!(
            lexemes(b" a = 1.\n"),
            "1 2 1 1 1 1 a\n1 4 8 0 3 1 =\n1 6 2 0 5 1 1\nfault 1 7 1 1 -\n3 lexemes, 1 faults\n"
        );
        assert_eq!(lexemes(b""), "0 lexemes, 0 faults\n");
    }

    #[test]
    fn a_text_too_long() {
        assert_eq!(lexemes(&[b'a'; 65_536]), "fault 0 0 0 4 -\n");
        assert_eq!(tokens(&[b'a'; 65_536]), "0 0 0 4 -\n");
    }

    #[test]
    fn blocks_are_inserted() {
        assert_eq!(resolved(""), "{ }");
        assert_eq!(
            resolved("mill of/  ne3 = 120/  ne4 = ne3 + 5/pier = let a = 2 in a"),
            "{ mill of { ne3 = 120 ; ne4 = ne3 + 5 } ; pier = let { a = 2 } in a }"
        );
        assert_eq!(resolved("a of/b = 2"), "{ a of { } ; b = 2 }");
        assert_eq!(resolved("a of"), "{ a of { } }");
        assert_eq!(resolved("a = ( do b = 1 )"), "{ a = ( do { b = 1 } ) }");
    }

    #[test]
    fn typed_blocks() {
        assert_eq!(resolved("{ a of { b = 1/ ; } }"), "{ a of { b = 1 ; } }");
        assert_eq!(resolved("/  { a = 1/}"), "{ a = 1 }");
        assert_eq!(resolved("a of/{ b = 1 }"), "{ a of { b = 1 } }");
        assert_eq!(resolved("a = 1/{ b = 1 }"), "2 1 3 11 1/2 3 3 11 1/2 5 3 11 1/2 7 3 11 1/2 9 2 9 1");
    }

    #[test]
    fn not_viable() {
        assert_eq!(resolved("x = 1 )"), "1 7 3 11 1");
        assert_eq!(resolved("  a = 1/b"), "2 1 3 11 3");
        assert_eq!(resolved("a ="), "1 4 3 11 1");
        assert_eq!(resolved("{ a = let"), "1 10 3 11 0");
        assert_eq!(resolved("a = (/}"), "2 1 3 11 1");
    }

    #[test]
    fn where_the_rules_are_undefined() {
        assert_eq!(resolved("{ a of"), "1 7 2 14 0");
        assert_eq!(resolved("{ a of }"), "1 8 2 9 0");
        assert_eq!(resolved("a = 1 }"), "1 7 2 9 1");
        assert_eq!(resolved("}"), "1 1 2 9 -");
    }

    #[test]
    fn a_refused_lexeme_is_as_if_never_fed() {
        assert_eq!(resolved(") a = 1"), "1 1 3 11 -");
        assert_eq!(resolved("a of ) b = 1 ) 2"), "1 6 3 11 1/1 14 3 11 8/1 16 3 11 8");
        assert_eq!(resolved("a = ? ? )"), "1 5 1 1 -/1 7 1 1 -/1 9 3 11 1");
    }

    #[test]
    fn at_most_64_blocks() {
        let nest = |depth: usize| "{a of ".repeat(depth - 1) + "{" + &"}".repeat(depth);
        assert_eq!(resolved(&nest(64)).matches('{').count(), 64);
        assert!(resolved(&nest(65)).starts_with("1 385 2 10 0/"));
        let inserted = "a of ".repeat(63) + "a";
        assert!(resolved(&inserted).starts_with("1 317 3 11 "));
        let empty = "a of ".repeat(64);
        assert_eq!(resolved(&empty), "1 321 2 10 316");
    }

    #[test]
    fn at_most_1024_tokens() {
        let sheet = |semicolons: usize| "{".to_string() + &";".repeat(semicolons) + "}";
        assert_eq!(resolved(&sheet(1_022)).len(), 2_047);
        assert_eq!(resolved(&sheet(1_023)), "1 1025 3 12 0");
        assert_eq!(resolved(&sheet(1_024)), "1 1025 3 12 0/1 1026 3 12 0");
    }

    #[test]
    fn at_most_256_faults() {
        assert_eq!(resolved(&"? ) ".repeat(300)).split('/').count(), 256);
        assert_eq!(resolved(&"x ".repeat(300)).split('/').count(), 256);
    }
}
