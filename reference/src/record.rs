//! Recorded calls and recorded sheets, as docs/service.md has them, and what is written of them.

use std::io::{self, BufRead, Write};
use std::str::FromStr;

use crate::listing;
use crate::service::{Offered, Resolver, Ticket};
use crate::vocabulary::{Fault, Place, Token};

/// Answers each call as soon as its line has come, so that a maker of calls can go by the answers.
pub fn calls(mut input: impl BufRead, mut output: impl Write) -> io::Result<()> {
    let mut resolver = None;
    for number in 1.. {
        let mut line = String::new();
        if input.read_line(&mut line)? == 0 {
            break;
        }
        let line = line.strip_suffix('\n').unwrap_or(&line);
        let answer =
            answer(&mut resolver, line).ok_or_else(|| malformed(format!("line {number} is no call: {line}")))?;
        writeln!(output, "{answer}")?;
    }
    output.flush()
}

/// The answer to a call, or none if the line is no call.
fn answer(resolver: &mut Option<Resolver>, line: &str) -> Option<String> {
    let words: Vec<&str> = line.split(' ').collect();
    if let ["new", first] = words[..] {
        *resolver = Some(Resolver::new(number(first)?));
        return Some(line.to_string());
    }
    let resolver = resolver.as_mut()?;
    let told = match words[..] {
        ["begin"] => resolver.begin().map(|ticket| format!("ticket {ticket}")),
        ["feed", ticket, kind, line, column, flag, offset, length, free] => {
            let place = Place { line: number(line)?, column: number(column)? };
            let (kind, offset, length) = (number(kind)?, number(offset)?, number(length)?);
            let lexeme = Offered { kind, place, first_on_line: told_flag(flag)?, offset, length };
            resolver.feed(number(ticket)?, lexeme, told_free(free)?).map(wrote)
        }
        ["finish", ticket, line, column, free] => {
            let end = Place { line: number(line)?, column: number(column)? };
            resolver.finish(number(ticket)?, end, told_free(free)?).map(wrote)
        }
        ["give-up", ticket] => resolver.give_up(number::<Ticket>(ticket)?).map(|()| "closed".to_string()),
        _ => return None,
    };
    Some(told.unwrap_or_else(|fault: Fault| format!("fault {fault}")))
}

/// A number in decimal, as it is written: no sign and no zero ahead.
fn number<N: FromStr + ToString>(word: &str) -> Option<N> {
    word.parse().ok().filter(|number: &N| number.to_string() == word)
}

fn told_flag(word: &str) -> Option<bool> {
    match word {
        "0" => Some(false),
        "1" => Some(true),
        _ => None,
    }
}

fn told_free(word: &str) -> Option<usize> {
    number::<u8>(word).map(usize::from)
}

fn wrote(tokens: Vec<Token>) -> String {
    let mut line = format!("wrote {}", tokens.len());
    for Token { kind, place, offset, length } in tokens {
        line += &format!(" | {} {} {} {offset} {length}", kind.number(), place.line, place.column);
    }
    line
}

/// Of each sheet its first line again, and what `tokens` prints of it.
pub fn sheets(mut input: impl BufRead, mut output: impl Write) -> io::Result<()> {
    loop {
        let mut line = Vec::new();
        if input.read_until(b'\n', &mut line)? == 0 {
            return output.flush();
        }
        let length = sheet_length(&line).ok_or_else(|| malformed("a sheet does not begin with its length"))?;
        let mut sheet = vec![0; length];
        input.read_exact(&mut sheet)?;
        let mut line_end = [0];
        input.read_exact(&mut line_end)?;
        if line_end != *b"\n" {
            return Err(malformed("a sheet is longer than its length"));
        }
        write!(output, "sheet {length}\n{}", listing::tokens(&sheet))?;
    }
}

fn sheet_length(line: &[u8]) -> Option<usize> {
    let line = std::str::from_utf8(line).ok()?;
    number(line.strip_prefix("sheet ")?.strip_suffix('\n')?)
}

fn malformed(why: impl Into<String>) -> io::Error {
    io::Error::new(io::ErrorKind::InvalidData, why.into())
}

#[cfg(test)]
mod tests {
    use super::*;

    fn answers(recorded: &str) -> io::Result<String> {
        let mut output = Vec::new();
        calls(recorded.as_bytes(), &mut output).map(|()| String::from_utf8(output).unwrap())
    }

    fn told(recorded: &[u8]) -> io::Result<String> {
        let mut output = Vec::new();
        sheets(recorded, &mut output).map(|()| String::from_utf8(output).unwrap())
    }

    #[test]
    fn calls_are_answered_line_by_line() {
        let recorded = "new 7\nbegin\nfeed 7 1 1 1 1 0 1 2\nfeed 7 14 1 3 0 2 2 0\nfeed 7 14 1 3 0 2 2 1\n\
            finish 8 1 5 9\nfinish 7 1 5 9\nbegin\nfeed 8 16 1 2 0 0 0 1\ngive-up 8\nnew 0\nbegin\nbegin\n";
        let answered = "new 7\nticket 7\nwrote 2 | 3 1 1 0 0 | 1 1 1 0 1\nfault 1 3 2 13 1\nwrote 1 | 14 1 3 2 2\n\
            fault 1 5 2 7 1\nwrote 3 | 3 1 5 0 0 | 4 1 5 0 0 | 4 1 5 0 0\nticket 8\nfault 1 2 2 8 -\nclosed\n\
            new 0\nticket 0\nfault 0 0 2 5 -\n";
        assert_eq!(answers(recorded).unwrap(), answered);
        assert_eq!(answers("").unwrap(), "");
    }

    #[test]
    fn nothing_written_is_told_too() {
        let recorded = "new 1\nbegin\nfeed 1 3 1 1 0 0 1 1\nfeed 1 4 1 2 0 1 1 1\nfinish 1 1 3 0\n";
        assert!(answers(recorded).unwrap().ends_with("\nwrote 0\n"));
    }

    #[test]
    fn what_is_no_call() {
        for line in ["begin", "new", "new 18446744073709551616", "new 01", "new 1\nfeed 1 1 1 1 2 0 0 0", ""] {
            assert!(answers(&format!("{line}\n")).is_err(), "{line}");
        }
        for line in ["begin ", "finish 1 1 1 256", "feed 1 4294967296 1 1 0 0 0 0", "give-up  1", "done"] {
            assert!(answers(&format!("new 1\n{line}\n")).is_err(), "{line}");
        }
    }

    #[test]
    fn sheets_by_their_lengths() {
        let recorded = b"sheet 5\na = 1\nsheet 0\n\nsheet 9\nsheet 2\n}\n";
        assert_eq!(told(recorded).unwrap(), "sheet 5\n{ a = 1 }\nsheet 0\n{ }\nsheet 9\n1 7 3 11 1\n2 1 3 11 1\n");
        assert!(told(b"sheet 1\n\n").is_err());
        assert!(told(b"sheet 0\na\n").is_err());
        assert!(told(b"sheet\n").is_err());
    }

    /// What is recorded for the first program too, so that both are held to one output.
    #[test]
    fn the_recorded_output_of_the_trials() {
        let trials = concat!(env!("CARGO_MANIFEST_DIR"), "/../crates/trials");
        let read = |name: &str| std::fs::read(format!("{trials}/{name}")).unwrap();
        let mut output = Vec::new();
        sheets(&read("data/sheets")[..], &mut output).unwrap();
        calls(&read("data/calls")[..], &mut output).unwrap();
        assert!(output == read("stdout"));
    }
}
