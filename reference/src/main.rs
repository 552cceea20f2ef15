//! A second program for sheets, written from docs/ alone. It lists the lexemes of a sheet or its tokens, and answers
//! recorded sheets and recorded calls.

mod earley;
mod grammar;
mod layout;
mod listing;
mod reader;
mod record;
mod service;
mod vocabulary;

use std::io::{self, Read, Write};
use std::process::ExitCode;

const USAGE: &str = "usage: reference lexemes < sheet
       reference tokens < sheet
       reference sheets < recorded-sheets
       reference calls < recorded-calls";

fn main() -> ExitCode {
    let command = std::env::args().nth(1);
    let done = match command.as_deref() {
        Some("lexemes") => list(listing::lexemes),
        Some("tokens") => list(listing::tokens),
        Some("sheets") => record::sheets(io::stdin().lock(), io::stdout().lock()),
        Some("calls") => record::calls(io::stdin().lock(), io::stdout().lock()),
        _ => {
            eprintln!("{USAGE}");
            return ExitCode::from(2);
        }
    };
    match done {
        Ok(()) => ExitCode::SUCCESS,
        Err(error) => {
            eprintln!("reference: {error}");
            ExitCode::FAILURE
        }
    }
}

fn list(of_sheet: fn(&[u8]) -> String) -> io::Result<()> {
    let mut text = Vec::new();
    io::stdin().read_to_end(&mut text)?;
    io::stdout().write_all(of_sheet(&text).as_bytes())
}
