//! The layout rules of docs/layout.md over a whole list of lexemes at once. A lexeme that is refused is struck from the
//! list and the rules run over what is left, so that it is as if it had never been there.

use crate::earley::Chart;
use crate::reader::Reading;
use crate::vocabulary::{Context, Fault, Kind, Lexeme, Place, Token, Why};

const MOST_CONTEXTS: usize = 64;
const MOST_TOKENS: usize = 1_024;
const MOST_FAULTS: usize = 256;

#[derive(Clone, Copy, Debug, PartialEq, Eq)]
enum Mark {
    Block(u32),
    Line(u32),
}

/// What the rules write of a list of lexemes, and the contexts that are open behind it, the innermost last.
pub struct Laid {
    pub tokens: Vec<Token>,
    pub contexts: Vec<Context>,
}

/// Where the rules stopped, why, and the innermost context before they came to that lexeme or to the end.
pub struct Refusal {
    pub at: Stop,
    pub why: Why,
    pub context: Option<Context>,
}

pub enum Stop {
    Lexeme(usize),
    End,
}

/// The tokens of a sheet, or its first faults in the order of the text.
pub fn resolve(reading: &Reading) -> Result<Vec<Token>, Vec<Fault>> {
    let mut faults = reading.faults();
    let refused_in_text = faults.len();
    let mut lexemes = reading.lexemes();
    let mut chart = Chart::new();
    // As many refusals as are told at most are enough, wherever the faults of the text stand between them.
    while faults.len() - refused_in_text < MOST_FAULTS {
        let Refusal { at, why, context } = match lay(&lexemes, Some(reading.end), &mut chart) {
            Ok(laid) if faults.is_empty() => return Ok(laid.tokens),
            Ok(_) => break,
            Err(refusal) => refusal,
        };
        match at {
            Stop::Lexeme(index) => {
                let place = lexemes.remove(index).place;
                faults.push(Fault { why, place, context });
            }
            // A sheet of which anything was refused is given up at its end.
            Stop::End if !faults.is_empty() => break,
            Stop::End => return Err(vec![Fault { why, place: reading.end, context }]),
        }
    }
    faults.sort_by_key(|fault| fault.place);
    faults.truncate(MOST_FAULTS);
    Err(faults)
}

/// The rules over the marked list and then over the end, if it has come, up to what stops them first.
pub fn lay(lexemes: &[Lexeme], end: Option<Place>, chart: &mut Chart) -> Result<Laid, Refusal> {
    chart.restart();
    let mut page = Page { chart, tokens: Vec::new(), contexts: Vec::new() };
    let mut previous = None;
    for (index, lexeme) in lexemes.iter().enumerate() {
        let context = page.innermost();
        page.pass(mark_before(previous, lexeme), lexeme).map_err(|why| Refusal {
            at: Stop::Lexeme(index),
            why,
            context,
        })?;
        previous = Some(lexeme.kind);
    }
    if let Some(place) = end {
        let context = page.innermost();
        page.finish(mark_before_end(previous), place).map_err(|why| Refusal { at: Stop::End, why, context })?;
    }
    Ok(Laid { tokens: page.tokens, contexts: page.contexts })
}

fn mark_before(previous: Option<Kind>, lexeme: &Lexeme) -> Option<Mark> {
    let behind_keyword = previous.is_some_and(Kind::is_block_keyword);
    let is_brace = lexeme.kind == Kind::OpenBrace;
    if (previous.is_none() || behind_keyword) && !is_brace {
        return Some(Mark::Block(lexeme.place.column));
    }
    if lexeme.first_on_line && !(is_brace && behind_keyword) {
        return Some(Mark::Line(lexeme.place.column));
    }
    None
}

fn mark_before_end(previous: Option<Kind>) -> Option<Mark> {
    if previous.map_or(true, Kind::is_block_keyword) {
        Some(Mark::Block(0))
    } else {
        None
    }
}

/// What is written so far, and the open contexts with the innermost last.
struct Page<'a> {
    chart: &'a mut Chart,
    tokens: Vec<Token>,
    contexts: Vec<Context>,
}

impl Page<'_> {
    fn innermost(&self) -> Option<Context> {
        self.contexts.last().copied()
    }

    fn is_in_implicit_block(&self) -> bool {
        self.innermost() > Some(0)
    }

    fn pass(&mut self, mark: Option<Mark>, lexeme: &Lexeme) -> Result<(), Why> {
        self.pass_mark(mark, lexeme.place)?;
        self.pass_lexeme(lexeme)
    }

    fn finish(&mut self, mark: Option<Mark>, end: Place) -> Result<(), Why> {
        self.pass_mark(mark, end)?;
        self.pass_end(end)
    }

    fn pass_mark(&mut self, mark: Option<Mark>, place: Place) -> Result<(), Why> {
        match mark {
            None => Ok(()),
            Some(Mark::Line(column)) => self.pass_line_mark(column, place),
            Some(Mark::Block(column)) if column > self.innermost().unwrap_or(0) => {
                self.open(Token::inserted(Kind::OpenBrace, place), column)
            }
            Some(Mark::Block(column)) => {
                self.write(Token::inserted(Kind::OpenBrace, place))?;
                self.write(Token::inserted(Kind::CloseBrace, place))?;
                self.pass_line_mark(column, place)
            }
        }
    }

    fn pass_line_mark(&mut self, column: u32, place: Place) -> Result<(), Why> {
        while self.innermost() > Some(column) {
            self.close(Token::inserted(Kind::CloseBrace, place))?;
        }
        if self.innermost() == Some(column) {
            self.write(Token::inserted(Kind::Semicolon, place))?;
        }
        Ok(())
    }

    fn pass_lexeme(&mut self, lexeme: &Lexeme) -> Result<(), Why> {
        let token = Token::typed(lexeme);
        match lexeme.kind {
            Kind::OpenBrace => self.open(token, 0),
            Kind::CloseBrace if self.innermost() == Some(0) => self.close(token),
            Kind::CloseBrace => Err(Why::StrayClose),
            kind => {
                while self.is_in_implicit_block()
                    && !self.chart.is_viable(kind)
                    && self.chart.is_viable(Kind::CloseBrace)
                {
                    self.close(Token::inserted(Kind::CloseBrace, lexeme.place))?;
                }
                self.write(token)
            }
        }
    }

    fn pass_end(&mut self, end: Place) -> Result<(), Why> {
        while self.is_in_implicit_block() {
            self.close(Token::inserted(Kind::CloseBrace, end))?;
        }
        if self.innermost().is_some() {
            return Err(Why::BlockLeftOpen);
        }
        if !self.chart.is_sentence() {
            return Err(Why::NoSentence);
        }
        Ok(())
    }

    fn open(&mut self, brace: Token, context: Context) -> Result<(), Why> {
        self.write(brace)?;
        self.contexts.push(context);
        Ok(())
    }

    fn close(&mut self, brace: Token) -> Result<(), Why> {
        self.write(brace)?;
        self.contexts.pop();
        Ok(())
    }

    fn write(&mut self, token: Token) -> Result<(), Why> {
        if token.kind == Kind::OpenBrace && self.contexts.len() == MOST_CONTEXTS {
            return Err(Why::TooDeep);
        }
        if !self.chart.is_viable(token.kind) {
            return Err(Why::NotViable);
        }
        if self.tokens.len() == MOST_TOKENS {
            return Err(Why::ReachSpent);
        }
        self.chart.take(token.kind);
        self.tokens.push(token);
        Ok(())
    }
}
