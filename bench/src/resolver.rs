//! The resolver again, in plain safe Rust: the same rules (docs/layout.md), the same calls (docs/service.md) over any
//! parser that can be stepped, the same queues in lent slices, the same sum of all that comes out.
//!
//! What nearly every lexeme goes through is inlined by hint, here and in `table` and `queue`: the compiler would call
//! some of it, which takes up to a tenth more instructions. A lexeme with a mark goes through `write_marked` apart.

use crate::queue::Queue;
use crate::reader::{self, Reader, Stop};
use crate::table::TableParser;
use crate::vocabulary::{Fault, Kind, Lexeme, Place, Token};

const MOST_BLOCKS: usize = 64;
const LEXEME_PLACES: usize = reader::PLACES;
const TOKEN_PLACES: usize = 128;

const OPEN: u32 = Kind::OpenBrace as u32;
const CLOSE: u32 = Kind::CloseBrace as u32;
const SEPARATOR: u32 = Kind::Semicolon as u32;

/// Why a call is refused, by its number.
#[derive(Clone, Copy, PartialEq, Eq)]
pub enum Refused {
    SheetOpen = 5,
    NumbersSpent = 6,
    WrongTicket = 7,
    BadLexeme = 8,
    StrayClose = 9,
    TooDeep = 10,
    NotViable = 11,
    ReachSpent = 12,
    NoRoom = 13,
    BlockOpen = 14,
    NotComplete = 15,
}

/// The stepping interface of docs/parsers.md. `take` refuses as `NotViable` or `ReachSpent`, and then alters nothing.
pub trait Stepping {
    fn start(&mut self);
    fn take(&mut self, kind: u32) -> Result<(), Refused>;
    fn complete(&self) -> bool;
    fn mark(&mut self);
    fn back(&mut self);
    fn keep(&mut self);
}

/// What stands before a lexeme or before the end.
#[derive(Clone, Copy, PartialEq, Eq)]
enum Before {
    Nothing,
    BlockKeyword,
    Other,
}

#[derive(Clone, Copy, PartialEq, Eq)]
enum Mark {
    None,
    Line,
    Block,
}

impl Before {
    fn after(kind: u32) -> Before {
        const KEYWORDS: u32 =
            1 << Kind::Let as u32 | 1 << Kind::Where as u32 | 1 << Kind::Of as u32 | 1 << Kind::Do as u32;
        if KEYWORDS >> kind & 1 == 1 {
            Before::BlockKeyword
        } else {
            Before::Other
        }
    }

    fn mark_of(self, lexeme: &Lexeme) -> Mark {
        match self {
            Before::Nothing | Before::BlockKeyword if lexeme.kind != OPEN => Mark::Block,
            Before::BlockKeyword => Mark::None,
            _ if lexeme.first => Mark::Line,
            _ => Mark::None,
        }
    }

    fn end_mark(self) -> Mark {
        match self {
            Before::Nothing | Before::BlockKeyword => Mark::Block,
            Before::Other => Mark::None,
        }
    }
}

/// A sheet's number. It is spent when the sheet is finished or given up.
pub struct Ticket(u64);

/// A refusal that hands the ticket back.
pub struct Refusal {
    pub ticket: Ticket,
    pub fault: Fault,
}

/// The contexts of the open blocks are the first `depth`, the outermost first.
pub struct Resolver<P> {
    parser: P,
    contexts: [u32; MOST_BLOCKS],
    depth: usize,
    before: Before,
    sheet: Option<u64>,
    next: Option<u64>,
}

impl<P: Stepping> Resolver<P> {
    pub fn new(mut parser: P, first: u64) -> Resolver<P> {
        parser.start();
        Resolver {
            parser,
            contexts: [0; MOST_BLOCKS],
            depth: 0,
            before: Before::Nothing,
            sheet: None,
            next: Some(first),
        }
    }

    pub fn begin(&mut self) -> Result<Ticket, Fault> {
        if self.sheet.is_some() {
            return Err(self.fault(Refused::SheetOpen, 0, 0));
        }
        let Some(number) = self.next else {
            return Err(self.fault(Refused::NumbersSpent, 0, 0));
        };
        self.parser.start();
        self.depth = 0;
        self.before = Before::Nothing;
        self.sheet = Some(number);
        self.next = number.checked_add(1);
        Ok(Ticket(number))
    }

    /// Writes the tokens of a lexeme and answers how many, or leaves all as it was.
    #[inline(always)]
    pub fn feed(&mut self, ticket: &Ticket, lexeme: &Lexeme, queue: &mut Queue<Token>) -> Result<u32, Fault> {
        self.try_feed(ticket, lexeme, queue).map_err(|why| self.fault(why, lexeme.line, lexeme.column))
    }

    #[inline(always)]
    fn try_feed(&mut self, ticket: &Ticket, lexeme: &Lexeme, queue: &mut Queue<Token>) -> Result<u32, Refused> {
        self.check(ticket)?;
        if !(1..=15).contains(&lexeme.kind) || !(1..=reader::LAST_COLUMN).contains(&lexeme.column) {
            return Err(Refused::BadLexeme);
        }
        let mark = self.before.mark_of(lexeme);
        let count = if mark == Mark::None && lexeme.kind != OPEN && lexeme.kind != CLOSE && queue.free() > 0 {
            self.write_directly(lexeme, queue)?
        } else {
            self.write_marked(mark, lexeme, queue)?
        };
        self.before = Before::after(lexeme.kind);
        Ok(count)
    }

    /// Most lexemes have no mark and are no braces: the parser takes such a one at once, and nothing has to be taken
    /// back. Only where it is not viable a block may close before it.
    #[inline(always)]
    fn write_directly(&mut self, lexeme: &Lexeme, queue: &mut Queue<Token>) -> Result<u32, Refused> {
        match self.parser.take(lexeme.kind) {
            Ok(()) => {
                queue.put(without_flag(lexeme)).map_err(|_| Refused::NoRoom)?;
                Ok(1)
            }
            Err(Refused::NotViable) if self.innermost() > Some(0) => self.write_marked(Mark::None, lexeme, queue),
            Err(refused) => Err(refused),
        }
    }

    #[inline(never)]
    fn write_marked(&mut self, mark: Mark, lexeme: &Lexeme, queue: &mut Queue<Token>) -> Result<u32, Refused> {
        let place = Place { line: lexeme.line, column: lexeme.column };
        self.attempt(place, queue, |draft| {
            draft.pass_mark(mark, lexeme.column)?;
            draft.pass_lexeme(lexeme)
        })
    }

    /// Writes the last tokens, answers how many and closes the sheet, or leaves all as it was.
    pub fn finish(&mut self, ticket: Ticket, end: Place, queue: &mut Queue<Token>) -> Result<u32, Refusal> {
        match self.try_finish(&ticket, end, queue) {
            Ok(count) => Ok(count),
            Err(refused) => Err(Refusal { ticket, fault: self.fault(refused, end.line, end.column) }),
        }
    }

    fn try_finish(&mut self, ticket: &Ticket, end: Place, queue: &mut Queue<Token>) -> Result<u32, Refused> {
        self.check(ticket)?;
        let mark = self.before.end_mark();
        let count = self.attempt(end, queue, |draft| {
            draft.pass_mark(mark, 0)?;
            draft.pass_end()
        })?;
        self.close();
        Ok(count)
    }

    pub fn give_up(&mut self, ticket: Ticket) -> Result<(), Refusal> {
        if let Err(refused) = self.check(&ticket) {
            return Err(Refusal { ticket, fault: self.fault(refused, 0, 0) });
        }
        self.close();
        Ok(())
    }

    /// Runs rules that may be refused half-way: the parser is then taken back, and nothing else has changed.
    fn attempt<'a>(
        &mut self,
        place: Place,
        queue: &mut Queue<'a, Token>,
        rules: impl FnOnce(&mut Draft<'_, 'a, P>) -> Result<Option<u32>, Refused>,
    ) -> Result<u32, Refused> {
        self.parser.mark();
        let mut draft =
            Draft { parser: &mut self.parser, contexts: &mut self.contexts, depth: self.depth, queue, count: 0, place };
        let laid = rules(&mut draft);
        let Draft { depth, count, .. } = draft;
        let done = laid.and_then(|opened| queue.add(count as usize).map(|()| opened).map_err(|_| Refused::NoRoom));
        match done {
            Ok(opened) => {
                self.parser.keep();
                self.depth = depth;
                if let Some(context) = opened {
                    self.contexts[depth] = context;
                    self.depth += 1;
                }
                Ok(count)
            }
            Err(refused) => {
                self.parser.back();
                Err(refused)
            }
        }
    }

    fn check(&self, ticket: &Ticket) -> Result<(), Refused> {
        if self.sheet == Some(ticket.0) {
            Ok(())
        } else {
            Err(Refused::WrongTicket)
        }
    }

    fn close(&mut self) {
        self.depth = 0;
        self.sheet = None;
    }

    fn innermost(&self) -> Option<u32> {
        innermost(&self.contexts, self.depth)
    }

    #[cold]
    fn fault(&self, refused: Refused, line: u32, column: u32) -> Fault {
        Fault { number: refused as u32, line, column, context: self.innermost() }
    }
}

fn innermost(contexts: &[u32; MOST_BLOCKS], depth: usize) -> Option<u32> {
    contexts.get(depth.wrapping_sub(1)).copied()
}

fn without_flag(lexeme: &Lexeme) -> Token {
    let Lexeme { kind, line, column, offset, length, .. } = *lexeme;
    Token { kind, line, column, offset, length }
}

/// What a call would leave. Its tokens are laid into free places of the queue, where they do not wait yet, and a
/// context that it opens stands above those of the sheet.
struct Draft<'r, 'a, P> {
    parser: &'r mut P,
    contexts: &'r mut [u32; MOST_BLOCKS],
    depth: usize,
    queue: &'r mut Queue<'a, Token>,
    count: u32,
    place: Place,
}

impl<P: Stepping> Draft<'_, '_, P> {
    fn innermost(&self) -> Option<u32> {
        innermost(self.contexts, self.depth)
    }

    #[inline(always)]
    fn write(&mut self, token: Token) -> Result<(), Refused> {
        if token.kind == OPEN && self.depth == MOST_BLOCKS {
            return Err(Refused::TooDeep);
        }
        self.parser.take(token.kind)?;
        self.queue.lay(self.count as usize, token);
        self.count += 1;
        Ok(())
    }

    fn insert(&mut self, kind: u32) -> Result<(), Refused> {
        let Place { line, column } = self.place;
        self.write(Token { kind, line, column, offset: 0, length: 0 })
    }

    #[inline(always)]
    fn close(&mut self) -> Result<(), Refused> {
        self.insert(CLOSE)?;
        self.depth -= 1;
        Ok(())
    }

    #[inline(always)]
    fn pass_mark(&mut self, mark: Mark, column: u32) -> Result<(), Refused> {
        match mark {
            Mark::None => Ok(()),
            Mark::Line => self.pass_line(column),
            Mark::Block => {
                self.insert(OPEN)?;
                if column > self.innermost().unwrap_or(0) {
                    // This comes before any block is closed, so the place is above the sheet's contexts.
                    self.contexts[self.depth] = column;
                    self.depth += 1;
                    return Ok(());
                }
                self.insert(CLOSE)?;
                self.pass_line(column)
            }
        }
    }

    #[inline(always)]
    fn pass_line(&mut self, column: u32) -> Result<(), Refused> {
        while let Some(context) = self.innermost() {
            if context <= column {
                if context == column {
                    self.insert(SEPARATOR)?;
                }
                break;
            }
            self.close()?;
        }
        Ok(())
    }

    /// The context of the explicit block that the lexeme opens, if it does.
    fn pass_lexeme(&mut self, lexeme: &Lexeme) -> Result<Option<u32>, Refused> {
        let token = without_flag(lexeme);
        match token.kind {
            OPEN => {
                self.write(token)?;
                return Ok(Some(0));
            }
            CLOSE => {
                if self.innermost() != Some(0) {
                    return Err(Refused::StrayClose);
                }
                self.write(token)?;
                self.depth -= 1;
            }
            _ => {
                while let Err(refused) = self.write(token) {
                    if refused != Refused::NotViable || self.innermost() <= Some(0) {
                        return Err(refused);
                    }
                    self.close()?;
                }
            }
        }
        Ok(None)
    }

    fn pass_end(&mut self) -> Result<Option<u32>, Refused> {
        while let Some(context) = self.innermost() {
            if context == 0 {
                return Err(Refused::BlockOpen);
            }
            self.close()?;
        }
        if self.parser.complete() {
            Ok(None)
        } else {
            Err(Refused::NotComplete)
        }
    }
}

/// Who is told what comes out of a text, in the order of the text.
pub trait Listener {
    fn token(&mut self, token: Token);
    fn fault(&mut self, fault: Fault);
}

/// A sheet that is being resolved over the table parser, through a queue that is emptied after each call.
struct Session<'a, 'l, L> {
    resolver: Resolver<TableParser>,
    tokens: Queue<'a, Token>,
    listener: &'l mut L,
    refused: bool,
}

impl<L: Listener> Session<'_, '_, L> {
    fn feed(&mut self, ticket: &Ticket, lexeme: &Lexeme) {
        match self.resolver.feed(ticket, lexeme, &mut self.tokens) {
            Ok(_) => self.tell_all(),
            Err(fault) => self.refuse(fault),
        }
    }

    /// Finishes the sheet if nothing was refused.
    fn end(&mut self, ticket: Ticket, end: Place) {
        let left = if self.refused {
            Some(ticket)
        } else {
            match self.resolver.finish(ticket, end, &mut self.tokens) {
                Ok(_) => {
                    self.tell_all();
                    None
                }
                Err(Refusal { ticket, fault }) => {
                    self.refuse(fault);
                    Some(ticket)
                }
            }
        };
        if let Some(Err(Refusal { fault, .. })) = left.map(|ticket| self.resolver.give_up(ticket)) {
            self.refuse(fault);
        }
    }

    fn tell_all(&mut self) {
        while let Some(token) = self.tokens.take() {
            self.listener.token(token);
        }
    }

    fn refuse(&mut self, fault: Fault) {
        self.refused = true;
        self.listener.fault(fault);
    }
}

/// Reads and resolves a text to its end, whatever is refused on the way.
pub fn resolve_for(text: &[u8], listener: &mut impl Listener) {
    let mut token_places = [Token::default(); TOKEN_PLACES];
    let tokens = Queue::new(&mut token_places);
    let mut session = Session { resolver: Resolver::new(TableParser::new(), 0), tokens, listener, refused: false };
    let ticket = match session.resolver.begin() {
        Ok(ticket) => ticket,
        Err(fault) => return session.refuse(fault),
    };
    let mut lexeme_places = [Lexeme::default(); LEXEME_PLACES];
    let mut lexemes = Queue::new(&mut lexeme_places);
    let mut reader = Reader::open(text);
    loop {
        let answer = reader.read(&mut lexemes);
        while let Some(lexeme) = lexemes.take() {
            session.feed(&ticket, &lexeme);
        }
        match answer {
            Ok(_) => break,
            Err(Stop::Fault(fault)) => session.refuse(fault),
            Err(Stop::Full) => {}
        }
    }
    session.end(ticket, reader.place());
}

struct Sum(u64);

impl Listener for Sum {
    fn token(&mut self, token: Token) {
        let Token { kind, line, column, offset, length } = token;
        self.0 = self.0.wrapping_add(kind as u64 + line as u64 + column as u64 + offset as u64 + length as u64);
    }

    fn fault(&mut self, fault: Fault) {
        self.0 = self.0.wrapping_add(fault.number as u64 + fault.line as u64 + fault.column as u64);
    }
}

/// Reads and resolves a text and adds up all tokens and faults.
#[inline(never)]
pub fn resolve(text: &[u8]) -> u64 {
    let mut sum = Sum(0);
    resolve_for(text, &mut sum);
    sum.0
}
