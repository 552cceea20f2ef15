//! The service of docs/service.md. What it keeps of a sheet is the list of lexemes that were accepted, and each call
//! runs the layout rules over that whole list from its start: of what they write, the tokens written before are
//! dropped. So no call has a state to take back when it is refused.

use crate::earley::Chart;
use crate::layout::{self, Laid};
use crate::reader::LAST_COLUMN;
use crate::vocabulary::{Context, Fault, Kind, Lexeme, Place, Token, Why};

pub type Ticket = u64;

/// What a caller hands over as a lexeme: its kind may be any number.
#[derive(Clone, Copy, Debug, PartialEq, Eq)]
pub struct Offered {
    pub kind: u32,
    pub place: Place,
    pub first_on_line: bool,
    pub offset: u32,
    pub length: u32,
}

impl Offered {
    fn lexeme(&self) -> Option<Lexeme> {
        if !(1..=LAST_COLUMN).contains(&self.place.column) {
            return None;
        }
        let Offered { place, first_on_line, .. } = *self;
        let (offset, length) = (self.offset as usize, self.length as usize);
        Kind::from_number(self.kind).map(|kind| Lexeme { kind, place, first_on_line, offset, length })
    }
}

/// Of the queue that a call lends only its free places count, so `free` is all that is handed over of it.
pub struct Resolver {
    /// The number of the next sheet, and none once the last was handed out.
    next: Option<Ticket>,
    open: Option<Ticket>,
    /// Since the last begin, whether the sheet is still open or not.
    accepted: Vec<Lexeme>,
    written: Vec<Token>,
    /// It keeps nothing that counts between calls; it only saves work.
    chart: Chart,
}

impl Resolver {
    pub fn new(first: Ticket) -> Resolver {
        Resolver { next: Some(first), open: None, accepted: Vec::new(), written: Vec::new(), chart: Chart::new() }
    }

    pub fn begin(&mut self) -> Result<Ticket, Fault> {
        if self.open.is_some() {
            return Err(self.fault(Why::SheetIsOpen, Place::NONE));
        }
        let Some(ticket) = self.next else {
            return Err(self.fault(Why::NumbersSpent, Place::NONE));
        };
        self.next = ticket.checked_add(1);
        self.open = Some(ticket);
        self.accepted.clear();
        self.written.clear();
        Ok(ticket)
    }

    /// The tokens that are written over the lexeme.
    pub fn feed(&mut self, ticket: Ticket, offered: Offered, free: usize) -> Result<Vec<Token>, Fault> {
        self.try_feed(ticket, offered, free).map_err(|why| self.fault(why, offered.place))
    }

    fn try_feed(&mut self, ticket: Ticket, offered: Offered, free: usize) -> Result<Vec<Token>, Why> {
        self.check(ticket)?;
        let lexeme = offered.lexeme().ok_or(Why::NoLexeme)?;
        let lexemes = [&self.accepted[..], &[lexeme]].concat();
        let tokens = self.lay(&lexemes, None)?.tokens;
        let fresh = self.fresh(&tokens, free)?;
        self.accepted = lexemes;
        self.written = tokens;
        Ok(fresh)
    }

    /// The tokens that are written to the end of the sheet, which is closed.
    pub fn finish(&mut self, ticket: Ticket, end: Place, free: usize) -> Result<Vec<Token>, Fault> {
        self.try_finish(ticket, end, free).map_err(|why| self.fault(why, end))
    }

    fn try_finish(&mut self, ticket: Ticket, end: Place, free: usize) -> Result<Vec<Token>, Why> {
        self.check(ticket)?;
        let lexemes = self.accepted.clone();
        let tokens = self.lay(&lexemes, Some(end))?.tokens;
        let fresh = self.fresh(&tokens, free)?;
        self.written = tokens;
        self.open = None;
        Ok(fresh)
    }

    pub fn give_up(&mut self, ticket: Ticket) -> Result<(), Fault> {
        self.check(ticket).map_err(|why| self.fault(why, Place::NONE))?;
        self.open = None;
        Ok(())
    }

    fn check(&self, ticket: Ticket) -> Result<(), Why> {
        if self.open == Some(ticket) {
            Ok(())
        } else {
            Err(Why::OtherTicket)
        }
    }

    fn lay(&mut self, lexemes: &[Lexeme], end: Option<Place>) -> Result<Laid, Why> {
        layout::lay(lexemes, end, &mut self.chart).map_err(|refusal| refusal.why)
    }

    /// What stands behind the tokens written before, if it finds room.
    fn fresh(&self, tokens: &[Token], free: usize) -> Result<Vec<Token>, Why> {
        let fresh = tokens.strip_prefix(&self.written[..]).expect("the rules write the same again");
        if fresh.len() > free {
            return Err(Why::QueueTooFull);
        }
        Ok(fresh.to_vec())
    }

    /// The contexts of the open sheet, the innermost last.
    fn contexts(&mut self) -> Vec<Context> {
        if self.open.is_none() {
            return Vec::new();
        }
        let lexemes = self.accepted.clone();
        self.lay(&lexemes, None).unwrap_or_else(|why| panic!("accepted lexemes are refused as {why:?}")).contexts
    }

    /// A refused call has altered nothing, so the contexts are those from before the call.
    fn fault(&mut self, why: Why, place: Place) -> Fault {
        Fault { why, place, context: self.contexts().last().copied() }
    }
}

#[cfg(test)]
mod tests {
    use super::*;
    use crate::grammar::{Production, Symbol, START};
    use crate::reader::{self, Reading};

    const ROOM: usize = 255;
    const END: Place = Place { line: 9, column: 0 };

    fn read(sheet: &str) -> Reading {
        reader::read(sheet.replace('/', "\n").as_bytes()).unwrap()
    }

    fn offered(lexeme: &Lexeme) -> Offered {
        let Lexeme { kind, place, first_on_line, .. } = *lexeme;
        let (offset, length) = (lexeme.offset as u32, lexeme.length as u32);
        Offered { kind: kind.number(), place, first_on_line, offset, length }
    }

    fn at(kind: Kind, line: u32, column: u32) -> Offered {
        let place = Place { line, column };
        Offered { kind: kind.number(), place, first_on_line: false, offset: 0, length: 1 }
    }

    /// A resolver with sheet 5 open, to which the lexemes of the sheet were fed; a slash stands for a line end.
    fn fed(sheet: &str) -> Resolver {
        let mut resolver = Resolver::new(5);
        assert_eq!(resolver.begin(), Ok(5));
        for lexeme in read(sheet).lexemes() {
            resolver.feed(5, offered(&lexeme), ROOM).unwrap();
        }
        resolver
    }

    fn told<T: std::fmt::Debug>(answer: Result<T, Fault>) -> String {
        answer.unwrap_err().to_string()
    }

    fn kinds(tokens: &[Token]) -> Vec<u32> {
        tokens.iter().map(|token| token.kind.number()).collect()
    }

    #[test]
    fn refused_as_5_a_sheet_is_open() {
        assert_eq!(told(fed("").begin()), "0 0 2 5 -");
        assert_eq!(told(fed("  a =").begin()), "0 0 2 5 3");
        assert_eq!(told(fed("{").begin()), "0 0 2 5 0");
    }

    #[test]
    fn refused_as_6_the_last_number_was_handed_out() {
        let mut resolver = Resolver::new(u64::MAX - 1);
        assert_eq!(resolver.begin(), Ok(u64::MAX - 1));
        assert_eq!(resolver.give_up(u64::MAX - 1), Ok(()));
        assert_eq!(resolver.begin(), Ok(u64::MAX));
        assert_eq!(told(resolver.begin()), "0 0 2 5 -");
        assert_eq!(resolver.give_up(u64::MAX), Ok(()));
        assert_eq!(told(resolver.begin()), "0 0 2 6 -");
        assert_eq!(told(resolver.begin()), "0 0 2 6 -");
    }

    #[test]
    fn refused_as_7_another_ticket() {
        let mut resolver = fed(" a");
        assert_eq!(told(resolver.feed(4, Offered { kind: 99, ..at(Kind::Of, 0, 7_000) }, 0)), "0 7000 2 7 2");
        assert_eq!(told(resolver.finish(6, END, 0)), "9 0 2 7 2");
        assert_eq!(told(resolver.give_up(0)), "0 0 2 7 2");
        assert_eq!(resolver.give_up(5), Ok(()));
        assert_eq!(told(resolver.give_up(5)), "0 0 2 7 -");
        assert_eq!(told(resolver.feed(5, at(Kind::Of, 1, 1), ROOM)), "1 1 2 7 -");
        assert_eq!(told(resolver.finish(5, END, ROOM)), "9 0 2 7 -");
        assert_eq!(resolver.begin(), Ok(6));
    }

    #[test]
    fn refused_as_8_no_kind_or_no_column() {
        let mut resolver = fed("");
        for kind in [0, 16, u32::MAX] {
            assert_eq!(told(resolver.feed(5, Offered { kind, ..at(Kind::Name, 1, 1) }, 0)), "1 1 2 8 -");
        }
        assert_eq!(told(resolver.feed(5, at(Kind::Name, 1, 0), ROOM)), "1 0 2 8 -");
        assert_eq!(told(resolver.feed(5, at(Kind::CloseBrace, 1, 4_096), ROOM)), "1 4096 2 8 -");
        let any = Offered { offset: u32::MAX, length: u32::MAX, ..at(Kind::Name, 0, 4_095) };
        assert_eq!(kinds(&resolver.feed(5, any, 2).unwrap()), [3, 1]);
    }

    #[test]
    fn refused_as_9_a_close_of_no_explicit_block() {
        assert_eq!(told(fed("").feed(5, at(Kind::CloseBrace, 1, 1), ROOM)), "1 1 2 9 -");
        assert_eq!(told(fed("{ a of").feed(5, at(Kind::CloseBrace, 1, 8), ROOM)), "1 8 2 9 0");
        // The first stop on the way decides: here the `;` before the brace.
        let next_line = Offered { first_on_line: true, ..at(Kind::CloseBrace, 2, 1) };
        assert_eq!(told(fed("a = (").feed(5, next_line, ROOM)), "2 1 3 11 1");
    }

    #[test]
    fn refused_as_10_too_deep() {
        let mut typed = fed(&"{ a of ".repeat(64));
        assert_eq!(told(typed.feed(5, at(Kind::OpenBrace, 1, 500), 0)), "1 500 2 10 0");
        assert_eq!(told(typed.feed(5, at(Kind::Name, 1, 500), 0)), "1 500 2 10 0");
        assert_eq!(told(typed.finish(5, END, 0)), "9 0 2 10 0");
        // Also of the empty block, and though a `{` is not viable here.
        let mut inserted = fed(&"a of ".repeat(64));
        assert_eq!(told(inserted.feed(5, at(Kind::Name, 1, 7), 0)), "1 7 2 10 316");
        assert_eq!(told(inserted.finish(5, END, 0)), "9 0 2 10 316");
        let mut full = fed(&("a of ".repeat(63) + "a"));
        assert_eq!(told(full.feed(5, at(Kind::OpenBrace, 1, 500), 0)), "1 500 2 10 316");
    }

    #[test]
    fn refused_as_11_not_viable() {
        assert_eq!(told(fed("a =").feed(5, at(Kind::Equals, 1, 5), 0)), "1 5 3 11 1");
        assert_eq!(told(fed("a =").finish(5, END, 0)), "9 0 3 11 1");
        assert_eq!(told(fed("{ a = let").finish(5, END, 0)), "9 0 3 11 0");
    }

    #[test]
    fn refused_as_12_no_more_tokens() {
        let mut resolver = fed(&("a of/".to_string() + &";".repeat(1_017)));
        assert_eq!(resolver.written.len(), 1_023);
        assert_eq!(told(resolver.feed(5, at(Kind::OpenParen, 1, 5), 0)), "1 5 3 11 1");
        let next_line = Offered { first_on_line: true, ..at(Kind::Name, 2, 1) };
        assert_eq!(told(resolver.feed(5, next_line, 0)), "2 1 3 12 1");
        assert_eq!(resolver.finish(5, END, 1).unwrap(), [Token::inserted(Kind::CloseBrace, END)]);
        let mut typed = fed(&("{".to_string() + &";".repeat(1_023)));
        assert_eq!(told(typed.feed(5, at(Kind::CloseBrace, 1, 5), 0)), "1 5 3 12 0");
        let mut inserted = fed(&";".repeat(1_023));
        assert_eq!(told(inserted.finish(5, END, 0)), "9 0 3 12 1");
    }

    #[test]
    fn refused_as_13_too_few_free_places() {
        let mut resolver = fed("a of");
        let next_line = Offered { first_on_line: true, ..at(Kind::Name, 2, 1) };
        assert_eq!(told(resolver.feed(5, next_line, 3)), "2 1 2 13 1");
        assert_eq!(told(resolver.finish(5, END, 2)), "9 0 2 13 1");
        assert_eq!(kinds(&resolver.feed(5, next_line, 4).unwrap()), [3, 4, 5, 1]);
        assert_eq!(told(resolver.finish(5, END, 0)), "9 0 3 11 1");
        assert_eq!(told(fed("").finish(5, END, 1)), "9 0 2 13 -");
        assert_eq!(fed("{ }").finish(5, END, 0), Ok(Vec::new()));
    }

    #[test]
    fn refused_as_14_the_end_inside_an_explicit_block() {
        assert_eq!(told(fed("{ a = 1").finish(5, END, 0)), "9 0 2 14 0");
        // First `{ } ;` would be written: the mark <0> equals the explicit context's 0.
        assert_eq!(told(fed("{ a of").finish(5, END, 0)), "9 0 2 14 0");
    }

    #[test]
    fn refused_as_15_the_sentence_has_not_ended() {
        // Over the sheet grammar the rules end with a sentence always, so another grammar is taken.
        static LONGER: [Production; 1] = [Production {
            left: START,
            right: &[Symbol::Kind(Kind::OpenBrace), Symbol::Kind(Kind::CloseBrace), Symbol::Kind(Kind::Name)],
        }];
        let mut resolver = Resolver { chart: Chart::over(&LONGER), ..Resolver::new(5) };
        assert_eq!(resolver.begin(), Ok(5));
        assert_eq!(told(resolver.finish(5, END, 0)), "9 0 3 15 -");
        assert_eq!(kinds(&resolver.feed(5, at(Kind::OpenBrace, 1, 1), 1).unwrap()), [3]);
        assert_eq!(told(resolver.finish(5, END, 0)), "9 0 2 14 0");
        assert_eq!(kinds(&resolver.feed(5, at(Kind::CloseBrace, 1, 2), 1).unwrap()), [4]);
        assert_eq!(told(resolver.finish(5, END, 0)), "9 0 3 15 -");
        assert_eq!(kinds(&resolver.feed(5, at(Kind::Name, 1, 3), 1).unwrap()), [1]);
        assert_eq!(resolver.finish(5, END, 0), Ok(Vec::new()));
    }

    /// Open blocks: all contexts, and the implicit ones.
    fn open_blocks(resolver: &mut Resolver) -> (usize, usize) {
        let contexts = resolver.contexts();
        (contexts.len(), contexts.iter().filter(|&&context| context > 0).count())
    }

    #[test]
    fn open_blocks_are_counted() {
        assert_eq!(open_blocks(&mut Resolver::new(0)), (0, 0));
        let mut resolver = fed("a of { b of c = do d");
        assert_eq!(open_blocks(&mut resolver), (4, 3));
        assert_eq!(resolver.give_up(5), Ok(()));
        assert_eq!(open_blocks(&mut resolver), (0, 0));
    }

    /// Expected kinds: what is viable after the tokens since the last begin.
    fn expected(resolver: &mut Resolver) -> Vec<u32> {
        let Resolver { chart, written, .. } = resolver;
        chart.restart();
        written.iter().for_each(|token| chart.take(token.kind));
        Kind::ALL.into_iter().filter(|&kind| chart.is_viable(kind)).map(Kind::number).collect()
    }

    #[test]
    fn expected_kinds_know_nothing_of_a_waiting_keyword() {
        assert_eq!(expected(&mut Resolver::new(5)), [3]);
        assert_eq!(expected(&mut fed("")), [3]);
        assert_eq!(expected(&mut fed("a of")), [3]);
        assert_eq!(expected(&mut fed("a")), [8, 14]);
        let mut resolver = fed("a of/b");
        assert_eq!(resolver.give_up(5), Ok(()));
        assert_eq!(expected(&mut resolver), [8, 14]);
        assert_eq!(resolver.begin(), Ok(6));
        assert_eq!(expected(&mut resolver), [3]);
        resolver.finish(6, END, ROOM).unwrap();
        assert_eq!(expected(&mut resolver), []);
    }

    #[test]
    fn a_refused_call_leaves_everything() {
        // The block keyword waits on, and the next lexeme opens its block.
        let mut resolver = fed("a of");
        assert_eq!(told(resolver.feed(5, at(Kind::CloseParen, 1, 6), ROOM)), "1 6 3 11 1");
        assert_eq!(kinds(&resolver.feed(5, at(Kind::Name, 1, 8), ROOM).unwrap()), [3, 1]);
        assert_eq!(told(resolver.finish(5, END, ROOM)), "9 0 3 11 8");
        assert_eq!(kinds(&resolver.feed(5, at(Kind::Of, 1, 9), ROOM).unwrap()), [14]);
        assert_eq!(kinds(&resolver.finish(5, END, 4).unwrap()), [3, 4, 4, 4]);
    }

    const SHEETS: [&str; 9] = [
        "",
        "mill of/  ne3 = 120/  ne4 = ne3 + 5/pier = let a = 2 in a",
        "a of/b = 2",
        "a = ( do b = 1 )",
        "a = ( do b = ( let c of in 2, do d where e ) where f of/ g",
        "{ a of { b = 1/ ; } ; c of",
        ") a of ) b = 1 ) 2 } {",
        "a = 1/{ b = 1 }",
        "  a = do/  b = 1/c",
    ];

    /// What the sheet is as one run of calls: its tokens, or its faults as the program `tokens` has them.
    fn run(reading: &Reading) -> Result<Vec<Token>, Vec<Fault>> {
        let mut resolver = Resolver::new(5);
        resolver.begin().unwrap();
        let lexemes = reading.lexemes();
        let answers: Vec<_> = lexemes.iter().map(|lexeme| resolver.feed(5, offered(lexeme), ROOM)).collect();
        let faults: Vec<Fault> = answers.into_iter().filter_map(Result::err).collect();
        if faults.is_empty() {
            resolver.finish(5, reading.end, ROOM).map_err(|fault| vec![fault])?;
            return Ok(resolver.written);
        }
        Err(faults)
    }

    #[test]
    fn lexeme_by_lexeme_as_the_whole_sheet() {
        for sheet in SHEETS {
            let reading = read(sheet);
            assert_eq!(run(&reading), layout::resolve(&reading), "{sheet}");
        }
    }

    #[test]
    fn finished_tokens_fed_again_are_written_unchanged() {
        for tokens in SHEETS.iter().filter_map(|sheet| run(&read(sheet)).ok()) {
            let mut resolver = Resolver::new(5);
            resolver.begin().unwrap();
            for (at, token) in (0..).zip(tokens) {
                let place = Place { line: 0, column: 1 + at * 977 % 4_095 };
                let lexeme = Lexeme { kind: token.kind, place, first_on_line: at % 3 != 1, offset: 8, length: 0 };
                assert_eq!(resolver.feed(5, offered(&lexeme), 1), Ok(vec![Token::typed(&lexeme)]));
            }
            assert_eq!(resolver.finish(5, END, 0), Ok(Vec::new()));
        }
    }
}
