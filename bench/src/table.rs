//! The LL(1) table parser of the sheet grammar again, in plain safe Rust (docs/parsers.md).
//!
//! What the table does with a symbol when a kind comes is worked out when this is compiled, over all expansions up to
//! that kind. So a walk down the stack looks up one step for each symbol and writes nothing before the kind is met.

use crate::resolver::{Refused, Stepping};

const REACH: u16 = 1_024;

const NONTERMINAL: u8 = 16;
const BLOCK: u8 = 16;
const ITEMS: u8 = 17;
const MORE: u8 = 18;
const ITEM: u8 = 19;
const BODY: u8 = 20;
const WHERE: u8 = 21;
const EXPR: u8 = 22;
const TAIL: u8 = 23;
const TERM: u8 = 24;
const COMMA: u8 = 25;

/// The right sides of the productions, 1 to 20.
const RIGHT_SIDES: [&[u8]; 20] = [
    &[3, ITEMS, 4],
    &[ITEM, MORE],
    &[5, ITEMS],
    &[],
    &[1, BODY],
    &[],
    &[14, BLOCK],
    &[8, EXPR, WHERE],
    &[13, BLOCK],
    &[],
    &[11, BLOCK, 12, EXPR],
    &[TERM, TAIL],
    &[10, EXPR],
    &[],
    &[1],
    &[2],
    &[15, BLOCK],
    &[6, EXPR, COMMA, 7],
    &[9, EXPR, COMMA],
    &[],
];

/// The production for a nonterminal from 16 on and a kind from 1 on, or 0.
const ENTRIES: [[u8; 15]; 10] = [
    [0, 0, 1, 0, 0, 0, 0, 0, 0, 0, 0, 0, 0, 0, 0],
    [2, 0, 0, 2, 2, 0, 0, 0, 0, 0, 0, 0, 0, 0, 0],
    [0, 0, 0, 4, 3, 0, 0, 0, 0, 0, 0, 0, 0, 0, 0],
    [5, 0, 0, 6, 6, 0, 0, 0, 0, 0, 0, 0, 0, 0, 0],
    [0, 0, 0, 0, 0, 0, 0, 8, 0, 0, 0, 0, 0, 7, 0],
    [0, 0, 0, 10, 10, 0, 0, 0, 0, 0, 0, 0, 9, 0, 0],
    [12, 12, 0, 0, 0, 12, 0, 0, 0, 0, 11, 0, 0, 0, 12],
    [0, 0, 0, 14, 14, 0, 14, 0, 14, 13, 0, 0, 14, 0, 0],
    [15, 16, 0, 0, 0, 18, 0, 0, 0, 0, 0, 0, 0, 0, 17],
    [0, 0, 0, 0, 0, 0, 20, 0, 19, 0, 0, 0, 0, 0, 0],
];

/// A symbol leaves at most so many behind the kind that it meets.
const MOST_LEFT: usize = 4;

#[derive(Clone, Copy, PartialEq, Eq)]
enum Way {
    Refuses,
    /// The symbol derives nothing, and the walk goes on below it.
    Vanishes,
    Meets,
}

/// What becomes of a symbol when a kind comes. Where it meets the kind, `count` symbols stand in its place, the first
/// of `left` the lowest.
#[derive(Clone, Copy)]
#[repr(align(8))]
struct Step {
    left: [u8; MOST_LEFT],
    count: u8,
    way: Way,
}

impl Step {
    const fn bare(way: Way) -> Step {
        Step { left: [0; MOST_LEFT], count: 0, way }
    }

    /// Above what the symbols of a right side from a place on leave.
    const fn above(self, right: &[u8], from: usize) -> Step {
        let mut step = Step::bare(self.way);
        let mut at = right.len();
        while at > from {
            at -= 1;
            step.left[step.count as usize] = right[at];
            step.count += 1;
        }
        let mut own = 0;
        while own < self.count {
            step.left[step.count as usize] = self.left[own as usize];
            step.count += 1;
            own += 1;
        }
        step
    }

    const fn of(symbol: u8, kind: u8) -> Step {
        if symbol < NONTERMINAL {
            return Step::bare(if symbol == kind { Way::Meets } else { Way::Refuses });
        }
        let production = ENTRIES[(symbol - NONTERMINAL) as usize][kind as usize - 1];
        if production == 0 {
            return Step::bare(Way::Refuses);
        }
        let right = RIGHT_SIDES[production as usize - 1];
        let mut at = 0;
        while at < right.len() {
            let step = Step::of(right[at], kind);
            match step.way {
                Way::Refuses => return step,
                Way::Vanishes => at += 1,
                Way::Meets => return step.above(right, at + 1),
            }
        }
        Step::bare(Way::Vanishes)
    }
}

/// A row for each kind, and in it a step for each symbol; the rest, which is never asked for, makes both powers of two.
const ROWS: usize = 16;
const SYMBOLS: usize = 32;
static STEPS: [[Step; SYMBOLS]; ROWS] = {
    let mut steps = [[Step::bare(Way::Refuses); SYMBOLS]; ROWS];
    let mut kind = 1;
    while kind < ROWS {
        let mut symbol = 1;
        while symbol <= COMMA as usize {
            steps[kind][symbol] = Step::of(symbol as u8, kind as u8);
            symbol += 1;
        }
        kind += 1;
    }
    steps
};

fn is_nullable(symbol: u8) -> bool {
    matches!(symbol, ITEMS | MORE | ITEM | WHERE | TAIL | COMMA)
}

/// One place for the start symbol and three for each token; a step writes all that it could leave.
const DEPTH: usize = 1 + 3 * REACH as usize + MOST_LEFT;

/// A stack of symbols, its top last, with the number of tokens that may still be taken.
struct Level {
    symbols: [u8; DEPTH],
    count: usize,
    left: u16,
}

impl Level {
    fn new() -> Level {
        Level { symbols: [0; DEPTH], count: 0, left: 0 }
    }

    fn reset(&mut self) {
        self.symbols[0] = BLOCK;
        self.count = 1;
        self.left = REACH;
    }

    fn copy(&mut self, other: &Level) {
        self.symbols[..other.count].copy_from_slice(&other.symbols[..other.count]);
        self.count = other.count;
        self.left = other.left;
    }

    #[inline(always)]
    fn take(&mut self, kind: u32) -> Result<(), Refused> {
        let (at, step) = self.meet(kind).ok_or(Refused::NotViable)?;
        if self.left == 0 {
            return Err(Refused::ReachSpent);
        }
        self.symbols[at..at + MOST_LEFT].copy_from_slice(&step.left);
        self.count = at + step.count as usize;
        self.left -= 1;
        Ok(())
    }

    /// The place of the symbol that meets the kind, and its step, if the kind is viable.
    #[inline(always)]
    fn meet(&self, kind: u32) -> Option<(usize, Step)> {
        let steps = STEPS.get(kind as usize)?;
        for (at, &symbol) in self.symbols[..self.count].iter().enumerate().rev() {
            let step = steps[symbol as usize % SYMBOLS];
            match step.way {
                Way::Refuses => return None,
                Way::Vanishes => {}
                Way::Meets => return Some((at, step)),
            }
        }
        None
    }
}

pub struct TableParser {
    present: Level,
    held: Level,
    marked: bool,
}

impl TableParser {
    pub fn new() -> TableParser {
        TableParser { present: Level::new(), held: Level::new(), marked: false }
    }
}

impl Stepping for TableParser {
    fn start(&mut self) {
        self.present.reset();
        self.marked = false;
    }

    #[inline(always)]
    fn take(&mut self, kind: u32) -> Result<(), Refused> {
        self.present.take(kind)
    }

    fn complete(&self) -> bool {
        self.present.symbols[..self.present.count].iter().all(|&symbol| is_nullable(symbol))
    }

    fn mark(&mut self) {
        self.held.copy(&self.present);
        self.marked = true;
    }

    fn back(&mut self) {
        if self.marked {
            self.present.copy(&self.held);
            self.marked = false;
        }
    }

    fn keep(&mut self) {
        self.marked = false;
    }
}
