//! Viability and sentences by Earley's algorithm, from the productions alone. Every nonterminal of the grammar has to
//! derive some list of kinds, as in the sheet grammar: a kind that an Earley set expects then begins the rest of a
//! sentence.

use std::collections::HashSet;

use crate::grammar::{Nonterminal, Production, Symbol, PRODUCTIONS, START};
use crate::vocabulary::Kind;

type Grammar = &'static [Production];

/// A production with a dot in its right side, and the number of kinds before it began.
#[derive(Clone, Copy, Debug, PartialEq, Eq, Hash)]
struct Item {
    production: usize,
    dot: usize,
    origin: usize,
}

impl Item {
    fn next(&self, grammar: Grammar) -> Option<Symbol> {
        grammar[self.production].right.get(self.dot).copied()
    }

    fn left(&self, grammar: Grammar) -> Nonterminal {
        grammar[self.production].left
    }

    fn advanced(&self) -> Item {
        Item { dot: self.dot + 1, ..*self }
    }
}

/// What is known after some kinds: the items that wait, each with its symbol, and whether the kinds are a sentence.
struct Set {
    waiting: Vec<(Symbol, Item)>,
    is_sentence: bool,
}

impl Set {
    fn waiting_for(&self, symbol: Symbol) -> impl Iterator<Item = Item> + '_ {
        self.waiting.iter().filter(move |(awaited, _)| *awaited == symbol).map(|(_, item)| *item)
    }
}

/// The items of a set while it grows: each once, in the order found.
#[derive(Default)]
struct Agenda {
    items: Vec<Item>,
    found: HashSet<Item>,
}

impl Agenda {
    fn add(&mut self, item: Item) {
        if self.found.insert(item) {
            self.items.push(item);
        }
    }
}

/// The sets for a list of kinds and for each of its beginnings, and the beginning that it stands at. The list is gone
/// through again from the start as often as wanted; sets are made anew only behind the first kind that is another.
pub struct Chart {
    grammar: Grammar,
    kinds: Vec<Kind>,
    sets: Vec<Set>,
    at: usize,
}

impl Chart {
    pub fn new() -> Chart {
        Chart::over(&PRODUCTIONS)
    }

    pub fn over(grammar: Grammar) -> Chart {
        Chart { grammar, kinds: Vec::new(), sets: vec![first_set(grammar)], at: 0 }
    }

    pub fn restart(&mut self) {
        self.at = 0;
    }

    pub fn take(&mut self, kind: Kind) {
        if self.kinds.get(self.at) != Some(&kind) {
            self.kinds.truncate(self.at);
            self.sets.truncate(self.at + 1);
            self.extend(kind);
        }
        self.at += 1;
    }

    /// Whether the kinds taken since the start and then this one begin a sentence.
    pub fn is_viable(&self, kind: Kind) -> bool {
        self.sets[self.at].waiting_for(Symbol::Kind(kind)).next().is_some()
    }

    pub fn is_sentence(&self) -> bool {
        self.sets[self.at].is_sentence
    }

    fn extend(&mut self, kind: Kind) {
        let mut agenda = Agenda::default();
        for item in self.sets[self.at].waiting_for(Symbol::Kind(kind)) {
            agenda.add(item.advanced());
        }
        let set = closed(self.grammar, agenda, &self.sets);
        self.kinds.push(kind);
        self.sets.push(set);
    }
}

fn first_set(grammar: Grammar) -> Set {
    let mut agenda = Agenda::default();
    predict(grammar, START, 0, &mut agenda);
    closed(grammar, agenda, &[])
}

/// Adds what follows from the items of the agenda, which stands behind the earlier sets.
fn closed(grammar: Grammar, mut agenda: Agenda, earlier: &[Set]) -> Set {
    let here = earlier.len();
    let mut at = 0;
    while at < agenda.items.len() {
        let item = agenda.items[at];
        at += 1;
        match item.next(grammar) {
            Some(Symbol::Kind(_)) => {}
            Some(Symbol::Nonterminal(nonterminal)) => {
                predict(grammar, nonterminal, here, &mut agenda);
                if is_nullable(grammar, nonterminal) {
                    agenda.add(item.advanced());
                }
            }
            // What was derived from nothing has been passed already, where it was predicted.
            None if item.origin == here => {}
            None => {
                for waiting in earlier[item.origin].waiting_for(Symbol::Nonterminal(item.left(grammar))) {
                    agenda.add(waiting.advanced());
                }
            }
        }
    }
    let is_whole = |item: &Item| item.next(grammar).is_none() && item.left(grammar) == START && item.origin == 0;
    let is_sentence = agenda.items.iter().any(is_whole);
    let waiting = agenda.items.into_iter().filter_map(|item| Some((item.next(grammar)?, item))).collect();
    Set { waiting, is_sentence }
}

fn predict(grammar: Grammar, nonterminal: Nonterminal, origin: usize, agenda: &mut Agenda) {
    for (production, _) in grammar.iter().enumerate().filter(|(_, production)| production.left == nonterminal) {
        agenda.add(Item { production, dot: 0, origin });
    }
}

/// Whether the empty list is derived from the nonterminal. It ends since no nonterminal of the grammar comes back to
/// itself before a kind.
fn is_nullable(grammar: Grammar, nonterminal: Nonterminal) -> bool {
    grammar.iter().filter(|production| production.left == nonterminal).any(|production| {
        production.right.iter().all(|symbol| match symbol {
            Symbol::Kind(_) => false,
            Symbol::Nonterminal(part) => is_nullable(grammar, *part),
        })
    })
}

#[cfg(test)]
mod tests {
    use super::*;
    use crate::vocabulary::Kind::*;

    fn standing_after(chart: &mut Chart, kinds: &[Kind]) {
        chart.restart();
        kinds.iter().for_each(|&kind| chart.take(kind));
    }

    fn viable(kinds: &[Kind]) -> Vec<Kind> {
        let mut chart = Chart::new();
        standing_after(&mut chart, kinds);
        Kind::ALL.into_iter().filter(|&kind| chart.is_viable(kind)).collect()
    }

    #[test]
    fn what_is_viable() {
        assert_eq!(viable(&[]), [OpenBrace]);
        assert_eq!(viable(&[OpenBrace]), [Name, CloseBrace, Semicolon]);
        assert_eq!(viable(&[OpenBrace, Name, Equals, Name]), [CloseBrace, Semicolon, Operator, Where]);
        assert_eq!(viable(&[OpenBrace, Name, Equals, OpenParen, Name]), [CloseParen, Comma, Operator]);
        assert_eq!(viable(&[OpenBrace, CloseBrace]), []);
        assert_eq!(viable(&[Name]), []);
    }

    #[test]
    fn a_chart_answers_for_any_list_at_any_time() {
        let mut chart = Chart::new();
        let mut is_sentence = |kinds: &[Kind]| {
            standing_after(&mut chart, kinds);
            chart.is_sentence()
        };
        assert!(is_sentence(&[OpenBrace, Semicolon, CloseBrace]));
        assert!(!is_sentence(&[OpenBrace, Semicolon]));
        assert!(is_sentence(&[OpenBrace, CloseBrace]));
        assert!(!is_sentence(&[]));
    }

    /// All lists of kinds of at most `room` that the symbols derive, by replacing from the left.
    fn derived(symbols: &[Symbol], room: usize) -> Vec<Vec<Kind>> {
        let Some((first, rest)) = symbols.split_first() else {
            return vec![Vec::new()];
        };
        match first {
            Symbol::Kind(_) if room == 0 => Vec::new(),
            Symbol::Kind(kind) => {
                derived(rest, room - 1).into_iter().map(|list| [vec![*kind], list].concat()).collect()
            }
            Symbol::Nonterminal(left) => PRODUCTIONS
                .iter()
                .filter(|production| production.left == *left)
                .flat_map(|production| derived(&[production.right, rest].concat(), room))
                .collect(),
        }
    }

    #[test]
    fn every_short_sentence_and_no_other_short_list() {
        let sentences = derived(&[Symbol::Nonterminal(START)], 8);
        let mut chart = Chart::new();
        let mut lists: Vec<Vec<Kind>> = vec![Vec::new()];
        let mut count = 0;
        while let Some(list) = lists.pop() {
            standing_after(&mut chart, &list);
            if chart.is_sentence() {
                assert!(sentences.contains(&list));
                count += 1;
            }
            if list.len() < 8 {
                let viable = Kind::ALL.into_iter().filter(|&kind| chart.is_viable(kind));
                lists.extend(viable.map(|kind| [&list[..], &[kind]].concat()));
            }
        }
        assert_eq!(count, sentences.len());
    }
}
