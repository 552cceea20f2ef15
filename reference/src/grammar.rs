//! The sheet grammar: its productions as docs/parsers.md numbers them, and nothing computed from them.

use crate::vocabulary::Kind;

#[derive(Clone, Copy, Debug, PartialEq, Eq)]
pub enum Nonterminal {
    Block,
    Items,
    More,
    Item,
    Body,
    Where,
    Expr,
    Tail,
    Term,
    Comma,
}

#[derive(Clone, Copy, Debug, PartialEq, Eq)]
pub enum Symbol {
    Kind(Kind),
    Nonterminal(Nonterminal),
}

pub struct Production {
    pub left: Nonterminal,
    pub right: &'static [Symbol],
}

pub const START: Nonterminal = Nonterminal::Block;

const fn production(left: Nonterminal, right: &'static [Symbol]) -> Production {
    Production { left, right }
}

const fn kind(kind: Kind) -> Symbol {
    Symbol::Kind(kind)
}

const BLOCK: Symbol = Symbol::Nonterminal(Nonterminal::Block);
const ITEMS: Symbol = Symbol::Nonterminal(Nonterminal::Items);
const MORE: Symbol = Symbol::Nonterminal(Nonterminal::More);
const ITEM: Symbol = Symbol::Nonterminal(Nonterminal::Item);
const BODY: Symbol = Symbol::Nonterminal(Nonterminal::Body);
const WHERE: Symbol = Symbol::Nonterminal(Nonterminal::Where);
const EXPR: Symbol = Symbol::Nonterminal(Nonterminal::Expr);
const TAIL: Symbol = Symbol::Nonterminal(Nonterminal::Tail);
const TERM: Symbol = Symbol::Nonterminal(Nonterminal::Term);
const COMMA: Symbol = Symbol::Nonterminal(Nonterminal::Comma);

pub static PRODUCTIONS: [Production; 20] = [
    production(Nonterminal::Block, &[kind(Kind::OpenBrace), ITEMS, kind(Kind::CloseBrace)]),
    production(Nonterminal::Items, &[ITEM, MORE]),
    production(Nonterminal::More, &[kind(Kind::Semicolon), ITEMS]),
    production(Nonterminal::More, &[]),
    production(Nonterminal::Item, &[kind(Kind::Name), BODY]),
    production(Nonterminal::Item, &[]),
    production(Nonterminal::Body, &[kind(Kind::Of), BLOCK]),
    production(Nonterminal::Body, &[kind(Kind::Equals), EXPR, WHERE]),
    production(Nonterminal::Where, &[kind(Kind::Where), BLOCK]),
    production(Nonterminal::Where, &[]),
    production(Nonterminal::Expr, &[kind(Kind::Let), BLOCK, kind(Kind::In), EXPR]),
    production(Nonterminal::Expr, &[TERM, TAIL]),
    production(Nonterminal::Tail, &[kind(Kind::Operator), EXPR]),
    production(Nonterminal::Tail, &[]),
    production(Nonterminal::Term, &[kind(Kind::Name)]),
    production(Nonterminal::Term, &[kind(Kind::Number)]),
    production(Nonterminal::Term, &[kind(Kind::Do), BLOCK]),
    production(Nonterminal::Term, &[kind(Kind::OpenParen), EXPR, COMMA, kind(Kind::CloseParen)]),
    production(Nonterminal::Comma, &[kind(Kind::Comma), EXPR, COMMA]),
    production(Nonterminal::Comma, &[]),
];
