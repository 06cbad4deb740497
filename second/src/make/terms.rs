//! Random terms, and writing them with plain or loose blanks.

use super::rng::Rng;
use crate::measure::Measures;
use crate::row::Row;
use crate::term::{Kind, Sign, Term};
use crate::termwork;

pub type Tokens = Vec<Vec<u8>>;

fn term(kind: Kind) -> Term {
    Term { place: 0, kind }
}

pub fn int(value: i128) -> Term {
    term(Kind::Integer(value))
}

pub fn var(position: usize) -> Term {
    term(Kind::Letter(position))
}

pub fn neg(x: Term) -> Term {
    term(Kind::Negative(Box::new(x)))
}

pub fn plus(x: Term, y: Term) -> Term {
    term(Kind::Pair(Sign::Plus, Box::new(x), Box::new(y)))
}

pub fn minus(x: Term, y: Term) -> Term {
    term(Kind::Pair(Sign::Minus, Box::new(x), Box::new(y)))
}

pub fn times(x: Term, y: Term) -> Term {
    term(Kind::Pair(Sign::Times, Box::new(x), Box::new(y)))
}

pub fn power(x: Term, n: u128) -> Term {
    term(Kind::Power(Box::new(x), n))
}

pub fn random(rng: &mut Rng, vars: usize, depth: usize) -> Term {
    if depth == 0 || rng.percent(15) {
        return leaf(rng, vars);
    }
    match rng.below(12) {
        0 => neg(random(rng, vars, depth - 1)),
        1..=4 => plus(random(rng, vars, depth - 1), random(rng, vars, depth - 1)),
        5..=6 => minus(random(rng, vars, depth - 1), random(rng, vars, depth - 1)),
        7..=9 => times(random(rng, vars, depth - 1), random(rng, vars, depth - 1)),
        _ => {
            let n = exponent(rng);
            power(random(rng, vars, depth - 1), n)
        }
    }
}

fn leaf(rng: &mut Rng, vars: usize) -> Term {
    if rng.percent(65) {
        return var(rng.index(vars));
    }
    match rng.below(8) {
        0 => int(rng.between(-1_000_000, 1_000_000)),
        1 => int(rng.pick(&[0, 1, -1])),
        _ => int(rng.between(-9, 9)),
    }
}

fn exponent(rng: &mut Rng) -> u128 {
    match rng.below(10) {
        0 => 0,
        1 => rng.below(13).into(),
        _ => (1 + rng.below(4)).into(),
    }
}

/// A random term inside all limits.
pub fn good(rng: &mut Rng, vars: usize) -> Term {
    loop {
        let depth = 1 + rng.index(5);
        let found = random(rng, vars, depth);
        if measures(&found).is_some() {
            return found;
        }
    }
}

pub fn measures(term: &Term) -> Option<Measures> {
    termwork::measures(term).ok()
}

pub fn tokens(term: &Term, row: &Row) -> Tokens {
    let mut out = Vec::new();
    put(term, row, &mut out);
    out
}

fn put(term: &Term, row: &Row, out: &mut Tokens) {
    match &term.kind {
        Kind::Integer(value) => out.push(value.to_string().into_bytes()),
        Kind::Letter(position) => out.push(vec![row.letters()[*position]]),
        Kind::Negative(x) => list(b"-", &[x], None, row, out),
        Kind::Pair(Sign::Plus, x, y) => list(b"+", &[x, y], None, row, out),
        Kind::Pair(Sign::Minus, x, y) => list(b"-", &[x, y], None, row, out),
        Kind::Pair(Sign::Times, x, y) => list(b"*", &[x, y], None, row, out),
        Kind::Power(x, n) => list(b"EXPT", &[x], Some(*n), row, out),
    }
}

fn list(head: &[u8], members: &[&Term], last: Option<u128>, row: &Row, out: &mut Tokens) {
    out.push(b"(".to_vec());
    out.push(head.to_vec());
    members.iter().for_each(|member| put(member, row, out));
    out.extend(last.map(|n| n.to_string().into_bytes()));
    out.push(b")".to_vec());
}

/// One space between members, none beside parentheses.
pub fn plain(tokens: &[Vec<u8>]) -> Vec<u8> {
    let mut out: Vec<u8> = Vec::new();
    for token in tokens {
        let after_open = matches!(out.last(), None | Some(b'('));
        if !after_open && token != b")" {
            out.push(b' ');
        }
        out.extend(token);
    }
    out
}

/// Blanks as they come; line feeds only where the text goes into a book.
pub fn loose(rng: &mut Rng, tokens: &[Vec<u8>], feeds: bool) -> Vec<u8> {
    let mut out: Vec<u8> = Vec::new();
    let mut after_run = false;
    for token in tokens {
        let is_run = token != b"(" && token != b")";
        let needed = usize::from(is_run && after_run);
        blanks(rng, needed, feeds, &mut out);
        out.extend(token);
        after_run = is_run;
    }
    blanks(rng, 0, feeds, &mut out);
    out
}

fn blanks(rng: &mut Rng, needed: usize, feeds: bool, out: &mut Vec<u8>) {
    let more = if rng.percent(20) { 1 + rng.index(2) } else { 0 };
    for _ in 0..needed + more {
        out.push(if feeds && rng.percent(40) { b'\n' } else { b' ' });
    }
}

/// Mostly plain, now and then loose.
pub fn written(rng: &mut Rng, tokens: &[Vec<u8>], feeds: bool) -> Vec<u8> {
    if rng.percent(70) {
        plain(tokens)
    } else {
        loose(rng, tokens, feeds)
    }
}
