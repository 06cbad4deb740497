//! Term texts of every sort, alone and in pairs.

use super::rng::Rng;
use super::terms::{self, tokens, written};
use super::{damage, edges, pairs, shadow};
use crate::row::Row;
use crate::term::Term;

/// A term text of any sort; `plain_part` of a hundred are small and right.
pub fn term_text(rng: &mut Rng, row: &Row, plain_part: u64, feeds: bool) -> Vec<u8> {
    let vars = row.len();
    if rng.percent(plain_part) {
        let good = terms::good(rng, vars);
        return shown(rng, row, &good, feeds);
    }
    let wild = rng.below(20);
    let term = match wild {
        0..=7 => edges::edge(rng, vars),
        8 | 9 => terms::random(rng, vars, 6),
        _ => terms::random(rng, vars, 3),
    };
    let parts = tokens(&term, row);
    match wild {
        0..=9 => written(rng, &parts, feeds),
        10 | 11 => {
            let changed = damage::letter(rng, &parts);
            written(rng, &changed, feeds)
        }
        12..=15 => {
            let changed = damage::tokens(rng, &parts);
            written(rng, &changed, feeds)
        }
        16 | 17 => {
            let whole = written(rng, &parts, feeds);
            damage::bytes(rng, &whole)
        }
        _ => long_text(rng, &parts),
    }
}

/// As long as the limit or longer, or too deep and cut off.
fn long_text(rng: &mut Rng, parts: &[Vec<u8>]) -> Vec<u8> {
    let text = terms::plain(parts);
    let length = rng.pick(&[4_096, 4_097, 4_097, 4_098]);
    match rng.below(6) {
        0 | 1 => damage::padded(rng, &text, length),
        2 => vec![b'7'; length],
        3 => [b"(EXPT 1 ".to_vec(), vec![b'1'; 300], b")".to_vec()].concat(),
        _ => [b"(- ".repeat(rng.pick(&[15, 16, 17, 18])), text].concat(),
    }
}

fn shown(rng: &mut Rng, row: &Row, term: &Term, feeds: bool) -> Vec<u8> {
    written(rng, &tokens(term, row), feeds)
}

/// Left and right text of a comparison.
pub fn term_pair(rng: &mut Rng, row: &Row, feeds: bool) -> Vec<Vec<u8>> {
    let (left, right) = match rng.below(40) {
        0..=7 => return vec![term_text(rng, row, 50, feeds), term_text(rng, row, 50, feeds)],
        8..=12 => return vec![term_text(rng, row, 100, feeds), term_text(rng, row, 0, feeds)],
        13 => shadow::pair(rng, row.len()),
        14 => large_pair(rng, row.len()),
        15..=22 => pairs::late(rng, row.len()),
        _ => pairs::pair(rng, row.len()),
    };
    vec![shown(rng, row, &left, feeds), shown(rng, row, &right, feeds)]
}

/// With four variables a difference of 512 coefficients.
fn large_pair(rng: &mut Rng, vars: usize) -> pairs::Pair {
    if vars < 4 {
        return (edges::edge(rng, vars), edges::edge(rng, vars));
    }
    let order = [0, 1, 2, 3];
    (edges::widest(order, 0), edges::widest(order, rng.pick(&[0, 1, 4])))
}

/// Small right terms, plainly written.
pub fn short_bodies(rng: &mut Rng, row: &Row, count: usize) -> Vec<Vec<u8>> {
    let body = |_| terms::plain(&tokens(&terms::random(rng, row.len(), 3), row));
    (0..count).map(body).collect()
}
