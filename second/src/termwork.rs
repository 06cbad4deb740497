//! What is worked out from a term: measures, polynomial, remainder at a point.

use crate::measure::{Measures, MOST_DEGREE};
use crate::poly::{power_by, Poly};
use crate::refusal::Fault;
use crate::row::Row;
use crate::term::{self, Kind, Sign, Term};

pub const P: i128 = 2_147_483_647;

/// A term inside all limits, or the refusal of its text.
pub fn accepted(row: &Row, text: &[u8]) -> Result<Term, Fault> {
    let term = term::read(row, text)?;
    measures(&term)?;
    Ok(term)
}

/// Subterms in order of finishing; the first one over a limit decides.
pub fn measures(term: &Term) -> Result<Measures, Fault> {
    let found = match &term.kind {
        Kind::Integer(value) => Measures::integer(*value),
        Kind::Letter(position) => Measures::letter(*position),
        Kind::Negative(x) => measures(x)?,
        Kind::Pair(Sign::Times, x, y) => measures(x)?.product(&measures(y)?),
        Kind::Pair(_, x, y) => measures(x)?.sum(&measures(y)?),
        Kind::Power(x, n) => {
            let base = measures(x)?;
            if *n > MOST_DEGREE {
                return Err(Fault::new(8, term.place));
            }
            base.power(*n)
        }
    };
    match found.fault() {
        Some(number) => Err(Fault::new(number, term.place)),
        None => Ok(found),
    }
}

pub fn poly(term: &Term) -> Poly {
    match &term.kind {
        Kind::Integer(value) => Poly::integer(*value),
        Kind::Letter(position) => Poly::letter(*position),
        Kind::Negative(x) => poly(x).negative(),
        Kind::Pair(Sign::Plus, x, y) => poly(x).sum(&poly(y)),
        Kind::Pair(Sign::Minus, x, y) => poly(x).difference(&poly(y)),
        Kind::Pair(Sign::Times, x, y) => poly(x).product(&poly(y)),
        // The power 0 forgets the measures of x, so x is not worked out.
        Kind::Power(_, 0) => Poly::integer(1),
        Kind::Power(x, n) => poly(x).power(*n),
    }
}

/// Definition 3 by remainders, straight from the term, without its polynomial.
pub fn remainder(term: &Term, point: &[i128]) -> i128 {
    let value = match &term.kind {
        Kind::Integer(value) => *value,
        Kind::Letter(position) => point[*position],
        Kind::Negative(x) => -remainder(x, point),
        Kind::Pair(Sign::Plus, x, y) => remainder(x, point) + remainder(y, point),
        Kind::Pair(Sign::Minus, x, y) => remainder(x, point) - remainder(y, point),
        Kind::Pair(Sign::Times, x, y) => remainder(x, point) * remainder(y, point),
        Kind::Power(x, n) => power_by(remainder(x, point), *n, P),
    };
    value.rem_euclid(P)
}
