//! The calls with one answer text or number: forms of terms, operations on forms, remainders.

use crate::form::Form;
use crate::formread;
use crate::measure::{Measures, MOST_DEGREE};
use crate::poly::Poly;
use crate::refusal::{Refusal, Side};
use crate::row::Row;
use crate::termwork::{self, P};

/// The result buffer lent at the desk.
pub const BUFFER: usize = 65_535;

type Text = Result<Vec<u8>, Refusal>;

fn left(row: &Row, text: &[u8]) -> Result<formread::Accepted, Refusal> {
    formread::accepted(row, text).map_err(|fault| fault.on(Side::Left))
}

fn right(row: &Row, text: &[u8]) -> Result<formread::Accepted, Refusal> {
    formread::accepted(row, text).map_err(|fault| fault.on(Side::Right))
}

/// A result over the buffer is refusal 11.
fn fitting(poly: &Poly) -> Text {
    let text = Form::of(poly).text();
    if text.len() > BUFFER {
        return Err(Refusal::neither(11));
    }
    Ok(text)
}

/// The measures of a result come from the table, not from the result itself.
fn limited(measures: &Measures) -> Result<(), Refusal> {
    measures.fault().map_or(Ok(()), |number| Err(Refusal::neither(number)))
}

pub fn form(row: &Row, term: &[u8]) -> Text {
    let term = termwork::accepted(row, term).map_err(|fault| fault.on(Side::Left))?;
    fitting(&termwork::poly(&term))
}

pub fn judge(row: &Row, form: &[u8]) -> Result<(), Refusal> {
    left(row, form).map(|_| ())
}

pub fn add(row: &Row, x: &[u8], y: &[u8]) -> Text {
    let (x, y) = (left(row, x)?, right(row, y)?);
    limited(&x.measures.sum(&y.measures))?;
    fitting(&x.poly.sum(&y.poly))
}

pub fn multiply(row: &Row, x: &[u8], y: &[u8]) -> Text {
    let (x, y) = (left(row, x)?, right(row, y)?);
    limited(&x.measures.product(&y.measures))?;
    fitting(&x.poly.product(&y.poly))
}

pub fn negate(row: &Row, x: &[u8]) -> Text {
    let x = left(row, x)?;
    fitting(&x.poly.negative())
}

pub fn raise(row: &Row, x: &[u8], n: u32) -> Text {
    let x = left(row, x)?;
    let n = u128::from(n);
    if n > MOST_DEGREE {
        return Err(Refusal::neither(8));
    }
    limited(&x.measures.power(n))?;
    fitting(&x.poly.power(n))
}

fn same_length(row: &Row, point: &[i128]) -> Result<(), Refusal> {
    (point.len() == row.len()).then_some(()).ok_or(Refusal::neither(12))
}

pub fn term_remainder(row: &Row, term: &[u8], point: &[i128]) -> Result<i128, Refusal> {
    same_length(row, point)?;
    let term = termwork::accepted(row, term).map_err(|fault| fault.on(Side::Left))?;
    Ok(termwork::remainder(&term, point))
}

pub fn form_remainder(row: &Row, form: &[u8], point: &[i128]) -> Result<i128, Refusal> {
    same_length(row, point)?;
    let form = left(row, form)?;
    Ok(formread::remainder(&form.node, point, P))
}
