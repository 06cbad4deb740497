//! Comparing two terms: over the whole numbers, and as wrapping counters.

use crate::form::Form;
use crate::poly::Poly;
use crate::refusal::{Refusal, Side};
use crate::row::Row;
use crate::termwork::{accepted, poly, remainder, P};

#[derive(Debug, PartialEq, Eq)]
pub enum Verdict {
    Same,
    Different { point: Vec<i128>, left: i128, right: i128 },
}

impl Verdict {
    pub fn text(&self) -> String {
        match self {
            Verdict::Same => "SAME".to_string(),
            Verdict::Different { point, left, right } => {
                let point: String = point.iter().map(|a| format!(" {a}")).collect();
                format!("DIFF{point} {left} {right}")
            }
        }
    }
}

pub fn compare(row: &Row, left: &[u8], right: &[u8]) -> Result<Verdict, Refusal> {
    let left = accepted(row, left).map_err(|fault| fault.on(Side::Left))?;
    let right = accepted(row, right).map_err(|fault| fault.on(Side::Right))?;
    let (x, y) = (poly(&left), poly(&right));
    if Form::of(&x).text() == Form::of(&y).text() {
        return Ok(Verdict::Same);
    }
    let point = first_point(&x.difference(&y), row.len());
    let (l, r) = (remainder(&left, &point), remainder(&right, &point));
    Ok(Verdict::Different { point, left: l, right: r })
}

/// The first point from zero up, first variable first, where the remainder is not 0.
/// A coefficient is below P in size, and a degree below P, so each search ends by the degree.
pub fn first_point(difference: &Poly, variables: usize) -> Vec<i128> {
    let mut rest = difference.reduced(P);
    let mut point = Vec::new();
    for variable in 0..variables {
        let stays = |value: &i128| !rest.put_for(variable, *value, P).is_zero();
        let value = (0..=64).find(stays).expect("a polynomial that is not 0 has few roots");
        rest = rest.put_for(variable, value, P);
        point.push(value);
    }
    point
}

/// Whether the two terms agree as counters of 16 or 8 bits; 0 stands for 16.
pub fn counters(row: &Row, width: u32, left: &[u8], right: &[u8]) -> Result<bool, Refusal> {
    let bits = match width {
        0 | 16 => 16,
        8 => 8,
        _ => return Err(Refusal::neither(14)),
    };
    let left = accepted(row, left).map_err(|fault| fault.on(Side::Left))?;
    let right = accepted(row, right).map_err(|fault| fault.on(Side::Right))?;
    let difference = poly(&left).difference(&poly(&right));
    Ok(difference.reduced(1 << bits).is_zero())
}
