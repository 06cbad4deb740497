//! Random terms against slower ways to the same answer.

use super::ask;
use crate::compare::{compare, Verdict};
use crate::form::Form;
use crate::formread;
use crate::make::pairs;
use crate::make::rng::Rng;
use crate::make::terms::{good, loose, minus, plain, plus, times, tokens};
use crate::operate;
use crate::row::Row;
use crate::term::Term;
use crate::termwork::{self, P};

fn row(vars: usize) -> Row {
    Row::read(&b"YXZW"[..vars]).unwrap()
}

fn text(term: &Term, row: &Row) -> Vec<u8> {
    plain(&tokens(term, row))
}

fn point(rng: &mut Rng, vars: usize) -> Vec<i128> {
    (0..vars).map(|_| rng.between(-2_147_483_648, 2_147_483_647)).collect()
}

#[test]
fn a_form_reads_back_and_has_the_terms_value() {
    let mut rng = Rng::new(1);
    for round in 0..400 {
        let row = row(1 + round % 4);
        let term = good(&mut rng, row.len());
        let form = operate::form(&row, &text(&term, &row)).unwrap();
        let read = formread::accepted(&row, &form).ok().unwrap();
        assert_eq!(Form::of(&read.poly).text(), form);
        let at = point(&mut rng, row.len());
        let value = termwork::remainder(&term, &at);
        assert_eq!(formread::remainder(&read.node, &at, P), value);
    }
}

#[test]
fn loose_blanks_change_nothing() {
    let mut rng = Rng::new(2);
    let row = row(3);
    for _ in 0..200 {
        let term = good(&mut rng, 3);
        let loosely = loose(&mut rng, &tokens(&term, &row), true);
        assert_eq!(operate::form(&row, &loosely), operate::form(&row, &text(&term, &row)));
    }
}

/// Operations on forms give the form of the term that says the same.
#[test]
fn operations_agree_with_terms() {
    let mut rng = Rng::new(3);
    for round in 0..300 {
        let row = row(1 + round % 4);
        let (x, y) = (good(&mut rng, row.len()), good(&mut rng, row.len()));
        let form = |term: &Term| operate::form(&row, &text(term, &row));
        let (fx, fy) = (form(&x).unwrap(), form(&y).unwrap());
        if let Ok(sum) = form(&plus(x.clone(), y.clone())) {
            assert_eq!(operate::add(&row, &fx, &fy), Ok(sum));
        }
        if let Ok(product) = form(&times(x.clone(), y.clone())) {
            assert_eq!(operate::multiply(&row, &fx, &fy), Ok(product));
        }
        if let Ok(difference) = form(&minus(x, y)) {
            let negative = operate::negate(&row, &fy).unwrap();
            assert_eq!(operate::add(&row, &fx, &negative), Ok(difference));
        }
    }
}

/// All points of a box in order, first variable first.
fn first_in_box(left: &Term, right: &Term, vars: usize, most: i128) -> Option<Vec<i128>> {
    let side = most + 1;
    let at = |n: i128| -> Vec<i128> {
        (0..vars).map(|k| n / side.pow((vars - 1 - k) as u32) % side).collect()
    };
    let parts = |p: &Vec<i128>| termwork::remainder(left, p) != termwork::remainder(right, p);
    (0..side.pow(vars as u32)).map(at).find(parts)
}

/// The degrees are small here, so a box up to the degree holds the first point.
#[test]
fn the_point_is_the_first_of_all() {
    let mut rng = Rng::new(4);
    let mut parted = 0;
    for round in 0..600 {
        let row = row(1 + round % 3);
        let make = if round % 2 == 0 { pairs::pair } else { pairs::late };
        let (left, right) = make(&mut rng, row.len());
        let Ok(verdict) = compare(&row, &text(&left, &row), &text(&right, &row)) else {
            continue;
        };
        let difference = termwork::poly(&left).difference(&termwork::poly(&right));
        let most = (0..3).map(|k| difference.degree(k)).max().unwrap_or(0);
        if most > 12 {
            continue;
        }
        let first = first_in_box(&left, &right, row.len(), most.into());
        match verdict {
            Verdict::Same => assert_eq!(first, None),
            Verdict::Different { point, .. } => {
                parted += 1;
                assert_eq!(first, Some(point));
            }
        }
    }
    assert!(parted > 100, "{parted}");
}

#[test]
fn laws_of_the_forms() {
    let form = "(POW 1 (POW 2 3 (POP 1 (POW 1 -5 2))) (POW 1 4 0))";
    let negative = ask(&format!("negate|XYZ|{form}"));
    let negative = negative.strip_prefix("FORM ").unwrap();
    assert_eq!(ask(&format!("add|XYZ|{form}|{negative}")), "FORM 0");
    assert_eq!(ask(&format!("multiply|XYZ|{form}|1")), format!("FORM {form}"));
    let square = ask(&format!("multiply|XYZ|{form}|{form}"));
    assert_eq!(ask(&format!("raise|XYZ|{form}|2")), square);
    assert_eq!(ask(&format!("multiply|XYZ|{negative}|{negative}")), square);
}
