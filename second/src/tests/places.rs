//! Places of refusal 4, checked by what the words of document 01 say of beginnings.

use crate::form::Form;
use crate::formread;
use crate::make::rng::Rng;
use crate::make::{forms, texts};
use crate::refusal::Fault;
use crate::row::Row;
use crate::term;

/// Every capital letter counts as a letter where a beginning is judged.
fn all_capitals(text: &[u8]) -> Vec<u8> {
    let tokens = term::tokens(text);
    let mut text = text.to_vec();
    for (place, length) in tokens.iter().map(|t| (t.place, t.bytes.len())).collect::<Vec<_>>() {
        if length == 1 && text[place].is_ascii_uppercase() {
            text[place] = b'X';
        }
    }
    text
}

/// Adds tokens until the text is a term; a beginning of a term gets there in few steps.
fn completed(row: &Row, text: &[u8], steps: usize) -> bool {
    let Err(fault) = term::read(row, text) else { return true };
    let ends_early = fault == Fault::new(4, text.len());
    if !ends_early || steps == 0 {
        return false;
    }
    let next = [" )", " 1", " +"].map(|token| [text, token.as_bytes()].concat());
    // A token that is refused itself leads nowhere, so each step has one way or two.
    next.iter().any(|longer| completed(row, longer, steps - 1))
}

#[test]
fn what_stands_before_place_4_begins_a_term() {
    let mut rng = Rng::new(11);
    let row = Row::read(b"X").unwrap();
    let mut found = 0;
    for _ in 0..3_000 {
        let text = all_capitals(&texts::term_text(&mut rng, &row, 0, true));
        if text.len() > 600 {
            continue;
        }
        let Err(Fault { number: 4, place }) = term::read(&row, &text) else { continue };
        found += 1;
        assert!(completed(&row, &text[..place], 60), "{}", String::from_utf8_lossy(&text));
        if place < text.len() {
            let end = term::tokens(&text).iter().find(|t| t.place == place).unwrap().bytes.len();
            assert!(!completed(&row, &text[..place + end], 3));
        }
    }
    assert!(found > 400, "{found}");
}

/// Cut at the place, a form text is either whole or ends early there.
#[test]
fn what_stands_before_place_4_begins_a_form() {
    let mut rng = Rng::new(12);
    let row = Row::read(b"XYZW").unwrap();
    let mut found = 0;
    for _ in 0..3_000 {
        let text = forms::text(&mut rng, 4, 0);
        let Err(Fault { number: 4, place }) = formread::accepted(&row, &text).map(|_| ()) else {
            continue;
        };
        found += 1;
        match formread::accepted(&row, &text[..place]) {
            Err(Fault { number: 4, place: end }) => assert_eq!(end, place),
            // Whole in its bytes, whatever else is wrong with it.
            Err(fault) => assert!(fault.number >= 7),
            Ok(_) => {}
        }
    }
    assert!(found > 400, "{found}");
}

/// There is one normal form for each polynomial: what is accepted is what would be written.
#[test]
fn accepted_forms_are_the_ones_written() {
    let mut rng = Rng::new(13);
    let row = Row::read(b"XYZW").unwrap();
    let mut found = 0;
    for round in 0..2_000 {
        let text = forms::text(&mut rng, 1 + round % 4, 10);
        if let Ok(form) = formread::accepted(&row, &text) {
            found += 1;
            assert_eq!(Form::of(&form.poly).text(), text);
        }
    }
    assert!(found > 300, "{found}");
}
