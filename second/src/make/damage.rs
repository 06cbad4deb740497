//! Damage to texts: single bytes, and whole tokens of a term.

use super::rng::Rng;
use super::terms::Tokens;

/// Bytes that readers like to mistake; neither tab nor line feed, which part the fields.
const ODD: [u8; 30] = [
    0, 1, 8, 11, 12, 13, 27, 32, 40, 41, 42, 43, 45, 46, 48, 49, 57, 65, 69, 81, 88, 91, 97, 120,
    127, 128, 160, 194, 223, 255,
];

const ODD_TOKENS: [&str; 34] = [
    "(",
    ")",
    "+",
    "-",
    "*",
    "EXPT",
    "POW",
    "expt",
    "EXP",
    "EXPTT",
    "0",
    "1",
    "-1",
    "-0",
    "00",
    "01",
    "-01",
    "+1",
    "--1",
    "1-",
    "-",
    "63",
    "64",
    "Q",
    "x",
    "XY",
    "X1",
    "1X",
    "[",
    "@",
    "1073741823",
    "1073741824",
    "4294967296",
    "-99999999999999999999999999999999999999999999",
];

pub fn bytes(rng: &mut Rng, text: &[u8]) -> Vec<u8> {
    let mut text = text.to_vec();
    for _ in 0..1 + rng.index(2) {
        one_byte(rng, &mut text);
    }
    text
}

fn one_byte(rng: &mut Rng, text: &mut Vec<u8>) {
    let place = rng.index(text.len() + 1);
    if place == text.len() {
        text.push(rng.pick(&ODD));
        return;
    }
    match rng.below(7) {
        0 | 1 => text[place] = rng.pick(&ODD),
        2 => text.insert(place, rng.pick(&ODD)),
        3 => text.insert(place, text[place]),
        4 => text.truncate(place),
        5 => {
            text.remove(place);
        }
        _ => text.swap(place, 0),
    }
}

pub fn tokens(rng: &mut Rng, tokens: &[Vec<u8>]) -> Tokens {
    let mut tokens = tokens.to_vec();
    let place = rng.index(tokens.len());
    match rng.below(8) {
        0..=2 => tokens[place] = odd_token(rng),
        3 => tokens.insert(place, odd_token(rng)),
        4 => tokens.push(odd_token(rng)),
        5 => tokens.insert(place, tokens[place].clone()),
        6 => {
            tokens.remove(place);
        }
        _ => tokens.truncate(place),
    }
    tokens
}

fn odd_token(rng: &mut Rng) -> Vec<u8> {
    rng.pick(&ODD_TOKENS).as_bytes().to_vec()
}

/// One letter of the term made a capital that may be outside the row.
pub fn letter(rng: &mut Rng, tokens: &[Vec<u8>]) -> Tokens {
    let mut tokens = tokens.to_vec();
    let is_letter = |token: &[u8]| token.len() == 1 && token[0].is_ascii_uppercase();
    let places: Vec<usize> = (0..tokens.len()).filter(|k| is_letter(&tokens[*k])).collect();
    if !places.is_empty() {
        let place = rng.pick(&places);
        tokens[place] = vec![b'A' + rng.index(26) as u8];
    }
    tokens
}

/// The text made exactly this long by blanks in one place between tokens, if it is shorter.
pub fn padded(rng: &mut Rng, text: &[u8], length: usize) -> Vec<u8> {
    let missing = length.saturating_sub(text.len());
    let gaps = (1..text.len()).filter(|k| text[*k] == b' ' || text[*k] == b')');
    let mut places: Vec<usize> = gaps.collect();
    places.extend([0, text.len()]);
    let place = rng.pick(&places);
    [&text[..place], &vec![b' '; missing], &text[place..]].concat()
}
