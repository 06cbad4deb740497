//! Request lines for the desk.

use super::rng::Rng;
use super::texts::{term_pair, term_text};
use super::{damage, forms};
use crate::form::Form;
use crate::poly::Poly;
use crate::row::{Row, MOST_LETTERS};
use std::io::{self, Write};

const WORDS: [&str; 10] = [
    "form",
    "judge",
    "add",
    "multiply",
    "negate",
    "raise",
    "remainder",
    "formremainder",
    "compare",
    "counters",
];

pub fn write(seed: u64, count: u64, output: impl Write) -> io::Result<()> {
    let mut output = io::BufWriter::new(output);
    let mut rng = Rng::new(seed);
    for _ in 0..count {
        output.write_all(&line(&mut rng))?;
        output.write_all(b"\n")?;
    }
    output.flush()
}

/// Distinct letters in any order.
pub fn row(rng: &mut Rng) -> Row {
    loop {
        let length = 1 + rng.index(MOST_LETTERS);
        let from = if rng.percent(60) { b"WXYZ".to_vec() } else { (b'A'..=b'Z').collect() };
        let letters: Vec<u8> = (0..length).map(|_| rng.pick(&from)).collect();
        if let Some(row) = Row::read(&letters) {
            return row;
        }
    }
}

pub fn line(rng: &mut Rng) -> Vec<u8> {
    let row = row(rng);
    let word = rng.pick(&WORDS);
    let mut fields = vec![word.as_bytes().to_vec(), row.letters().to_vec()];
    fields.extend(rest(rng, word, &row));
    if rng.percent(3) {
        fields[1] = bad_row(rng, row.letters());
    }
    if rng.percent(5) {
        bad_request(rng, &mut fields);
    }
    fields.join(&b'\t')
}

fn rest(rng: &mut Rng, word: &str, row: &Row) -> Vec<Vec<u8>> {
    let vars = row.len();
    match word {
        "form" => vec![term_text(rng, row, 40, false)],
        "judge" => vec![forms::text(rng, vars, 15)],
        "negate" => vec![forms::text(rng, vars, 50)],
        "add" | "multiply" => operands(rng, vars),
        "raise" => vec![forms::text(rng, vars, 65), exponent(rng)],
        "remainder" => {
            let term = term_text(rng, row, 65, false);
            with_point(rng, vars, term)
        }
        "formremainder" => {
            let form = forms::text(rng, vars, 65);
            with_point(rng, vars, form)
        }
        "compare" => term_pair(rng, row, false),
        _ => {
            let mut all = vec![width(rng)];
            all.extend(term_pair(rng, row, false));
            all
        }
    }
}

/// Two forms, now and then ones whose result stands at a limit.
fn operands(rng: &mut Rng, vars: usize) -> Vec<Vec<u8>> {
    match rng.below(10) {
        0 => vec![wide(rng, vars), wide(rng, vars)],
        1 => vec![constant(rng), constant(rng)],
        2 => vec![single(rng, vars), single(rng, vars)],
        3 | 4 => vec![forms::good(rng, vars), forms::text(rng, vars, 0)],
        _ => vec![forms::text(rng, vars, 75), forms::text(rng, vars, 75)],
    }
}

fn text_of(poly: &Poly) -> Vec<u8> {
    Form::of(poly).text()
}

/// Counts whose sums and products lie about 256.
fn wide(rng: &mut Rng, vars: usize) -> Vec<u8> {
    let count = rng.pick(&[15, 16, 16, 17, 127, 128, 129]);
    let most = rng.pick(&[3, 7, 15, 31]);
    text_of(&forms::of_count(rng, vars, count, most))
}

/// Weights whose sums and products lie about the limit.
fn constant(rng: &mut Rng) -> Vec<u8> {
    let sizes = [0, 1, 2, 32_767, 32_768, 32_769, 536_870_911, 536_870_912, 1_073_741_822];
    (rng.pick(&sizes) * rng.pick(&[1i64, -1])).to_string().into_bytes()
}

/// Degrees whose sums lie about 63.
fn single(rng: &mut Rng, vars: usize) -> Vec<u8> {
    let mut place = [0; 4];
    place[rng.index(vars)] = rng.pick(&[0, 1, 30, 31, 32, 33, 62, 63]);
    text_of(&Poly::monomial(place, 1))
}

fn exponent(rng: &mut Rng) -> Vec<u8> {
    let far = [63, 64, 65, 255, 256, 65_536, 4_294_967_295];
    let n = if rng.percent(80) { rng.below(8) } else { rng.pick(&far) };
    n.to_string().into_bytes()
}

fn width(rng: &mut Rng) -> Vec<u8> {
    let others = ["1", "7", "9", "15", "17", "32", "24", "256", "264", "65536", "4294967295"];
    let known = ["0", "8", "16"];
    let one = if rng.percent(85) { rng.pick(&known) } else { rng.pick(&others) };
    one.as_bytes().to_vec()
}

fn with_point(rng: &mut Rng, vars: usize, text: Vec<u8>) -> Vec<Vec<u8>> {
    let length = if rng.percent(90) { vars } else { rng.index(6) };
    let mut all = vec![text];
    all.extend((0..length).map(|_| coordinate(rng).to_string().into_bytes()));
    all
}

fn coordinate(rng: &mut Rng) -> i128 {
    let ends = [-2_147_483_648, -2_147_483_647, 2_147_483_647, 2_147_483_646, 0, 1, -1];
    match rng.below(3) {
        0 => rng.pick(&ends),
        1 => rng.between(-20, 20),
        _ => rng.between(-2_147_483_648, 2_147_483_647),
    }
}

fn bad_row(rng: &mut Rng, letters: &[u8]) -> Vec<u8> {
    match rng.below(6) {
        0 => Vec::new(),
        1 => letters.to_ascii_lowercase(),
        2 => [letters, &letters[..1]].concat(),
        3 => b"VWXYZ".to_vec(),
        4 => [letters, b" "].concat(),
        _ => damage::bytes(rng, letters),
    }
}

/// A wrong word, a field too few or too many, a number that is none or does not fit.
fn bad_request(rng: &mut Rng, fields: &mut Vec<Vec<u8>>) {
    let numbers = [
        "",
        "-",
        "-0",
        "00",
        "01",
        "+1",
        "1 ",
        " 1",
        "x",
        "4294967296",
        "2147483648",
        "-2147483649",
        "99999999999999999999999999",
        "0x1",
        "1.0",
    ];
    match rng.below(6) {
        0 => fields[0] = rng.pick(&["", "Form", "forms", "add ", "book", "?"]).into(),
        1 => fields.truncate(1 + rng.index(fields.len())),
        2 => fields.push(rng.pick(&["", "0", "X"]).into()),
        3 => {
            fields.pop();
        }
        _ => {
            // The number of a call stands last, but for the width, which stands third.
            let at = if fields[0] == b"counters" { 2 } else { fields.len() - 1 };
            fields[at] = rng.pick(&numbers).into();
        }
    }
}
