//! The generator: the same bytes for the same seed, and every answer often.

use crate::compare::{compare, Verdict};
use crate::desk;
use crate::make::rng::Rng;
use crate::make::terms::{plain, tokens};
use crate::make::{lines, shadow};
use crate::row::Row;
use crate::term::Term;
use crate::termwork::poly;
use std::collections::BTreeMap;

fn made(seed: u64, count: u64) -> Vec<u8> {
    let mut out = Vec::new();
    lines::write(seed, count, &mut out).unwrap();
    out
}

#[test]
fn the_same_seed_gives_the_same_bytes() {
    assert_eq!(made(7, 200), made(7, 200));
    assert_ne!(made(7, 200), made(8, 200));
    // A short sum of the bytes, so that a change of the generator is seen.
    let sum = made(1, 1_000).iter().fold(0u32, |s, b| s.wrapping_mul(31).wrapping_add((*b).into()));
    assert_eq!(sum, SUM_OF_SEED_1);
}

const SUM_OF_SEED_1: u32 = 949_910_206;

#[test]
fn every_word_and_every_refusal_is_frequent() {
    let mut counts: BTreeMap<String, u32> = BTreeMap::new();
    let text = made(1, 4_000);
    for line in text.strip_suffix(b"\n").unwrap().split(|b| *b == b'\n') {
        let word = line.split(|b| *b == b'\t').next().unwrap();
        let answer = String::from_utf8(desk::answer(line)).unwrap();
        let parts: Vec<&str> = answer.split(' ').take(2).collect();
        *counts.entry(String::from_utf8_lossy(word).to_string()).or_default() += 1;
        let first = if parts[0] == "REFUSED" { parts.join(" ") } else { parts[0].to_string() };
        *counts.entry(first).or_default() += 1;
    }
    let words = "form judge add multiply negate raise remainder formremainder compare counters";
    for word in words.split(' ') {
        assert!(counts[word] > 200, "{word}");
    }
    for answer in ["FORM", "YES", "REMAINDER", "SAME", "DIFF", "?"] {
        assert!(counts[answer] > 80, "{answer}");
    }
    for number in [1, 3, 4, 5, 6, 7, 8, 9, 10, 12, 14] {
        assert!(counts[&format!("REFUSED {number}")] > 15, "{number}");
    }
}

fn whole_value_at_2(term: &Term) -> i128 {
    poly(term).parts().map(|(exponents, coefficient)| coefficient << exponents[0]).sum()
}

/// Remainders agree at the first points although the values do not.
#[test]
fn shadows_part_where_they_should() {
    let mut rng = Rng::new(1);
    let row = Row::read(b"X").unwrap();
    let mut seen = BTreeMap::new();
    for _ in 0..60 {
        let (left, right) = shadow::pair(&mut rng, 1);
        let texts = [plain(&tokens(&left, &row)), plain(&tokens(&right, &row))];
        let Ok(Verdict::Different { point, .. }) = compare(&row, &texts[0], &texts[1]) else {
            panic!("a shadow is inside the limits and parts somewhere");
        };
        assert_ne!(whole_value_at_2(&left), whole_value_at_2(&right));
        *seen.entry(point[0]).or_insert(0) += 1;
    }
    assert_eq!(seen.keys().copied().collect::<Vec<_>>(), [3, 18, 28, 55]);
}
