//! Pairs of terms: the same in two shapes, or parted only late.

use super::rng::Rng;
use super::terms::{good, int, measures, minus, neg, plus, power, times, var};
use crate::poly::{Exponents, Poly};
use crate::term::Term;
use crate::termwork::poly;

pub type Pair = (Term, Term);

/// A sum of monomials, halved again and again so that it nests little.
pub fn expanded(poly: &Poly) -> Term {
    let parts: Vec<(Exponents, i128)> = poly.parts().map(|(e, c)| (*e, *c)).collect();
    sum_of(&parts)
}

fn sum_of(parts: &[(Exponents, i128)]) -> Term {
    match parts {
        [] => int(0),
        [(exponents, coefficient)] => monomial(exponents, *coefficient),
        _ => {
            let (left, right) = parts.split_at(parts.len() / 2);
            plus(sum_of(left), sum_of(right))
        }
    }
}

fn monomial(exponents: &Exponents, coefficient: i128) -> Term {
    let factors = exponents.iter().enumerate().filter(|(_, n)| **n > 0);
    let powers = factors.map(|(k, n)| if *n == 1 { var(k) } else { power(var(k), (*n).into()) });
    match powers.reduce(times) {
        None => int(coefficient),
        Some(whole) if coefficient == 1 => whole,
        Some(whole) if coefficient == -1 => neg(whole),
        Some(whole) => times(int(coefficient), whole),
    }
}

/// A term of few monomials, so that its expansion stays short.
fn short(rng: &mut Rng, vars: usize) -> Term {
    loop {
        let found = good(rng, vars);
        if poly(&found).count() <= 40 {
            return found;
        }
    }
}

/// v (v - 1) .. (v - steps + 1) is 0 at the first `steps` points.
fn falling(v: usize, steps: u64) -> Term {
    let step = |k: u64| if k == 0 { var(v) } else { minus(var(v), int(k.into())) };
    (1..steps).fold(step(0), |whole, k| times(whole, step(k)))
}

/// 0 at many points from zero up.
fn late_part(rng: &mut Rng, vars: usize) -> Term {
    let mut whole = int(rng.pick(&[1, -1, 2]));
    for v in 0..vars {
        let steps = rng.below(if vars == 1 { 12 } else { 5 });
        if steps > 0 {
            whole = times(whole, falling(v, steps));
        }
    }
    whole
}

/// A coefficient that counters of 8 or 16 bits may lose.
fn wrapping_part(rng: &mut Rng, vars: usize) -> Term {
    let sizes = [128, 255, 256, 257, 512, 32_768, 65_535, 65_536, 65_537, 131_072, 16_777_216];
    let size = rng.pick(&sizes) * rng.pick(&[1, -1]);
    let shapes = [var(rng.index(vars)), times(var(0), plus(var(rng.index(vars)), int(1))), int(1)];
    times(int(size), shapes[rng.index(3)].clone())
}

fn shuffled(rng: &mut Rng, x: Term, y: Term) -> Term {
    match rng.below(4) {
        0 => plus(x, y),
        1 => plus(y, x),
        2 => minus(x, neg(y)),
        _ => minus(y, neg(x)),
    }
}

/// Mostly inside the limits.
pub fn pair(rng: &mut Rng, vars: usize) -> Pair {
    let base = short(rng, vars);
    let flat = expanded(&poly(&base));
    let other = match rng.below(10) {
        0..=2 => flat,
        3 => shuffled(rng, int(0), base.clone()),
        4 | 5 => {
            let part = late_part(rng, vars);
            shuffled(rng, flat, part)
        }
        6 | 7 => {
            let part = wrapping_part(rng, vars);
            shuffled(rng, flat, part)
        }
        8 => times(int(rng.pick(&[1, 1, -1, 2])), flat),
        _ => short(rng, vars),
    };
    in_some_order(rng, base, other)
}

/// A pair that parts late and is inside the limits on both sides.
pub fn late(rng: &mut Rng, vars: usize) -> Pair {
    loop {
        let base = if rng.percent(50) { int(rng.between(-5, 5)) } else { short(rng, vars) };
        let part = late_part(rng, vars);
        let other = shuffled(rng, base.clone(), part);
        if measures(&other).is_some() {
            return in_some_order(rng, base, other);
        }
    }
}

fn in_some_order(rng: &mut Rng, x: Term, y: Term) -> Pair {
    if rng.percent(50) {
        (x, y)
    } else {
        (y, x)
    }
}
