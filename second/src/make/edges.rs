//! Terms on either side of every limit.

use super::rng::Rng;
use super::terms::{int, minus, neg, plus, power, times, var};
use crate::measure::MOST_WEIGHT;
use crate::term::Term;

/// A term at a limit, or one step over it.
pub fn edge(rng: &mut Rng, vars: usize) -> Term {
    if rng.percent(5) {
        return largest(rng, vars);
    }
    let over = rng.percent(50);
    let found = match rng.below(10) {
        0..=2 => weight(rng, vars, over),
        3..=5 => degree(rng, vars, over),
        6..=8 => terms(rng, vars, over),
        _ => return nest(rng, vars, if over { 17 } else { 16 }),
    };
    wrapped(rng, vars, found)
}

/// What stands inside is measured even where the value does not need it.
fn wrapped(rng: &mut Rng, vars: usize, x: Term) -> Term {
    match rng.below(14) {
        0 => neg(x),
        1 => power(x, 0),
        2 => times(int(0), x),
        3 => minus(x.clone(), x),
        4 => plus(var(rng.index(vars)), x),
        5 => times(int(1), x),
        6 => power(x, 1),
        7 => minus(x, edge(rng, vars)),
        _ => x,
    }
}

fn weight(rng: &mut Rng, vars: usize, over: bool) -> Term {
    let (most, one) = (MOST_WEIGHT as i128, i128::from(over));
    let v = var(rng.index(vars));
    match rng.below(6) {
        0 => int(rng.pick(&[most + one, -most - one])),
        1 => plus(int(most - 1 + one), v),
        2 => {
            let fit = [(32_767, 32_769), (3, 357_913_941), (1_023, 1_049_601)];
            let pass = [(32_768, 32_768), (2, 536_870_912), (1_024, 1_048_576)];
            let (a, b) = rng.pick(if over { &pass } else { &fit });
            times(plus(int(a - 1), v), int(b))
        }
        3 => {
            let fit = [(2, 29), (3, 18), (32_767, 2), (1_023, 3), (4, 14), (8, 9), (7, 10)];
            let pass = [(2, 30), (3, 19), (32_768, 2), (1_024, 3), (4, 15), (8, 10), (7, 11)];
            let (base, n) = rng.pick(if over { &pass } else { &fit });
            power(of_weight(rng, v, base), n)
        }
        4 => plus(int(536_870_911 + one), int(-536_870_912)),
        _ => minus(int(most - 1), int(1 + one)),
    }
}

fn of_weight(rng: &mut Rng, v: Term, size: i128) -> Term {
    match rng.below(3) {
        0 => int(size),
        1 => plus(v, int(1 - size)),
        _ => minus(int(size - 1), v),
    }
}

fn degree(rng: &mut Rng, vars: usize, over: bool) -> Term {
    let v = var(rng.index(vars));
    let most = 63 + u128::from(over);
    match rng.below(6) {
        0 => power(v, most),
        1 => {
            let a = u128::from(rng.below(64));
            times(power(v.clone(), a), power(v, most - a))
        }
        2 => {
            let fit = [(7, 9), (9, 7), (3, 21), (1, 63), (63, 1), (6, 10)];
            let pass = [(8, 8), (4, 16), (2, 32), (32, 2), (1, 64), (5, 13)];
            let (a, b) = rng.pick(if over { &pass } else { &fit });
            power(power(v, a), b)
        }
        3 => power(int(rng.pick(&[0, 1, -1])), most),
        4 => power(v, far_exponent(rng)),
        _ => times(power(v.clone(), 63), power(var(rng.index(vars)), 62 + u128::from(over))),
    }
}

/// Numbers that would be small if they were wrapped.
fn far_exponent(rng: &mut Rng) -> u128 {
    let bits = rng.pick(&[6u32, 7, 8, 16, 31, 32, 63, 64, 96]);
    (1u128 << bits) + u128::from(rng.below(3))
}

/// (1 + v)(1 + v^2)(1 + v^4)..: 2^steps terms and the same weight.
fn ladder(v: usize, steps: u32) -> Term {
    let step = |k: u32| plus(int(1), power(var(v), 1 << k));
    (1..steps).fold(step(0), |whole, k| times(whole, step(k)))
}

fn terms(rng: &mut Rng, vars: usize, over: bool) -> Term {
    let one = u128::from(over);
    let (x, y) = (rng.index(vars), rng.index(vars));
    if vars == 1 || x == y {
        // One variable has 64 terms at most, which is never over.
        return ladder(x, 6);
    }
    match rng.below(6) {
        0 => power(plus(var(x), var(y)), 15 + one),
        1 => {
            let last = if over { power(var(x), 16) } else { int(1) };
            plus(power(plus(var(x), var(y)), 15), last)
        }
        2 if vars > 2 => power(plus(plus(var(0), var(1)), var(2)), 5 + one),
        3 if vars > 3 => power(plus(plus(var(0), var(1)), minus(var(2), var(3))), 4 + one),
        4 => {
            let square = times(ladder(x, 4), ladder(y, 4));
            plus(square, if over { power(var(y), 16) } else { power(var(y), 15) })
        }
        _ => times(ladder(x, 5), ladder(y, 3 + u32::from(over))),
    }
}

/// The terms with the largest forms, and the longest ones.
fn largest(rng: &mut Rng, vars: usize) -> Term {
    let more = u128::from(rng.below(5));
    let orders = [[0, 1, 2, 3], [1, 0, 2, 3], [3, 2, 1, 0], [2, 3, 0, 1]];
    match rng.below(4) {
        0 => bushy(rng, vars, 9),
        1 if vars == 4 => widest(rng.pick(&orders), more),
        2 if vars == 4 => {
            let big = widest(rng.pick(&orders), more);
            forgotten(&big, 4)
        }
        3 => forgotten(&deepest(0, vars), 2),
        _ => deepest(0, vars),
    }
}

/// The power 0 forgets the measures of what it stands on, however large.
fn forgotten(big: &Term, times_over: usize) -> Term {
    (1..times_over).fold(big.clone(), |whole, _| times(power(whole, 0), big.clone()))
}

/// A full tree of sums with small leaves.
fn bushy(rng: &mut Rng, vars: usize, depth: usize) -> Term {
    if depth == 0 {
        return if rng.percent(70) { var(rng.index(vars)) } else { int(rng.between(-9, 9)) };
    }
    let (x, y) = (bushy(rng, vars, depth - 1), bushy(rng, vars, depth - 1));
    if rng.percent(60) {
        plus(x, y)
    } else {
        minus(x, y)
    }
}

/// (1 + a)^15 (1 + a^16)(1 + a^32)(1 + b)^3 b^(1 + more) c d.
/// Its form has 831 POW nodes where a, b, c, d are the row.
pub fn widest([a, b, c, d]: [usize; 4], more: u128) -> Term {
    let one_and = |v: usize, n: u128| plus(int(1), power(var(v), n));
    let ladder = times(one_and(a, 16), one_and(a, 32));
    let rows = times(power(plus(int(1), var(b)), 3), power(var(b), 1 + more));
    times(times(power(plus(int(1), var(a)), 15), ladder), times(rows, times(var(c), var(d))))
}

/// Powers 0 to 62 of each variable, and the next variable at power 63: the form nests deepest.
fn deepest(v: usize, vars: usize) -> Term {
    if v + 1 == vars {
        return ladder(v, 6);
    }
    let low = minus(ladder(v, 6), power(var(v), 63));
    plus(low, times(power(var(v), 63), deepest(v + 1, vars)))
}

/// As many parentheses open at once as asked for.
pub fn nest(rng: &mut Rng, vars: usize, depth: usize) -> Term {
    let mut found = var(rng.index(vars));
    for _ in 0..depth {
        found = match rng.below(7) {
            0 => neg(found),
            1 => plus(found, int(1)),
            2 => plus(var(rng.index(vars)), found),
            3 => minus(int(2), found),
            4 => times(found, int(-1)),
            5 => times(int(1), found),
            _ => power(found, 1),
        };
    }
    found
}
