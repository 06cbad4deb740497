//! Random polynomials and form texts: normal ones, ones near the limits, damaged ones.

use super::damage;
use super::raw::Raw;
use super::rng::Rng;
use crate::form::Form;
use crate::measure::MOST_WEIGHT;
use crate::poly::{Exponents, Poly};

/// At most `count` monomials with exponents up to `most`.
pub fn random(rng: &mut Rng, vars: usize, count: usize, most: u8) -> Poly {
    let mut found = Poly::zero();
    for _ in 0..count {
        found.put(exponents(rng, vars, most), coefficient(rng));
    }
    found
}

pub fn exponents(rng: &mut Rng, vars: usize, most: u8) -> Exponents {
    let top = u64::from(most) + 1;
    std::array::from_fn(|k| if k < vars { rng.below(top) as u8 } else { 0 })
}

fn coefficient(rng: &mut Rng) -> i128 {
    match rng.below(10) {
        0 => rng.between(-100_000, 100_000),
        1 | 2 => rng.pick(&[1, -1]),
        _ => rng.between(-9, 9),
    }
}

/// Exactly this many monomials, as far as the exponents give room for them.
pub fn of_count(rng: &mut Rng, vars: usize, count: usize, most: u8) -> Poly {
    let room = (usize::from(most) + 1).pow(vars as u32);
    let mut found = Poly::zero();
    while found.count() < count.min(room) {
        let place = exponents(rng, vars, most);
        if found.parts().all(|(e, _)| *e != place) {
            found.put(place, rng.pick(&[1, -1, 2, 3, -77]));
        }
    }
    found
}

/// Every power on the way to the last one has a rest: the deepest form of this degree.
pub fn deepest(vars: usize, most: u8) -> Poly {
    let mut found = Poly::integer(1);
    let mut place = [0; 4];
    for k in 0..vars {
        for power in 1..=most {
            place[k] = power;
            found.put(place, if power % 2 == 0 { 1 } else { -1 });
        }
    }
    found
}

fn near_limit(rng: &mut Rng, vars: usize) -> Poly {
    let over = rng.percent(50);
    match rng.below(8) {
        0..=2 => with_weight(rng, vars, MOST_WEIGHT as i128 + i128::from(over)),
        3 => {
            let mut found = random(rng, vars, 6, 63);
            let mut place = [0; 4];
            place[rng.index(vars)] = if over { 64 } else { 63 };
            found.put(place, 1);
            found
        }
        4 | 5 => {
            let most = if rng.percent(50) { 63 } else { 20 };
            of_count(rng, vars, 256 + usize::from(over), most)
        }
        6 => random(rng, vars, 200, 5),
        _ => deepest(vars, 62 + u8::from(over) + u8::from(rng.percent(30))),
    }
}

/// The rest of the weight goes to one more coefficient.
fn with_weight(rng: &mut Rng, vars: usize, weight: i128) -> Poly {
    let count = rng.index(12);
    let found = random(rng, vars, count, 6);
    let used: i128 = found.parts().map(|(_, c)| c.abs()).sum();
    let mut place = exponents(rng, vars, 6);
    // A new place, so that nothing cancels.
    place[0] += 7;
    found.sum(&Poly::monomial(place, (weight - used) * rng.pick(&[1, -1])))
}

pub fn good(rng: &mut Rng, vars: usize) -> Vec<u8> {
    let (count, most) = (rng.index(8), 1 + rng.index(6) as u8);
    Form::of(&random(rng, vars, count, most)).text()
}

/// A form text of any sort; `plain_part` of a hundred are small and normal.
pub fn text(rng: &mut Rng, vars: usize, plain_part: u64) -> Vec<u8> {
    if rng.percent(plain_part) {
        return good(rng, vars);
    }
    match rng.below(40) {
        0..=7 => Form::of(&near_limit(rng, vars)).text(),
        8..=15 => tree_damaged(rng, vars),
        16..=21 => Raw::random(rng, 4).text(),
        22..=27 => blank_damaged(rng, vars),
        28..=36 => {
            let whole = good(rng, vars);
            damage::bytes(rng, &whole)
        }
        37 | 38 => chain(rng),
        _ => long(rng),
    }
}

fn tree_damaged(rng: &mut Rng, vars: usize) -> Vec<u8> {
    let (count, most) = (1 + rng.index(8), 1 + rng.index(5) as u8);
    let mut tree = Raw::of(&Form::of(&random(rng, vars, count, most)));
    for _ in 0..1 + rng.index(2) {
        tree.damage(rng);
    }
    tree.text()
}

/// A blank too many or too few, a zero too many, beside an odd place.
fn blank_damaged(rng: &mut Rng, vars: usize) -> Vec<u8> {
    let mut text = good(rng, vars);
    let wanted = rng.pick(b" ()01-");
    let places: Vec<usize> = (0..text.len()).filter(|k| text[*k] == wanted).collect();
    let place = if places.is_empty() { 0 } else { rng.pick(&places) };
    match rng.below(6) {
        0 => text.insert(place, b' '),
        1 => text.insert(place + 1, b' '),
        2 => text.insert(place, b'0'),
        3 => text.insert(place, b'-'),
        4 => text[place] = rng.pick(b" 0-)("),
        _ => {
            text.remove(place);
        }
    }
    text
}

/// About 256 parentheses open at once, closed or not.
fn chain(rng: &mut Rng) -> Vec<u8> {
    let depth = rng.pick(&[60, 255, 256, 257, 258]);
    let mut text = Vec::new();
    let pops = rng.percent(30);
    for _ in 0..depth {
        text.extend(if pops { b"(POP 1 " } else { b"(POW 1 " });
    }
    text.push(b'1');
    if rng.percent(80) {
        for _ in 0..depth {
            text.extend(if pops { b")".as_slice() } else { b" 1)" });
        }
    }
    text
}

/// Numbers of hundreds of digits; seldom a text on either side of the length limit.
fn long(rng: &mut Rng) -> Vec<u8> {
    let digits = match rng.below(8) {
        0 => 65_536,
        1 => 65_535,
        _ => 100 + rng.index(300),
    };
    let mut text = vec![b'1'; digits];
    if digits < 1_000 {
        let node = rng.pick(&["(POW 1 # 0)", "(POW # 1 0)", "(POP # (POW 1 1 0))", "#", "-#"]);
        text = node.replace('#', &String::from_utf8_lossy(&text)).into_bytes();
    }
    text
}
