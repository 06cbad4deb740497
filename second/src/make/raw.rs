//! Form trees that need not be normal, with numbers kept as texts.

use super::rng::Rng;
use crate::form::Form;

#[derive(Clone)]
pub enum Raw {
    Leaf(String),
    Pop(String, Box<Raw>),
    Pow(String, Box<Raw>, Box<Raw>),
}

/// Indices on either side of a line, and ones that would be small if they were wrapped.
const INDICES: [&str; 24] = [
    "0",
    "0",
    "1",
    "1",
    "2",
    "3",
    "4",
    "5",
    "62",
    "63",
    "64",
    "65",
    "127",
    "255",
    "256",
    "257",
    "65536",
    "2147483648",
    "4294967295",
    "4294967296",
    "4294967297",
    "18446744073709551615",
    "18446744073709551617",
    "340282366920938463463374607431768211457",
];

const LEAVES: [&str; 16] = [
    "0",
    "0",
    "1",
    "-1",
    "7",
    "1073741823",
    "-1073741823",
    "1073741824",
    "-1073741824",
    "2147483647",
    "2147483648",
    "4294967296",
    "-4294967297",
    "18446744073709551616",
    "-9223372036854775808",
    "99999999999999999999999999999999999999999999999999999",
];

impl Raw {
    pub fn of(form: &Form) -> Raw {
        match form {
            Form::Leaf(value) => Raw::Leaf(value.to_string()),
            Form::Pop(i, p) => Raw::Pop(i.to_string(), Box::new(Raw::of(p))),
            Form::Pow(i, p, q) => {
                Raw::Pow(i.to_string(), Box::new(Raw::of(p)), Box::new(Raw::of(q)))
            }
        }
    }

    pub fn random(rng: &mut Rng, depth: usize) -> Raw {
        if depth == 0 || rng.percent(25) {
            return Raw::Leaf(leaf(rng));
        }
        if rng.percent(30) {
            return Raw::Pop(small_index(rng), Box::new(Raw::random(rng, depth - 1)));
        }
        let p = Box::new(Raw::random(rng, depth - 1));
        Raw::Pow(small_index(rng), p, Box::new(Raw::random(rng, depth - 1)))
    }

    pub fn text(&self) -> Vec<u8> {
        let mut out = Vec::new();
        self.write(&mut out);
        out
    }

    fn write(&self, out: &mut Vec<u8>) {
        let (head, members): (String, Vec<&Raw>) = match self {
            Raw::Leaf(number) => return out.extend(number.bytes()),
            Raw::Pop(i, p) => (format!("(POP {i}"), vec![p]),
            Raw::Pow(i, p, q) => (format!("(POW {i}"), vec![p, q]),
        };
        out.extend(head.bytes());
        for member in members {
            out.push(b' ');
            member.write(out);
        }
        out.push(b')');
    }

    fn count(&self) -> usize {
        match self {
            Raw::Leaf(_) => 1,
            Raw::Pop(_, p) => 1 + p.count(),
            Raw::Pow(_, p, q) => 1 + p.count() + q.count(),
        }
    }

    /// One node, chosen evenly, is made wrong in its own way.
    pub fn damage(&mut self, rng: &mut Rng) {
        let chosen = rng.index(self.count());
        damage_at(self, chosen, rng);
    }
}

/// The chosen node counted in prefix order.
fn damage_at(node: &mut Raw, chosen: usize, rng: &mut Rng) {
    if chosen == 0 {
        return damage_here(node, rng);
    }
    match node {
        Raw::Leaf(_) => {}
        Raw::Pop(_, p) => damage_at(p, chosen - 1, rng),
        Raw::Pow(_, p, q) => {
            let first = p.count();
            if chosen <= first {
                damage_at(p, chosen - 1, rng)
            } else {
                damage_at(q, chosen - 1 - first, rng)
            }
        }
    }
}

fn damage_here(node: &mut Raw, rng: &mut Rng) {
    let old = node.clone();
    *node = match (old, rng.below(6)) {
        (Raw::Leaf(_), 0 | 1) => Raw::Leaf(leaf(rng)),
        (Raw::Leaf(number), 2) => Raw::Leaf(format!("0{number}")),
        (Raw::Leaf(_), 3) => Raw::Leaf("-0".to_string()),
        (Raw::Pop(_, p), 0 | 1) => Raw::Pop(index(rng), p),
        (Raw::Pop(i, _), 2) => Raw::Pop(i, Box::new(Raw::Leaf(leaf(rng)))),
        (Raw::Pow(_, p, q), 0 | 1) => Raw::Pow(index(rng), p, q),
        (Raw::Pow(i, _, q), 2) => Raw::Pow(i, Box::new(Raw::Leaf("0".to_string())), q),
        (Raw::Pow(i, p, q), 3) => {
            let inner = Raw::Pow("1".to_string(), p, Box::new(Raw::Leaf("0".to_string())));
            Raw::Pow(i, Box::new(inner), q)
        }
        (other, 4) => Raw::Pow(small_index(rng), Box::new(other), Box::new(Raw::Leaf(leaf(rng)))),
        (other, _) => Raw::Pop(small_index(rng), Box::new(other)),
    };
}

fn leaf(rng: &mut Rng) -> String {
    rng.pick(&LEAVES).to_string()
}

fn index(rng: &mut Rng) -> String {
    rng.pick(&INDICES).to_string()
}

fn small_index(rng: &mut Rng) -> String {
    if rng.percent(85) {
        "1".to_string()
    } else {
        index(rng)
    }
}
