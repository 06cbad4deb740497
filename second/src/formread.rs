//! Reading a form text byte by byte. Refusals 3, 4, 6, 7 and the form's own 8 to 10.

use crate::measure::Measures;
use crate::number;
use crate::poly::Poly;
use crate::refusal::Fault;
use crate::row::{Row, MOST_LETTERS};

pub const MOST_BYTES: usize = 65_535;
pub const MOST_OPEN: usize = 256;

pub enum Node {
    Leaf(i128),
    Pop { place: usize, by: u128, inner: Box<Node> },
    Pow { place: usize, by: u128, inner: Box<Node>, rest: Box<Node> },
}

/// An accepted form: its polynomial and the measures of it.
pub struct Accepted {
    pub node: Node,
    pub poly: Poly,
    pub measures: Measures,
}

pub fn accepted(row: &Row, text: &[u8]) -> Result<Accepted, Fault> {
    let node = read(text)?;
    normal(&node, 0, row.len() as u128)?;
    let mut monomials = Vec::new();
    gather(&node, 0, [0; MOST_LETTERS], &mut monomials);
    let measures = measures(&monomials);
    if let Some(number) = measures.fault() {
        return Err(Fault::new(number, 0));
    }
    let mut poly = Poly::zero();
    for (exponents, coefficient) in monomials {
        poly.put(exponents.map(|power| power as u8), coefficient);
    }
    Ok(Accepted { node, poly, measures })
}

fn read(text: &[u8]) -> Result<Node, Fault> {
    if text.len() > MOST_BYTES {
        return Err(Fault::new(3, 0));
    }
    let mut reader = Reader { text, at: 0, open: 0 };
    let node = reader.form()?;
    if reader.at < text.len() {
        return Err(Fault::new(4, reader.at));
    }
    Ok(node)
}

struct Reader<'a> {
    text: &'a [u8],
    at: usize,
    open: usize,
}

impl Reader<'_> {
    fn peek(&self) -> Option<u8> {
        self.text.get(self.at).copied()
    }

    /// A wrong byte's place, or the text's length where it ends: `at` is both.
    fn wrong<T>(&self) -> Result<T, Fault> {
        Err(Fault::new(4, self.at))
    }

    fn expect(&mut self, bytes: &[u8]) -> Result<(), Fault> {
        for byte in bytes {
            if self.peek() != Some(*byte) {
                return self.wrong();
            }
            self.at += 1;
        }
        Ok(())
    }

    fn form(&mut self) -> Result<Node, Fault> {
        if self.peek() != Some(b'(') {
            return self.leaf();
        }
        if self.open == MOST_OPEN {
            return Err(Fault::new(6, self.at));
        }
        self.open += 1;
        let node = self.list()?;
        self.open -= 1;
        Ok(node)
    }

    fn list(&mut self) -> Result<Node, Fault> {
        let place = self.at;
        self.expect(b"(PO")?;
        let is_pow = self.peek() == Some(b'W');
        self.expect(if is_pow { b"W " } else { b"P " })?;
        let by = self.digits(true)?;
        self.expect(b" ")?;
        let inner = Box::new(self.form()?);
        if !is_pow {
            self.expect(b")")?;
            return Ok(Node::Pop { place, by, inner });
        }
        self.expect(b" ")?;
        let rest = Box::new(self.form()?);
        self.expect(b")")?;
        Ok(Node::Pow { place, by, inner, rest })
    }

    fn leaf(&mut self) -> Result<Node, Fault> {
        if self.peek() != Some(b'-') {
            return Ok(Node::Leaf(self.digits(true)? as i128));
        }
        self.at += 1;
        Ok(Node::Leaf(-(self.digits(false)? as i128)))
    }

    /// A 0 ends the number at once, so a byte after it is left to what follows.
    fn digits(&mut self, zero_allowed: bool) -> Result<u128, Fault> {
        let start = self.at;
        match self.peek() {
            Some(b'0') if zero_allowed => self.at += 1,
            Some(b'1'..=b'9') => {
                while matches!(self.peek(), Some(b'0'..=b'9')) {
                    self.at += 1;
                }
            }
            _ => return self.wrong(),
        }
        number::natural(&self.text[start..self.at]).ok_or(Fault::new(4, start))
    }
}

/// The inner nodes finish first; levels are exact, since a cut number is above every level.
fn normal(node: &Node, level: u128, row: u128) -> Result<(), Fault> {
    match node {
        Node::Leaf(_) => Ok(()),
        Node::Pop { place, by, inner } => {
            normal(inner, level + by, row)?;
            let right = *by >= 1 && matches!(**inner, Node::Pow { .. });
            right.then_some(()).ok_or(Fault::new(7, *place))
        }
        Node::Pow { place, by, inner, rest } => {
            normal(inner, level, row)?;
            normal(rest, level + 1, row)?;
            let right = level < row && *by >= 1 && may_be_inner(inner);
            right.then_some(()).ok_or(Fault::new(7, *place))
        }
    }
}

/// The p of a POW is neither 0 nor (POW j r 0).
fn may_be_inner(p: &Node) -> bool {
    match p {
        Node::Leaf(value) => *value != 0,
        Node::Pow { rest, .. } => !matches!(**rest, Node::Leaf(0)),
        Node::Pop { .. } => true,
    }
}

type Monomial = ([u128; MOST_LETTERS], i128);

/// In a normal form every leaf that is not 0 is a monomial of its own.
fn gather(node: &Node, level: usize, powers: [u128; MOST_LETTERS], out: &mut Vec<Monomial>) {
    match node {
        Node::Leaf(0) => {}
        Node::Leaf(value) => out.push((powers, *value)),
        Node::Pop { by, inner, .. } => gather(inner, level + *by as usize, powers, out),
        Node::Pow { by, inner, rest, .. } => {
            gather(rest, level + 1, powers, out);
            let mut higher = powers;
            higher[level] += by;
            gather(inner, level, higher, out);
        }
    }
}

fn measures(monomials: &[Monomial]) -> Measures {
    let mut found = Measures::integer(0);
    found.terms = monomials.len().max(1) as u128;
    for (powers, coefficient) in monomials {
        found.weight += coefficient.unsigned_abs();
        for (degree, power) in found.degree.iter_mut().zip(powers) {
            *degree = (*degree).max(*power);
        }
    }
    found
}

/// Definition 5 by remainders, straight from the nodes.
pub fn remainder(node: &Node, point: &[i128], modulus: i128) -> i128 {
    let value = match node {
        Node::Leaf(value) => *value,
        Node::Pop { by, inner, .. } => remainder(inner, &point[*by as usize..], modulus),
        Node::Pow { by, inner, rest, .. } => {
            let power = crate::poly::power_by(point[0], *by, modulus);
            power * remainder(inner, point, modulus) + remainder(rest, &point[1..], modulus)
        }
    };
    value.rem_euclid(modulus)
}
