//! Reading a term: tokens, then the grammar of document 01. Refusals 3 to 6.

use crate::number;
use crate::refusal::Fault;
use crate::row::Row;

pub const MOST_BYTES: usize = 4_096;
pub const MOST_OPEN: usize = 16;

#[derive(Clone, Copy, Debug, PartialEq, Eq)]
pub enum Sign {
    Plus,
    Minus,
    Times,
}

#[derive(Clone, Debug, PartialEq, Eq)]
pub enum Kind {
    Integer(i128),
    Letter(usize),
    Negative(Box<Term>),
    Pair(Sign, Box<Term>, Box<Term>),
    Power(Box<Term>, u128),
}

#[derive(Clone, Debug, PartialEq, Eq)]
pub struct Term {
    pub place: usize,
    pub kind: Kind,
}

#[derive(Clone, Copy)]
pub struct Token<'a> {
    pub place: usize,
    pub bytes: &'a [u8],
}

fn is_blank(byte: u8) -> bool {
    byte == b' ' || byte == b'\n'
}

fn ends_run(byte: u8) -> bool {
    is_blank(byte) || byte == b'(' || byte == b')'
}

pub fn tokens(text: &[u8]) -> Vec<Token<'_>> {
    let mut found = Vec::new();
    let mut place = 0;
    while place < text.len() {
        let run = text[place..].iter().take_while(|byte| !ends_run(**byte)).count();
        let length = run.max(1);
        if !is_blank(text[place]) {
            found.push(Token { place, bytes: &text[place..place + length] });
        }
        place += length;
    }
    found
}

struct Reader<'a> {
    tokens: std::vec::IntoIter<Token<'a>>,
    end: usize,
    row: &'a Row,
    open: usize,
}

pub fn read(row: &Row, text: &[u8]) -> Result<Term, Fault> {
    if text.len() > MOST_BYTES {
        return Err(Fault::new(3, 0));
    }
    let tokens = tokens(text).into_iter();
    let mut reader = Reader { tokens, end: text.len(), row, open: 0 };
    let first = reader.next()?;
    let term = reader.operand(first)?;
    match reader.tokens.next() {
        Some(surplus) => Err(Fault::new(4, surplus.place)),
        None => Ok(term),
    }
}

impl<'a> Reader<'a> {
    fn next(&mut self) -> Result<Token<'a>, Fault> {
        self.tokens.next().ok_or(Fault::new(4, self.end))
    }

    fn next_operand(&mut self) -> Result<Box<Term>, Fault> {
        let token = self.next()?;
        Ok(Box::new(self.operand(token)?))
    }

    fn operand(&mut self, token: Token) -> Result<Term, Fault> {
        let place = token.place;
        let kind = match token.bytes {
            b"(" => self.list(place)?,
            [letter] if letter.is_ascii_uppercase() => {
                Kind::Letter(self.row.position(*letter).ok_or(Fault::new(5, place))?)
            }
            bytes => Kind::Integer(number::integer(bytes).ok_or(Fault::new(4, place))?),
        };
        Ok(Term { place, kind })
    }

    fn list(&mut self, place: usize) -> Result<Kind, Fault> {
        if self.open == MOST_OPEN {
            return Err(Fault::new(6, place));
        }
        self.open += 1;
        let head = self.next()?;
        match head.bytes {
            b"+" => self.pair(Sign::Plus),
            b"*" => self.pair(Sign::Times),
            b"-" => self.minus(),
            b"EXPT" => self.power(),
            _ => Err(Fault::new(4, head.place)),
        }
    }

    fn pair(&mut self, sign: Sign) -> Result<Kind, Fault> {
        let left = self.next_operand()?;
        let right = self.next_operand()?;
        self.close()?;
        Ok(Kind::Pair(sign, left, right))
    }

    /// After one operand either the list ends or a second operand begins.
    fn minus(&mut self) -> Result<Kind, Fault> {
        let left = self.next_operand()?;
        let token = self.next()?;
        if token.bytes == b")" {
            self.open -= 1;
            return Ok(Kind::Negative(left));
        }
        let right = Box::new(self.operand(token)?);
        self.close()?;
        Ok(Kind::Pair(Sign::Minus, left, right))
    }

    fn power(&mut self) -> Result<Kind, Fault> {
        let base = self.next_operand()?;
        let token = self.next()?;
        let exponent = number::natural(token.bytes).ok_or(Fault::new(4, token.place))?;
        self.close()?;
        Ok(Kind::Power(base, exponent))
    }

    fn close(&mut self) -> Result<(), Fault> {
        let token = self.next()?;
        if token.bytes != b")" {
            return Err(Fault::new(4, token.place));
        }
        self.open -= 1;
        Ok(())
    }
}
