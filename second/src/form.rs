//! Sparse Horner forms, built top down from the monomials by document 000's first procedure.

use crate::poly::Poly;

#[derive(Clone, Debug, PartialEq, Eq)]
pub enum Form {
    Leaf(i128),
    Pop(usize, Box<Form>),
    Pow(u8, Box<Form>, Box<Form>),
}

impl Form {
    pub fn of(f: &Poly) -> Form {
        norm(f, 0)
    }

    pub fn text(&self) -> Vec<u8> {
        let mut out = Vec::new();
        self.write(&mut out);
        out
    }

    fn write(&self, out: &mut Vec<u8>) {
        match self {
            Form::Leaf(value) => out.extend(value.to_string().bytes()),
            Form::Pop(i, p) => {
                out.extend(format!("(POP {i} ").bytes());
                p.write(out);
                out.push(b')');
            }
            Form::Pow(i, p, q) => {
                out.extend(format!("(POW {i} ").bytes());
                p.write(out);
                out.push(b' ');
                q.write(out);
                out.push(b')');
            }
        }
    }
}

/// Only variables from `level` on occur in f.
fn norm(f: &Poly, level: usize) -> Form {
    match f.first_variable() {
        None => Form::Leaf(f.constant()),
        Some(v) if v > level => Form::Pop(v - level, Box::new(norm(f, v))),
        Some(v) => {
            let (i, g, h) = f.split(v);
            Form::Pow(i, Box::new(norm(&g, v)), Box::new(norm(&h, v + 1)))
        }
    }
}
