//! The three measures of document 01: weight, degree in each variable, terms.

use crate::row::MOST_LETTERS;

pub const MOST_WEIGHT: u128 = 1_073_741_823;
pub const MOST_DEGREE: u128 = 63;
pub const MOST_TERMS: u128 = 256;

#[derive(Clone, Debug, PartialEq, Eq)]
pub struct Measures {
    pub weight: u128,
    pub degree: [u128; MOST_LETTERS],
    pub terms: u128,
}

impl Measures {
    pub fn integer(value: i128) -> Measures {
        Measures { weight: value.unsigned_abs(), degree: [0; MOST_LETTERS], terms: 1 }
    }

    pub fn letter(position: usize) -> Measures {
        let mut degree = [0; MOST_LETTERS];
        degree[position] = 1;
        Measures { weight: 1, degree, terms: 1 }
    }

    pub fn sum(&self, other: &Measures) -> Measures {
        let degree = self.degrees(other, |a, b| a.max(b));
        let terms = self.terms + other.terms;
        Measures { weight: self.weight + other.weight, degree, terms }.cut_to_box()
    }

    pub fn product(&self, other: &Measures) -> Measures {
        let degree = self.degrees(other, |a, b| a + b);
        let terms = self.terms * other.terms;
        Measures { weight: self.weight * other.weight, degree, terms }.cut_to_box()
    }

    /// The exponent is at most 63 here; a longer one is refused before anything is worked out.
    pub fn power(&self, n: u128) -> Measures {
        let degree = self.degree.map(|d| d * n);
        Measures { weight: to_the(self.weight, n), degree, terms: to_the(self.terms, n) }
            .cut_to_box()
    }

    /// The lowest refusal number these measures earn.
    pub fn fault(&self) -> Option<u8> {
        if self.degree.iter().any(|d| *d > MOST_DEGREE) {
            Some(8)
        } else if self.weight > MOST_WEIGHT {
            Some(9)
        } else if self.terms > MOST_TERMS {
            Some(10)
        } else {
            None
        }
    }

    fn degrees(&self, other: &Measures, rule: fn(u128, u128) -> u128) -> [u128; MOST_LETTERS] {
        std::array::from_fn(|k| rule(self.degree[k], other.degree[k]))
    }

    fn cut_to_box(mut self) -> Measures {
        let room: u128 = self.degree.iter().map(|d| d + 1).product();
        self.terms = self.terms.min(room);
        self
    }
}

/// Stays at the largest number instead of wrapping, which is above every limit and every box.
fn to_the(base: u128, n: u128) -> u128 {
    (0..n).fold(1, |power: u128, _| power.saturating_mul(base))
}
