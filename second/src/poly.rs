//! Polynomials as sorted maps from exponents to coefficients that are not 0.

use crate::row::MOST_LETTERS;
use std::collections::BTreeMap;

pub type Exponents = [u8; MOST_LETTERS];

#[derive(Clone, Debug, Default, PartialEq, Eq)]
pub struct Poly {
    parts: BTreeMap<Exponents, i128>,
}

impl Poly {
    pub fn zero() -> Poly {
        Poly::default()
    }

    pub fn integer(value: i128) -> Poly {
        Poly::monomial([0; MOST_LETTERS], value)
    }

    pub fn letter(position: usize) -> Poly {
        let mut exponents = [0; MOST_LETTERS];
        exponents[position] = 1;
        Poly::monomial(exponents, 1)
    }

    pub fn monomial(exponents: Exponents, coefficient: i128) -> Poly {
        let mut result = Poly::zero();
        result.put(exponents, coefficient);
        result
    }

    /// Adds one monomial; a coefficient that becomes 0 leaves the map.
    pub fn put(&mut self, exponents: Exponents, coefficient: i128) {
        let total = self.parts.get(&exponents).unwrap_or(&0) + coefficient;
        if total == 0 {
            self.parts.remove(&exponents);
        } else {
            self.parts.insert(exponents, total);
        }
    }

    pub fn parts(&self) -> impl Iterator<Item = (&Exponents, &i128)> {
        self.parts.iter()
    }

    pub fn count(&self) -> usize {
        self.parts.len()
    }

    pub fn is_zero(&self) -> bool {
        self.parts.is_empty()
    }

    pub fn constant(&self) -> i128 {
        *self.parts.get(&[0; MOST_LETTERS]).unwrap_or(&0)
    }

    #[cfg(test)]
    pub fn degree(&self, variable: usize) -> u8 {
        self.parts.keys().map(|e| e[variable]).max().unwrap_or(0)
    }

    pub fn sum(&self, other: &Poly) -> Poly {
        let mut result = self.clone();
        for (exponents, coefficient) in &other.parts {
            result.put(*exponents, *coefficient);
        }
        result
    }

    pub fn negative(&self) -> Poly {
        Poly { parts: self.parts.iter().map(|(e, c)| (*e, -c)).collect() }
    }

    pub fn difference(&self, other: &Poly) -> Poly {
        self.sum(&other.negative())
    }

    pub fn product(&self, other: &Poly) -> Poly {
        let mut result = Poly::zero();
        for (e, c) in &self.parts {
            for (f, d) in &other.parts {
                result.put(std::array::from_fn(|k| e[k] + f[k]), c * d);
            }
        }
        result
    }

    pub fn power(&self, n: u128) -> Poly {
        (0..n).fold(Poly::integer(1), |power, _| power.product(self))
    }

    /// Each coefficient taken from 0 to modulus - 1.
    pub fn reduced(&self, modulus: i128) -> Poly {
        let mut result = Poly::zero();
        for (exponents, coefficient) in &self.parts {
            result.put(*exponents, coefficient.rem_euclid(modulus));
        }
        result
    }

    /// A number put for one variable, coefficients by the modulus.
    pub fn put_for(&self, variable: usize, value: i128, modulus: i128) -> Poly {
        let mut result = Poly::zero();
        for (exponents, coefficient) in &self.parts {
            let mut rest = *exponents;
            rest[variable] = 0;
            let factor = power_by(value, exponents[variable].into(), modulus);
            result.put(rest, coefficient.rem_euclid(modulus) * factor);
        }
        result.reduced(modulus)
    }

    /// The first variable of the row that occurs.
    pub fn first_variable(&self) -> Option<usize> {
        (0..MOST_LETTERS).find(|k| self.parts.keys().any(|e| e[*k] > 0))
    }

    /// Document 000's split: self = v^i * g + h, v not in h, g not divisible by v.
    pub fn split(&self, v: usize) -> (u8, Poly, Poly) {
        let with_v = self.parts.keys().map(|e| e[v]).filter(|power| *power > 0);
        let i = with_v.min().unwrap_or(0);
        let (mut g, mut h) = (Poly::zero(), Poly::zero());
        for (exponents, coefficient) in &self.parts {
            let mut lowered = *exponents;
            if lowered[v] == 0 {
                h.put(lowered, *coefficient);
            } else {
                lowered[v] -= i;
                g.put(lowered, *coefficient);
            }
        }
        (i, g, h)
    }
}

/// base^n by the modulus; 1 where n is 0.
pub fn power_by(base: i128, n: u128, modulus: i128) -> i128 {
    let base = base.rem_euclid(modulus);
    (0..n).fold(1, |power, _| power * base % modulus)
}
