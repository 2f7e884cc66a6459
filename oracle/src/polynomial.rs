//! Polynomials as sorted maps from lists of exponents to coefficients that are not zero.
//!
//! Lists of exponents are compared from the first variable on, so the last entry of the map is the leading term.

use std::collections::BTreeMap;

use crate::kind::{Coefficient, ZERO};
use crate::refusal::{Refusal, ROWS};
use crate::setting::Setting;

pub type Exponents = Vec<u32>;

#[derive(Clone, PartialEq, Eq, Debug, Default)]
pub struct Polynomial {
    terms: BTreeMap<Exponents, Coefficient>,
}

impl Polynomial {
    pub fn zero() -> Polynomial {
        Polynomial::default()
    }

    /// One term, or none if the coefficient is zero.
    pub fn term(exponents: Exponents, coefficient: Coefficient) -> Polynomial {
        let mut result = Polynomial::zero();
        result.put(exponents, coefficient);
        result
    }

    /// Sets the coefficient of one list of exponents; zero leaves no term there.
    pub fn put(&mut self, exponents: Exponents, coefficient: Coefficient) {
        if coefficient == ZERO {
            self.terms.remove(&exponents);
        } else {
            self.terms.insert(exponents, coefficient);
        }
    }

    pub fn coefficient(&self, exponents: &[u32]) -> Coefficient {
        self.terms.get(exponents).copied().unwrap_or(ZERO)
    }

    /// The terms, the leading one first.
    pub fn falling(&self) -> impl Iterator<Item = (&Exponents, &Coefficient)> {
        self.terms.iter().rev()
    }

    pub fn leading(&self) -> Option<(&Exponents, &Coefficient)> {
        self.falling().next()
    }

    pub fn row_count(&self) -> usize {
        self.terms.len()
    }

    pub fn is_zero(&self) -> bool {
        self.terms.is_empty()
    }

    /// Adds another polynomial. A coefficient that does not fit is refused first, then too many rows.
    /// After a refusal the sum so far is worthless, and the caller throws it away.
    pub fn gain(&mut self, other: &Polynomial, setting: &Setting) -> Result<(), Refusal> {
        for (exponents, coefficient) in other.falling() {
            let sum = setting.kind.plus(self.coefficient(exponents), *coefficient)?;
            self.put(exponents.clone(), sum);
        }
        if self.row_count() > setting.room {
            return Err(ROWS);
        }
        Ok(())
    }

    /// The sum of two.
    pub fn plus(&self, other: &Polynomial, setting: &Setting) -> Result<Polynomial, Refusal> {
        let mut sum = self.clone();
        sum.gain(other, setting)?;
        Ok(sum)
    }

    /// The negative, which is never refused.
    pub fn negative(&self, setting: &Setting) -> Polynomial {
        let mut result = Polynomial::zero();
        for (exponents, coefficient) in self.falling() {
            result.put(exponents.clone(), setting.kind.negative(*coefficient));
        }
        result
    }
}
