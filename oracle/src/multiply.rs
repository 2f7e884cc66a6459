//! Products, row by row of the second operand.

use crate::kind::Coefficient;
use crate::polynomial::{Exponents, Polynomial};
use crate::refusal::{Refusal, EXPONENT};
use crate::setting::Setting;

/// One row of a product: the exponents and the coefficient to multiply with.
pub type Row<'a> = (&'a Exponents, &'a Coefficient);

/// first x row, over the pairs whose summed exponents are kept.
/// All kept pairs are tested for their exponents before any two coefficients are multiplied.
pub fn times_row(
    first: &Polynomial,
    row: Row,
    kept: impl Fn(&[u32]) -> bool,
    setting: &Setting,
) -> Result<Polynomial, Refusal> {
    let mut pairs = Vec::new();
    for (exponents, coefficient) in first.falling() {
        let sums: Exponents = exponents.iter().zip(row.0).map(|(a, b)| a + b).collect();
        if !kept(&sums) {
            continue;
        }
        if (0..sums.len()).any(|variable| sums[variable] > setting.format.greatest(variable)) {
            return Err(EXPONENT);
        }
        pairs.push((sums, *coefficient));
    }
    let mut products = Polynomial::zero();
    for (sums, coefficient) in pairs {
        products.put(sums, setting.kind.times(coefficient, *row.1)?);
    }
    Ok(products)
}

/// The sum of first x row over the rows of the second operand, the leading one first.
fn multiply_kept(
    first: &Polynomial,
    second: &Polynomial,
    kept: impl Fn(&[u32]) -> bool,
    setting: &Setting,
) -> Result<Polynomial, Refusal> {
    let mut running = Polynomial::zero();
    for row in second.falling() {
        let products = times_row(first, row, &kept, setting)?;
        running.gain(&products, setting)?;
    }
    Ok(running)
}

pub fn multiply(first: &Polynomial, second: &Polynomial, setting: &Setting) -> Result<Polynomial, Refusal> {
    multiply_kept(first, second, |_| true, setting)
}

/// The product without the pairs whose first k exponents add to more than n. They are passed over untested.
pub fn multiply_truncate(
    first: &Polynomial,
    second: &Polynomial,
    k: usize,
    n: u32,
    setting: &Setting,
) -> Result<Polynomial, Refusal> {
    multiply_kept(first, second, |sums| crate::truncate::stays(sums, k, n), setting)
}
