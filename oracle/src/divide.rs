//! Exact division by leading terms.

use crate::multiply::times_row;
use crate::polynomial::{Exponents, Polynomial};
use crate::refusal::{Refusal, NO_QUOTIENT, ROWS, ZERO_DIVISOR};
use crate::setting::Setting;

/// Steps until the remainder is zero. A zero divisor is refused even where there is nothing to divide.
pub fn divide(dividend: &Polynomial, divisor: &Polynomial, setting: &Setting) -> Result<Polynomial, Refusal> {
    let (divisor_exponents, divisor_coefficient) = divisor.leading().ok_or(ZERO_DIVISOR)?;
    let mut remainder = dividend.clone();
    let mut quotient = Polynomial::zero();
    while let Some((exponents, coefficient)) = remainder.leading() {
        let exponents = difference(exponents, divisor_exponents).ok_or(NO_QUOTIENT)?;
        let coefficient = setting.kind.quotient(*coefficient, *divisor_coefficient)?;
        quotient.put(exponents.clone(), coefficient);
        if quotient.row_count() > setting.room {
            return Err(ROWS);
        }
        let products = times_row(divisor, (&exponents, &coefficient), |_| true, setting)?;
        remainder.gain(&products.negative(setting), setting)?;
    }
    Ok(quotient)
}

/// The exponents less others, or none where one would be negative.
fn difference(exponents: &Exponents, others: &Exponents) -> Option<Exponents> {
    exponents.iter().zip(others).map(|(a, b)| a.checked_sub(*b)).collect()
}
