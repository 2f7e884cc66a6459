//! Derivatives.

use crate::polynomial::Polynomial;
use crate::refusal::Refusal;
use crate::setting::Setting;

/// Each coefficient is taken as often as its exponent says, and the exponent is lowered by one.
pub fn differentiate(polynomial: &Polynomial, variable: usize, setting: &Setting) -> Result<Polynomial, Refusal> {
    let mut result = Polynomial::zero();
    for (exponents, coefficient) in polynomial.falling() {
        let exponent = exponents[variable];
        let multiple = setting.kind.multiple(*coefficient, exponent)?;
        if exponent > 0 {
            let mut lowered = exponents.clone();
            lowered[variable] = exponent - 1;
            result.put(lowered, multiple);
        }
    }
    Ok(result)
}
