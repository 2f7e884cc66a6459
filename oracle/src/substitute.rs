//! Putting a polynomial for a variable.

use crate::multiply::multiply;
use crate::polynomial::Polynomial;
use crate::refusal::Refusal;
use crate::setting::Setting;

/// Each row, the leading one first, loses the variable, is multiplied by `second` as often as the exponent said,
/// and is added to a running sum.
pub fn substitute(
    first: &Polynomial,
    second: &Polynomial,
    variable: usize,
    setting: &Setting,
) -> Result<Polynomial, Refusal> {
    let mut running = Polynomial::zero();
    for (exponents, coefficient) in first.falling() {
        let mut rest = exponents.clone();
        let times = rest[variable];
        rest[variable] = 0;
        let mut power = Polynomial::term(rest, *coefficient);
        for _ in 0..times {
            power = multiply(&power, second, setting)?;
        }
        running.gain(&power, setting)?;
    }
    Ok(running)
}
