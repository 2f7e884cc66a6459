//! Truncation by the sum of the first k exponents.

use crate::polynomial::Polynomial;

/// Whether the first k exponents add to at most n.
pub fn stays(exponents: &[u32], k: usize, n: u32) -> bool {
    let sum: u64 = exponents[..k].iter().map(|exponent| u64::from(*exponent)).sum();
    sum <= u64::from(n)
}

pub fn truncate(polynomial: &Polynomial, k: usize, n: u32) -> Polynomial {
    let mut result = Polynomial::zero();
    for (exponents, coefficient) in polynomial.falling() {
        if stays(exponents, k, n) {
            result.put(exponents.clone(), *coefficient);
        }
    }
    result
}
