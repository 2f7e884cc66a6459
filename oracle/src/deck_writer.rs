//! Writing a polynomial as a deck of cards.

use crate::kind::ZERO;
use crate::polynomial::Polynomial;
use crate::setting::Setting;

/// A card for each row, then one with the figures of zero.
pub fn deck(polynomial: &Polynomial, setting: &Setting) -> String {
    let mut text = String::new();
    for (exponents, coefficient) in polynomial.falling() {
        let exponents: Vec<String> = exponents.iter().map(|exponent| exponent.to_string()).collect();
        text += &format!("{} {}\n", setting.kind.written(*coefficient), exponents.join(","));
    }
    text += &format!("{}\n", setting.kind.written(ZERO));
    text
}
