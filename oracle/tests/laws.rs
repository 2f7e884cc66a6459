//! The arithmetic against evaluation: numbers are put for all variables, and the results have to agree.

use oracle::deck_reader;
use oracle::deck_writer::deck;
use oracle::differentiate::differentiate;
use oracle::divide::divide;
use oracle::format::Format;
use oracle::kind::{Coefficient, Kind};
use oracle::multiply::{multiply, multiply_truncate};
use oracle::polynomial::Polynomial;
use oracle::setting::Setting;
use oracle::substitute::substitute;
use oracle::truncate::truncate;

/// Kinds of whole numbers, each with a modulus that evaluation respects.
const KINDS: [(Kind, i128); 3] = [(Kind::Integers, 1_000_003), (Kind::Residues, 257), (Kind::Words, 1 << 32)];

struct Dice(u64);

impl Dice {
    fn below(&mut self, count: u64) -> u64 {
        self.0 = self.0.wrapping_mul(6_364_136_223_846_793_005).wrapping_add(1_442_695_040_888_963_407);
        (self.0 >> 33) % count
    }

    fn polynomial(&mut self, setting: &Setting) -> Polynomial {
        let mut result = Polynomial::zero();
        for _ in 0..self.below(5) {
            let exponents = (0..3).map(|_| self.below(4) as u32).collect();
            let real = self.below(9) as i128;
            let value = Coefficient { real, imaginary: 0 };
            let value = if self.below(2) == 0 { setting.kind.negative(value) } else { value };
            result.put(exponents, value);
        }
        result
    }
}

fn value_at(polynomial: &Polynomial, point: [i128; 3], modulus: i128) -> i128 {
    let mut sum = 0;
    for (exponents, coefficient) in polynomial.falling() {
        let mut product = coefficient.real;
        for (variable, exponent) in exponents.iter().enumerate() {
            for _ in 0..*exponent {
                product = product * point[variable] % modulus;
            }
        }
        sum += product;
    }
    sum.rem_euclid(modulus)
}

#[test]
fn values_agree() {
    let mut dice = Dice(1);
    for (kind, modulus) in KINDS {
        let format = Format::new(&[(b"X", 8), (b"Y", 8), (b"Z", 8)]).unwrap();
        let setting = Setting { kind, format, room: 4096 };
        for _ in 0..300 {
            let (p, q) = (dice.polynomial(&setting), dice.polynomial(&setting));
            let point = [0; 3].map(|_| i128::from(dice.below(1000)));
            let at = |polynomial: &Polynomial| value_at(polynomial, point, modulus);
            let same = |a: i128, b: i128| assert_eq!((a - b).rem_euclid(modulus), 0, "{kind:?} {p:?} {q:?}");

            let sum = p.plus(&q, &setting).unwrap();
            same(at(&sum), at(&p) + at(&q));
            same(at(&p.negative(&setting)), -at(&p));
            let product = multiply(&p, &q, &setting).unwrap();
            same(at(&product), at(&p) * at(&q));
            assert_eq!(product, multiply(&q, &p, &setting).unwrap());

            let variable = dice.below(3) as usize;
            if let Ok(substituted) = substitute(&p, &q, variable, &setting) {
                let mut moved = point;
                moved[variable] = at(&q);
                same(at(&substituted), value_at(&p, moved, modulus));
            }

            // The derivative of a product.
            let derived = |polynomial: &Polynomial| differentiate(polynomial, variable, &setting).unwrap();
            same(at(&derived(&product)), at(&derived(&p)) * at(&q) + at(&p) * at(&derived(&q)));

            let (k, n) = (dice.below(4) as usize, dice.below(8) as u32);
            assert_eq!(multiply_truncate(&p, &q, k, n, &setting).unwrap(), truncate(&product, k, n));

            if kind.divides() && !q.is_zero() {
                assert_eq!(divide(&product, &q, &setting), Ok(p.clone()));
            }
            let written = deck(&product, &setting);
            assert_eq!(deck_reader::read(written.as_bytes(), &setting), Ok((product.clone(), written.len())));
        }
    }
}
