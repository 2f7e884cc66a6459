//! The four coefficient kinds, in exact 128-bit numbers.
//!
//! A coefficient is a pair of whole numbers. Only the kind `Pairs` uses the second part; it is 0 for the others.

use crate::refusal::{Refusal, NO_QUOTIENT, QUOTIENT_UNFIT, UNFIT, ZERO_DIVISOR};

#[derive(Clone, Copy, PartialEq, Eq, Debug)]
pub enum Kind {
    /// Whole numbers up to magnitude 2^27 - 1.
    Integers,
    /// Whole numbers modulo 257.
    Residues,
    /// Gaussian integers, both parts up to magnitude 2^30 - 1.
    Pairs,
    /// Whole numbers modulo 2^32.
    Words,
}

#[derive(Clone, Copy, PartialEq, Eq, Debug)]
pub struct Coefficient {
    pub real: i128,
    pub imaginary: i128,
}

pub const ZERO: Coefficient = Coefficient { real: 0, imaginary: 0 };
pub const ONE: Coefficient = Coefficient { real: 1, imaginary: 0 };

pub const KINDS: [Kind; 4] = [Kind::Integers, Kind::Residues, Kind::Pairs, Kind::Words];

/// The greatest integer that fits.
pub const INTEGER_LIMIT: i128 = 134_217_727;
/// The greatest part of a pair that fits.
pub const PAIR_LIMIT: i128 = 1_073_741_823;
const RESIDUE_MODULUS: i128 = 257;
const WORD_MODULUS: i128 = 1 << 32;

impl Kind {
    pub fn name(self) -> &'static str {
        match self {
            Kind::Integers => "integers",
            Kind::Residues => "residues",
            Kind::Pairs => "pairs",
            Kind::Words => "words",
        }
    }

    pub fn named(name: &[u8]) -> Option<Kind> {
        KINDS.into_iter().find(|kind| kind.name().as_bytes() == name)
    }

    /// Words have divisors of zero; all other kinds divide.
    pub fn divides(self) -> bool {
        self != Kind::Words
    }

    /// How many figures a coefficient is written with.
    pub fn figure_count(self) -> usize {
        if self == Kind::Pairs { 2 } else { 1 }
    }

    /// The smallest and the greatest figure.
    pub fn figure_range(self) -> (i128, i128) {
        match self {
            Kind::Integers => (-INTEGER_LIMIT, INTEGER_LIMIT),
            Kind::Residues => (0, RESIDUE_MODULUS - 1),
            Kind::Pairs => (-PAIR_LIMIT, PAIR_LIMIT),
            Kind::Words => (0, WORD_MODULUS - 1),
        }
    }

    /// The coefficient that two figures make; out of range is refused, and so is a second figure that the kind does not have.
    pub fn from_figures(self, first: i128, second: i128) -> Result<Coefficient, Refusal> {
        let (least, most) = self.figure_range();
        let in_range = |figure: i128| least <= figure && figure <= most;
        let second_good = if self.figure_count() == 2 { in_range(second) } else { second == 0 };
        if in_range(first) && second_good {
            Ok(Coefficient { real: first, imaginary: second })
        } else {
            Err(UNFIT)
        }
    }

    /// The figures of a coefficient, joined by a comma.
    pub fn written(self, value: Coefficient) -> String {
        if self.figure_count() == 2 {
            format!("{},{}", value.real, value.imaginary)
        } else {
            format!("{}", value.real)
        }
    }

    /// The member of the ring with these parts, if it fits.
    fn fitting(self, real: i128, imaginary: i128) -> Result<Coefficient, Refusal> {
        let real = match self {
            Kind::Residues => real.rem_euclid(RESIDUE_MODULUS),
            Kind::Words => real.rem_euclid(WORD_MODULUS),
            Kind::Integers | Kind::Pairs => real,
        };
        self.from_figures(real, imaginary)
    }

    pub fn plus(self, a: Coefficient, b: Coefficient) -> Result<Coefficient, Refusal> {
        self.fitting(a.real + b.real, a.imaginary + b.imaginary)
    }

    pub fn negative(self, a: Coefficient) -> Coefficient {
        self.fitting(-a.real, -a.imaginary).expect("the negative of what fits does fit")
    }

    pub fn times(self, a: Coefficient, b: Coefficient) -> Result<Coefficient, Refusal> {
        self.fitting(
            a.real * b.real - a.imaginary * b.imaginary,
            a.real * b.imaginary + a.imaginary * b.real,
        )
    }

    /// The sum of `count` copies.
    pub fn multiple(self, a: Coefficient, count: u32) -> Result<Coefficient, Refusal> {
        let count = i128::from(count);
        self.fitting(a.real * count, a.imaginary * count)
    }

    /// The one member whose product with `b` is `a`.
    pub fn quotient(self, a: Coefficient, b: Coefficient) -> Result<Coefficient, Refusal> {
        if b == ZERO {
            return Err(ZERO_DIVISOR);
        }
        match self {
            Kind::Residues => {
                // 257 is a prime, so just one residue does it: try them all.
                let found = (0..RESIDUE_MODULUS).find(|x| (x * b.real - a.real) % RESIDUE_MODULUS == 0);
                found.map(|real| Coefficient { real, imaginary: 0 }).ok_or(NO_QUOTIENT)
            }
            Kind::Integers | Kind::Pairs => {
                // a / b = a * (conjugate of b) / (norm of b), for pairs and for integers alike.
                let norm = b.real * b.real + b.imaginary * b.imaginary;
                let real = a.real * b.real + a.imaginary * b.imaginary;
                let imaginary = a.imaginary * b.real - a.real * b.imaginary;
                if real % norm != 0 || imaginary % norm != 0 {
                    return Err(NO_QUOTIENT);
                }
                self.fitting(real / norm, imaginary / norm).map_err(|_| QUOTIENT_UNFIT)
            }
            Kind::Words => panic!("words do not divide"),
        }
    }
}
