//! Random coefficients, exponents and terms.

use super::random::Random;
use crate::format::Format;
use crate::kind::Kind;

/// The figures of a coefficient and the exponents.
#[derive(Clone, Debug)]
pub struct Term {
    pub figures: Vec<i64>,
    pub exponents: Vec<u32>,
}

/// How the terms of a chapter of the script look.
#[derive(Clone, Debug)]
pub struct Taste {
    /// How many coefficients of a hundred are large.
    pub wild: u64,
    /// How far the usual exponent of each variable goes.
    pub reach: Vec<u32>,
}

impl Taste {
    pub fn new(random: &mut Random, format: &Format) -> Taste {
        let wild = random.weighted(&[(6, 2), (3, 15), (1, 60)]);
        let mut reach = Vec::new();
        for variable in 0..format.count() {
            let greatest = format.greatest(variable);
            let usual = random.weighted(&[(3, 1), (6, 2), (6, 3), (2, 5), (1, 300), (1, 65535)]);
            reach.push(usual.min(greatest));
        }
        Taste { wild, reach }
    }
}

/// A figure that fits its kind.
fn figure(random: &mut Random, kind: Kind, wild: bool) -> i64 {
    match kind {
        Kind::Integers => {
            let magnitude = if wild {
                match random.below(4) {
                    0 => random.between(134_217_720, 134_217_727),
                    1 => random.between(11_583, 11_587),
                    2 => random.between(1, 20_000),
                    _ => random.between(1, 134_217_727),
                }
            } else {
                random.between(0, 9)
            };
            if random.percent(50) { -magnitude } else { magnitude }
        }
        Kind::Residues => {
            if wild {
                random.pick(&[1, 16, 128, 129, 255, 256])
            } else {
                random.between(0, 256)
            }
        }
        Kind::Pairs => {
            let magnitude = if wild {
                match random.below(4) {
                    0 => random.between(1_073_741_815, 1_073_741_823),
                    1 => random.between(23_168, 32_769),
                    2 => random.between(1, 60_000),
                    _ => random.between(1, 1_073_741_823),
                }
            } else {
                random.between(0, 4)
            };
            if random.percent(50) { -magnitude } else { magnitude }
        }
        Kind::Words => {
            if wild {
                let many = random.between(1, 65_535);
                random.pick(&[1, 65_535, 65_536, 65_537, 1 << 31, (1 << 31) + 1, (1 << 32) - 1, (1 << 32) - 2, many << 16])
            } else {
                random.pick(&[1, 2, 3, 4, 5, 7, 65_536, (1 << 32) - 1])
            }
        }
    }
}

/// The figures of a coefficient that fits; zero now and then.
pub fn figures(random: &mut Random, kind: Kind, wild: u64) -> Vec<i64> {
    let wild = random.percent(wild);
    (0..kind.figure_count()).map(|_| figure(random, kind, wild)).collect()
}

/// A figure that does not fit its kind, or lies at the edge of what a script may say.
pub fn unfit_figure(random: &mut Random, kind: Kind) -> i64 {
    let (least, most) = kind.figure_range();
    random.pick(&[most as i64 + 1, least as i64 - 1, i64::MAX, i64::MIN, 999_999_999_999_999_999, -4_294_967_296])
}

/// Exponents within their fields.
pub fn exponents(random: &mut Random, taste: &Taste, format: &Format) -> Vec<u32> {
    let mut result = Vec::new();
    for variable in 0..format.count() {
        let greatest = format.greatest(variable);
        let reach = taste.reach[variable];
        let usual = random.between(0, i64::from(reach)) as u32;
        let edge = random.pick(&[greatest, greatest / 2, greatest / 2 + 1, greatest.saturating_sub(1)]);
        result.push(random.weighted(&[(25, usual), (30, 0), (20, usual.min(1)), (1, edge)]).min(greatest));
    }
    result
}

/// Terms in any order, some with the same exponents, none with a zero coefficient.
pub fn terms(random: &mut Random, kind: Kind, format: &Format, taste: &Taste, count: usize) -> Vec<Term> {
    let mut result: Vec<Term> = Vec::new();
    while result.len() < count {
        let mut figures = figures(random, kind, taste.wild);
        if figures.iter().all(|figure| *figure == 0) {
            figures[0] = 1;
        }
        let mut exponents = exponents(random, taste, format);
        if !result.is_empty() && random.percent(8) {
            // The same exponents again, at times so that the two cancel.
            let earlier = random.pick(&result);
            exponents = earlier.exponents;
            if random.percent(40) {
                figures = earlier.figures.iter().map(|figure| opposite(kind, *figure)).collect();
            }
        }
        result.push(Term { figures, exponents });
    }
    result
}

/// The figure of the negative.
fn opposite(kind: Kind, figure: i64) -> i64 {
    match kind {
        Kind::Integers | Kind::Pairs => -figure,
        Kind::Residues => (257 - figure) % 257,
        Kind::Words => ((1 << 32) - figure) % (1 << 32),
    }
}
