//! Short scenes that random calls seldom come upon.

use super::decks;
use super::terms::{self, Term};
use super::Writer;
use crate::kind::Kind;

impl Writer {
    pub(super) fn prepared(&mut self) {
        let divides = self.kind().divides();
        match self.random.below(52) {
            0..=3 if divides => self.telescope(),
            4..=8 if divides => self.long_and_large_quotient(),
            9..=11 if divides => self.large_quotients(),
            12..=14 if divides => self.high_quotients(),
            15..=17 if divides => self.growing_remainder(),
            18..=21 if divides => self.nearly_exact(),
            22..=24 if divides => self.coefficients_alone(),
            25..=28 => self.large_sums(),
            29..=31 => self.by_a_monomial(),
            32..=34 => self.two_groupings(),
            35..=36 => self.long_sum(),
            37..=39 => self.long_and_large_sum(),
            40..=42 => self.high_substitution(),
            43..=45 => self.crowded_substitution(),
            46 => self.cube(),
            47..=50 => self.large_products(),
            _ => self.full_place(),
        }
    }

    /// Exponents that are zero but for one variable.
    fn power(&self, variable: usize, exponent: u32) -> Vec<u32> {
        let format = self.format();
        let mut exponents = vec![0; format.count()];
        exponents[variable] = exponent.min(format.greatest(variable));
        exponents
    }

    /// A term with a coefficient of one figure, taken into the kind's range.
    fn term(&self, figure: i64, exponents: Vec<u32>) -> Term {
        let mut figures = vec![0; self.kind().figure_count()];
        figures[0] = match self.kind() {
            Kind::Integers | Kind::Pairs => figure,
            Kind::Residues => figure.rem_euclid(257),
            Kind::Words => figure.rem_euclid(1 << 32),
        };
        Term { figures, exponents }
    }

    fn read_terms(&mut self, place: u32, terms: &[Term]) -> bool {
        let kind = self.kind();
        let deck = decks::well_formed(&mut self.random, terms, kind);
        self.read(place, &deck)
    }

    /// Three different places, and two different variables if there are two.
    fn cast(&mut self) -> ([u32; 3], [usize; 2]) {
        let first = self.random.below(8) as u32;
        let count = self.format().count();
        let variable = self.random.below(count);
        ([first, (first + 1) % 8, (first + 2) % 8], [variable, (variable + 1) % count])
    }

    /// The greatest figure of the kind.
    fn limit(&self) -> i64 {
        self.kind().figure_range().1 as i64
    }

    /// X^n - Y^n by X - Y, or X^n - 1 by X - 1: the quotient is longer than what it is made from.
    fn telescope(&mut self) {
        let ([p, q, r], [x, y]) = self.cast();
        let n = self.random.pick(&[2, 3, 4, 5, 7, 12]);
        let (high, low) = if x == y || self.random.percent(40) {
            (self.power(x, 0), self.power(x, 0))
        } else {
            (self.power(y, n), self.power(y, 1))
        };
        let sign = self.random.pick(&[-1, -1, 1]);
        let dividend = [self.term(1, self.power(x, n)), self.term(sign, high)];
        let divisor = [self.term(1, self.power(x, 1)), self.term(-1, low)];
        self.read_terms(p, &dividend);
        self.read_terms(q, &divisor);
        self.divide(r, p, q);
    }

    /// X^n - Y^n by X - a Y^m, so that the step whose row is too many for the quotient also has a product that does not
    /// fit, or an exponent above its field.
    fn long_and_large_quotient(&mut self) {
        let ([p, q, r], [x, y]) = self.cast();
        let room = self.room() as u32;
        let (x, y) = (x.min(y), x.max(y));
        if x == y || !(2..=8).contains(&room) {
            return;
        }
        let n = room + 1 + self.random.below(2) as u32;
        let greatest = self.format().greatest(y);
        let m = if self.random.percent(50) { 1 } else { (greatest / room).max(1) };
        // The greatest a whose power with exponent `room` fits; the next power does not.
        let limit = i128::from(self.limit());
        let root = (1..100_000i64).take_while(|a| i128::from(*a).pow(room) <= limit).last().unwrap_or(1);
        let a = if self.random.percent(60) { root } else { 1 };
        let dividend = [self.term(1, self.power(x, n)), self.term(-1, self.power(y, n))];
        let divisor = [self.term(1, self.power(x, 1)), self.term(-a, self.power(y, m))];
        self.read_terms(p, &dividend);
        self.read_terms(q, &divisor);
        self.divide(r, p, q);
    }

    /// One term by a constant: all depends on dividing the coefficients.
    fn coefficients_alone(&mut self) {
        let ([p, q, r], [x, _]) = self.cast();
        let kind = self.kind();
        let e = self.random.below(2) as u32;
        for (place, exponent) in [(p, e), (q, 0)] {
            let figures = terms::figures(&mut self.random, kind, 5);
            let term = Term { figures, exponents: self.power(x, exponent) };
            if term.figures.iter().any(|figure| *figure != 0) {
                self.read_terms(place, &[term]);
            }
        }
        self.divide(r, p, q);
        if self.product_is_small(p, q) && self.line(&format!("multiply {p} {p} {q}")) {
            self.divide(r, p, q);
        }
    }

    /// Divisions whose products or remainders do not fit.
    fn large_quotients(&mut self) {
        let ([p, q, r], [x, _]) = self.cast();
        let large = self.limit() - self.random.between(0, 3);
        let small = self.random.between(1, 9);
        let mut dividend = vec![self.term(1, self.power(x, 2))];
        let divisor = if self.random.percent(50) {
            vec![self.term(1, self.power(x, 1)), self.term(large, self.power(x, 0))]
        } else {
            dividend.push(self.term(large, self.power(x, 1)));
            vec![self.term(1, self.power(x, 1)), self.term(-small, self.power(x, 0))]
        };
        self.read_terms(p, &dividend);
        self.read_terms(q, &divisor);
        self.divide(r, p, q);
    }

    /// X Y^m by X + Y^m, m about the greatest exponent.
    fn high_quotients(&mut self) {
        let ([p, q, r], [x, y]) = self.cast();
        let m = self.format().greatest(y);
        let mut both = self.power(x, 1);
        both[y] = m;
        let dividend = [self.term(1, both)];
        let divisor = [self.term(1, self.power(x, 1)), self.term(1, self.power(y, m / 2 + 1))];
        self.read_terms(p, &dividend);
        self.read_terms(q, &divisor);
        self.divide(r, p, q);
    }

    /// A dividend that fills its place and a divisor of several rows, so that the remainder gets too long.
    fn growing_remainder(&mut self) {
        let ([p, q, r], [x, y]) = self.cast();
        let count = self.room().min(12) as u32;
        let mut dividend = vec![self.term(1, self.power(x, 2))];
        let mut divisor = vec![self.term(1, self.power(x, 1))];
        for exponent in 0..count.saturating_sub(1) {
            if exponent <= self.format().greatest(y) {
                dividend.push(self.term(3, self.power(y, exponent)));
                divisor.push(self.term(2, self.power(y, exponent)));
            }
        }
        divisor.truncate(2 + self.random.below(3));
        self.read_terms(p, &dividend);
        self.read_terms(q, &divisor);
        self.divide(r, p, q);
    }

    /// A product with one term more, by a factor: several steps, then no quotient.
    fn nearly_exact(&mut self) {
        let ([r, s, _], [x, _]) = self.cast();
        let (p, q) = (self.operand(), self.operand());
        if p == r || p == s || q == r || q == s || !self.product_is_small(p, q) {
            return;
        }
        if self.line(&format!("multiply {r} {p} {q}")) {
            let line = self.random.pick(&[format!("variable {s} {x}"), format!("constant {s} 1")]);
            self.line(&line);
            self.line(&format!("add {r} {r} {s}"));
            self.divide(s, r, q);
        }
    }

    /// Coefficients at their limit that meet in the sum of a product or of a substitution.
    fn large_sums(&mut self) {
        let ([p, q, r], [x, _]) = self.cast();
        let large = self.limit() - self.random.between(0, 2);
        let near = self.random.pick(&[large, large, -large, 1, 2, 3]);
        let first = [self.term(large, self.power(x, 1)), self.term(near, self.power(x, 0))];
        let one = {
            let sign = self.random.pick(&[1, 1, -1]);
            self.term(sign, self.power(x, 0))
        };
        let second = if self.random.percent(50) { vec![one] } else { vec![self.term(1, self.power(x, 1)), one] };
        self.read_terms(p, &first);
        self.read_terms(q, &second);
        let line = match self.random.below(3) {
            0 => format!("multiply {r} {p} {q}"),
            1 => format!("multiply-truncate {r} {p} {q} 0 0"),
            _ => format!("substitute {r} {p} {q} {x}"),
        };
        self.change(r, &line);
    }

    /// A division by one term, which works only if every term has it.
    fn by_a_monomial(&mut self) {
        let p = self.operand();
        let q = p.wrapping_add(1) % 8;
        let (kind, format) = (self.kind(), self.format());
        let mut divisor = terms::terms(&mut self.random, kind, &format, &self.taste, 1);
        if self.random.percent(60) {
            divisor[0].exponents = vec![0; format.count()];
        }
        if self.read_terms(q, &divisor) {
            let r = self.result(&[p, q]);
            if self.random.percent(60) && self.product_is_small(p, q) {
                self.change(r, &format!("multiply {r} {p} {q}"));
                self.divide(r, r, q);
            } else {
                self.divide(r, p, q);
            }
        }
    }

    /// The same polynomial by two ways, and whether the places are equal.
    fn two_groupings(&mut self) {
        let ([r, s, t], _) = self.cast();
        let (p, q) = (self.operand(), self.operand());
        if !self.product_is_small(p, q) {
            return;
        }
        if self.random.percent(50) {
            self.line(&format!("multiply {r} {p} {q}"));
            self.line(&format!("multiply {s} {q} {p}"));
        } else {
            self.line(&format!("subtract {r} {p} {q}"));
            self.line(&format!("negate {t} {q}"));
            self.line(&format!("add {s} {p} {t}"));
        }
        self.line(&format!("equal {r} {s}"));
    }

    /// Two tables that fill a place, and their sum, which may be too long.
    fn long_sum(&mut self) {
        let ([p, q, r], _) = self.cast();
        let (kind, format, count) = (self.kind(), self.format(), self.room().min(20));
        for place in [p, q] {
            let terms = terms::terms(&mut self.random, kind, &format, &self.taste, count);
            self.read_terms(place, &terms);
        }
        let name = self.random.pick(&["add", "subtract", "multiply"]);
        self.change(r, &format!("{name} {r} {p} {q}"));
    }

    /// A sum that is too long and has, at its end, a coefficient that does not fit.
    fn long_and_large_sum(&mut self) {
        let ([p, q, r], [x, y]) = self.cast();
        let count = self.room().min(8) as u32;
        let large = self.limit() - self.random.between(0, 2);
        let sign = self.random.pick(&[1, 1, -1]);
        for (place, variable, figure) in [(p, x, large), (q, y, sign * large)] {
            let mut list = vec![self.term(figure, self.power(x, 0))];
            for exponent in 1..count {
                if exponent <= self.format().greatest(variable) {
                    list.push(self.term(1, self.power(variable, exponent)));
                }
            }
            self.read_terms(place, &list);
        }
        let name = self.random.pick(&["add", "add", "subtract"]);
        self.change(r, &format!("{name} {r} {p} {q}"));
    }

    /// The cube of a X Y^2 + Y^b: as the square is multiplied by the first term, an exponent fails at the last pair and a
    /// coefficient at the first. Were the square taken as the second factor, the coefficient would fail before.
    fn cube(&mut self) {
        let ([p, q, r], [x, y]) = self.cast();
        let (x, y) = (x.min(y), x.max(y));
        let greatest = self.format().greatest(y);
        if x == y || greatest < 15 {
            return;
        }
        let a = if self.kind() == Kind::Integers { 11_585 } else { 32_767 } - self.random.between(0, 2);
        let mut both = self.power(x, 1);
        both[y] = 2;
        let first = [self.term(1, self.power(x, 3))];
        let second = [self.term(a, both), self.term(1, self.power(y, (greatest - 1) / 2))];
        self.read_terms(p, &first);
        self.read_terms(q, &second);
        self.change(r, &format!("substitute {r} {p} {q} {x}"));
    }

    /// A third or fourth power of a few terms in which coefficients, exponents and rows all come near their limits.
    fn crowded_substitution(&mut self) {
        let ([p, q, r], [x, y]) = self.cast();
        let e = 2 + self.random.below(3) as u32;
        let mut shift = self.power(x, e);
        if x != y {
            shift[y] = self.random.below(2) as u32;
        }
        let mut first = vec![self.term(self.limit() % 7 + 1, shift)];
        if self.random.percent(40) {
            first.push(self.term(2, self.power(x, 1)));
        }
        let root = (1..40_000i64).take_while(|a| a.pow(e) <= self.limit()).last().unwrap_or(1);
        let mut second = Vec::new();
        for _ in 0..2 + self.random.below(2) {
            let figure = self.random.pick(&[1, 1, -1, 2, root / 3, root / 2, root, -root]);
            let mut exponents = vec![0; self.format().count()];
            for variable in [x, y] {
                let greatest = self.format().greatest(variable);
                exponents[variable] = self.random.pick(&[0, 0, 1, greatest / e, greatest / e + 1]).min(greatest);
            }
            second.push(self.term(figure, exponents));
        }
        second.retain(|term| term.figures.iter().any(|figure| *figure != 0));
        self.read_terms(p, &first);
        self.read_terms(q, &second);
        self.change(r, &format!("substitute {r} {p} {q} {x}"));
    }

    /// A product that just fills a place, or is a few rows too long for it.
    fn full_place(&mut self) {
        let ([p, q, r], [x, y]) = self.cast();
        let side = self.room().isqrt() as u32;
        let more = self.random.pick(&[0, 0, 1]);
        let format = self.format();
        if x == y || side < 2 || side + 1 > format.greatest(x).min(format.greatest(y)) {
            return;
        }
        let along = |variable: usize, count: u32| -> Vec<Term> {
            (0..count).map(|exponent| self.term(1, self.power(variable, exponent))).collect()
        };
        let (first, second) = (along(x, side), along(y, side + more));
        self.read_terms(p, &first);
        self.read_terms(q, &second);
        self.line(&format!("multiply {r} {p} {q}"));
        self.divide(q, r, p);
        let wide = self.room() > 200;
        self.line(&format!("variable {p} {x}"));
        self.line(&format!("add {p} {p} {r}"));
        self.line(&format!("subtract {p} {r} {q}"));
        if wide {
            // A place of thousands of rows is shown once and taken away.
            self.line(&format!("write {r}"));
            self.line(&format!("truncate {r} {r} 1 0"));
            self.line(&format!("copy {p} {q}"));
        }
    }

    /// A high power of a variable, with a single term put for it.
    fn high_substitution(&mut self) {
        let ([p, q, r], [x, y]) = self.cast();
        let e = self.random.pick(&[1, 2, 3, 7, 15, 100, 300]).min(self.format().greatest(x));
        let exponents = self.random.pick(&[self.power(y, 1), self.power(x, 0), self.power(x, 1), self.power(y, 2)]);
        let figure = self.random.pick(&[1, -1, 2, 3, 65_536]);
        self.read_terms(p, &[self.term(1, self.power(x, e)), self.term(5, self.power(x, 0))]);
        self.read_terms(q, &[self.term(figure, exponents)]);
        self.change(r, &format!("substitute {r} {p} {q} {x}"));
    }

    /// A product, truncated or not, in which exponents and coefficients go over their limits at several rows.
    fn large_products(&mut self) {
        let ([p, q, r], [x, y]) = self.cast();
        let root = self.random.pick(&[11_585, 11_586, 32_767, 32_768, 65_536]);
        let root = root.min(self.limit());
        let (far_x, far_y) = (self.format().greatest(x) / 2, self.format().greatest(y) / 2 + 1);
        if x != y && self.random.percent(50) {
            // At one row of the second, a coefficient fails at an earlier pair and an exponent at a later one.
            let (x, y) = (x.min(y), x.max(y));
            let first = [self.term(root, self.power(x, 1)), self.term(1, self.power(y, u32::MAX))];
            let mut second = vec![self.term(root, self.power(y, 1))];
            if self.random.percent(40) {
                second.push(self.term(1, self.power(x, 1)));
            }
            self.read_terms(p, &first);
            self.read_terms(q, &second);
            let name = self.random.pick(&["multiply", "multiply", "multiply-truncate"]);
            let tail = if name == "multiply" { "" } else { " 0 0" };
            self.change(r, &format!("{name} {r} {p} {q}{tail}"));
            return;
        }
        let places = [(p, far_x), (q, far_y)];
        for (place, far) in places {
            let mut list = vec![self.term(root, self.power(x, far)), self.term(root, self.power(y, 1))];
            if self.random.percent(50) {
                list.push(self.term(1, self.power(y, far_y)));
            }
            if self.random.percent(50) {
                list.push(self.term(2, self.power(x, 0)));
            }
            self.read_terms(place, &list);
        }
        if self.random.percent(50) {
            self.change(r, &format!("multiply {r} {p} {q}"));
        } else {
            let k = self.random.below(self.format().count() + 1);
            let n = self.random.pick(&[0, 1, far_x, far_y, far_x + far_y]);
            self.change(r, &format!("multiply-truncate {r} {p} {q} {k} {n}"));
        }
    }
}
