//! Random calls on the open sheet.

use super::decks;
use super::mistakes;
use super::terms;
use super::Writer;

#[derive(Clone, Copy)]
enum Call {
    Fill,
    ReadDamaged,
    ReadAnything,
    Constant,
    Variable,
    Copy,
    Negate,
    Add,
    Subtract,
    Multiply,
    Divide,
    Differentiate,
    Substitute,
    Truncate,
    MultiplyTruncate,
    Write,
    Equal,
    Leading,
    Prepared,
    Mistake,
    Comment,
}

const CALLS: [(u32, Call); 21] = [
    (10, Call::Fill),
    (8, Call::ReadDamaged),
    (8, Call::ReadAnything),
    (5, Call::Constant),
    (5, Call::Variable),
    (3, Call::Copy),
    (4, Call::Negate),
    (8, Call::Add),
    (8, Call::Subtract),
    (10, Call::Multiply),
    (6, Call::Divide),
    (7, Call::Differentiate),
    (8, Call::Substitute),
    (6, Call::Truncate),
    (8, Call::MultiplyTruncate),
    (5, Call::Write),
    (4, Call::Equal),
    (4, Call::Leading),
    (8, Call::Prepared),
    (3, Call::Mistake),
    (1, Call::Comment),
];

impl Writer {
    /// One call, or a few that belong together.
    pub(super) fn some_call(&mut self) {
        let filled = (0..8).filter(|place| self.rows(*place) > 0).count();
        if filled < 3 && self.room() > 0 && self.random.percent(60) {
            self.fill();
            return;
        }
        match self.random.weighted(&CALLS) {
            Call::Fill => self.fill(),
            Call::ReadDamaged => self.read_damaged(),
            Call::ReadAnything => self.read_anything(),
            Call::Constant => self.constant(),
            Call::Variable => {
                let r = self.result(&[]);
                let v = self.variable_number(&[r]);
                self.change(r, &format!("variable {r} {v}"));
            }
            Call::Copy | Call::Negate => {
                let name = self.random.pick(&["copy", "negate", "negate"]);
                let p = self.operand();
                let r = self.result(&[p]);
                self.change(r, &format!("{name} {r} {p}"));
            }
            Call::Add => self.sum("add"),
            Call::Subtract => self.sum("subtract"),
            Call::Multiply => self.multiply(),
            Call::Divide => {
                let (p, q) = (self.operand(), self.operand());
                let r = self.result(&[p, q]);
                self.divide(r, p, q);
            }
            Call::Differentiate => {
                let p = self.operand();
                let r = self.result(&[p]);
                let v = self.variable_number(&[p, r]);
                self.change(r, &format!("differentiate {r} {p} {v}"));
            }
            Call::Substitute => self.substitute(),
            Call::Truncate => {
                let p = self.operand();
                let r = self.result(&[p]);
                let (k, n) = self.limits(&[p], r);
                self.change(r, &format!("truncate {r} {p} {k} {n}"));
            }
            Call::MultiplyTruncate => {
                let (p, q) = (self.operand(), self.operand());
                let r = self.result(&[p, q]);
                let (k, n) = self.limits(&[p, q], r);
                if self.product_is_small(p, q) {
                    self.change(r, &format!("multiply-truncate {r} {p} {q} {k} {n}"));
                }
            }
            Call::Write => self.write(),
            Call::Equal => {
                let (p, q) = (self.operand(), self.operand());
                if self.random.percent(30) {
                    self.line(&format!("copy {} {p}", p.wrapping_add(1) % 8));
                    self.line(&format!("equal {p} {}", p.wrapping_add(1) % 8));
                } else {
                    self.line(&format!("equal {p} {q}"));
                }
            }
            Call::Leading => {
                let p = self.operand();
                self.line(&format!("leading {p}"));
            }
            Call::Prepared => self.prepared(),
            Call::Mistake => self.mistake(),
            Call::Comment => {
                let text = mistakes::comment(&mut self.random);
                self.put(text.as_bytes());
            }
        }
    }

    /// A call that may change a place; often the place is written right after it.
    pub(super) fn change(&mut self, place: u32, line: &str) -> bool {
        let accepted = self.line(line);
        if self.random.percent(if accepted { 35 } else { 10 }) && self.rows(place) <= 60 {
            self.line(&format!("write {place}"));
        }
        accepted
    }

    fn bad_place(&mut self) -> u32 {
        self.random.pick(&[8, 8, 9, 9, 10, 255, 256, 65_536, u32::MAX])
    }

    /// A place to work on, mostly one that holds something.
    pub(super) fn operand(&mut self) -> u32 {
        if self.random.percent(2) {
            return self.bad_place();
        }
        let filled: Vec<u32> = (0..8).filter(|place| self.rows(*place) > 0).collect();
        if !filled.is_empty() && self.random.percent(90) {
            return self.random.pick(&filled);
        }
        self.random.below(8) as u32
    }

    /// A place for a result, at times an operand's, mostly one that holds little.
    pub(super) fn result(&mut self, operands: &[u32]) -> u32 {
        if self.random.percent(2) {
            return self.bad_place();
        }
        if !operands.is_empty() && self.random.percent(15) {
            return self.random.pick(operands);
        }
        let light: Vec<u32> = (0..8).filter(|place| self.rows(*place) < 2).collect();
        if !light.is_empty() && self.random.percent(60) {
            return self.random.pick(&light);
        }
        self.random.below(8) as u32
    }

    /// How many words of a hundred are bad beside these places: more where one of the places is bad as well, so that
    /// it is seen which is tested first.
    fn share_of_bad(places: &[u32]) -> u64 {
        if places.iter().any(|place| *place > 7) { 40 } else { 5 }
    }

    /// A variable number, mostly of one that stands in the call's places.
    fn variable_number(&mut self, places: &[u32]) -> u32 {
        let count = self.format().count() as u32;
        if self.random.percent(Self::share_of_bad(places)) {
            return self.random.pick(&[count, count + 1, 8, 9, u32::MAX]).max(count);
        }
        let mut used = Vec::new();
        for place in places.iter().take(1) {
            for (exponents, _) in self.at(*place).falling() {
                used.extend((0..count).filter(|variable| exponents[*variable as usize] > 0));
            }
        }
        if !used.is_empty() && self.random.percent(80) {
            return self.random.pick(&used);
        }
        self.random.below(count as usize) as u32
    }

    /// k and n of a truncation, n mostly about the sums that occur.
    fn limits(&mut self, operands: &[u32], result: u32) -> (u32, u32) {
        let count = self.format().count() as u32;
        if self.random.percent(Self::share_of_bad(&[operands, &[result]].concat())) {
            return (self.random.pick(&[count + 1, count + 2, 9, u32::MAX]).max(count + 1), 3);
        }
        let k = self.random.below(count as usize + 1) as u32;
        if self.random.percent(8) {
            return (k, self.random.pick(&[0, 65_535, u32::MAX]));
        }
        let mut most = 0;
        for place in operands {
            let sum_of = |exponents: &Vec<u32>| exponents[..k as usize].iter().sum::<u32>();
            most += self.at(*place).falling().map(|(exponents, _)| sum_of(exponents)).max().unwrap_or(0);
        }
        (k, self.random.between(0, i64::from(most) + 1) as u32)
    }

    /// A deck of terms that fit.
    fn good_deck(&mut self) -> Vec<u8> {
        let (kind, format, room) = (self.kind(), self.format(), self.room());
        let count = match self.random.below(20) {
            0 => 0,
            1 => room.min(40) + 1,
            2 => room.min(40),
            3 => 5 + self.random.below(25),
            _ => 1 + self.random.below(room.clamp(1, 5)),
        };
        let terms = terms::terms(&mut self.random, kind, &format, &self.taste, count);
        decks::well_formed(&mut self.random, &terms, kind)
    }

    /// Reads a good deck.
    fn fill(&mut self) {
        let deck = self.good_deck();
        let r = self.result(&[]);
        if self.read(r, &deck) && self.random.percent(30) {
            self.line(&format!("write {r}"));
        }
    }

    fn read_damaged(&mut self) {
        let good = self.good_deck();
        let deck = decks::damaged(&mut self.random, good);
        let r = self.result(&[]);
        if self.read(r, &deck) {
            self.line(&format!("write {r}"));
        }
    }

    fn read_anything(&mut self) {
        let deck = match self.random.below(4) {
            0 => decks::random_bytes(&mut self.random),
            1 => decks::at_the_edge(&mut self.random),
            2 => self.deck_of_split_figures(),
            _ => decks::tricky(&mut self.random),
        };
        let r = self.result(&[]);
        if self.read(r, &deck) && self.rows(r) > 0 {
            self.line(&format!("write {r}"));
        }
    }

    /// A deck in which a coefficient's first figure is understood at the end of the card before.
    fn deck_of_split_figures(&mut self) -> Vec<u8> {
        let (kind, format) = (self.kind(), self.format());
        let count = 1 + self.random.below(self.room().min(5) + 1);
        let mut terms = terms::terms(&mut self.random, kind, &format, &self.taste, count);
        for term in &mut terms {
            let (least, most) = kind.figure_range();
            let last = term.figures.len() - 1;
            match self.random.below(12) {
                0 => term.figures[last] = terms::unfit_figure(&mut self.random, kind) % 1_000_000_000_000_000_000,
                1..=3 => term.figures[last] = self.random.pick(&[most as i64, least as i64]),
                _ => {}
            }
            if self.random.percent(70) {
                term.figures[0] *= 1 - last as i64;
            }
            if term.figures.iter().all(|figure| *figure == 0) {
                term.figures[last] = 1;
            }
        }
        decks::split_figures(&mut self.random, &terms)
    }

    /// Any deck at all.
    pub(super) fn some_deck(&mut self) -> Vec<u8> {
        match self.random.below(4) {
            0 => self.good_deck(),
            1 => {
                let good = self.good_deck();
                decks::damaged(&mut self.random, good)
            }
            2 => decks::random_bytes(&mut self.random),
            _ => decks::tricky(&mut self.random),
        }
    }

    fn constant(&mut self) {
        let kind = self.kind();
        let wild = if self.random.percent(30) { 100 } else { self.taste.wild };
        let mut figures = terms::figures(&mut self.random, kind, wild);
        let r = self.result(&[]);
        if self.random.percent(Self::share_of_bad(&[r]) + 7) {
            let at = self.random.below(figures.len());
            figures[at] = terms::unfit_figure(&mut self.random, kind);
        }
        if figures.len() == 1 && self.random.percent(20) {
            figures.push(self.random.pick(&[0, 0, 1, -1]));
        }
        if figures.len() == 2 && self.random.percent(20) {
            figures.pop();
        }
        let words: Vec<String> = figures.iter().map(|figure| figure.to_string()).collect();
        self.change(r, &format!("constant {r} {}", words.join(" ")));
    }

    fn sum(&mut self, name: &str) {
        let p = self.operand();
        let q = if self.random.percent(10) { p } else { self.operand() };
        let r = self.result(&[p, q]);
        self.change(r, &format!("{name} {r} {p} {q}"));
    }

    pub(super) fn product_is_small(&self, p: u32, q: u32) -> bool {
        self.rows(p) * self.rows(q) <= 3000
    }

    /// A product, and often its quotient by a factor.
    fn multiply(&mut self) {
        let p = self.operand();
        let q = if self.random.percent(10) { p } else { self.operand() };
        let r = self.result(&[p, q]);
        if !self.product_is_small(p, q) {
            return;
        }
        if self.change(r, &format!("multiply {r} {p} {q}")) && r != q && self.random.percent(50) {
            let divisor = if r != p && self.random.percent(50) { p } else { q };
            let to = self.result(&[r, divisor]);
            self.divide(to, r, divisor);
        }
    }

    /// A quotient. On a sheet of words, where it is a mistake, it is mostly left out.
    pub(super) fn divide(&mut self, r: u32, p: u32, q: u32) {
        if self.rows(q) <= 200 && (self.kind().divides() || self.random.percent(8)) {
            self.change(r, &format!("divide {r} {p} {q}"));
        }
    }

    fn substitute(&mut self) {
        let p = self.operand();
        let q = if self.random.percent(10) { p } else { self.operand() };
        let r = self.result(&[p, q]);
        let v = self.variable_number(&[p, q, r]);
        if self.substitution_is_small(p, q, v) {
            self.change(r, &format!("substitute {r} {p} {q} {v}"));
        }
    }

    /// Whether putting q for v in p is worked in no time.
    fn substitution_is_small(&self, p: u32, q: u32, v: u32) -> bool {
        if v as usize >= self.format().count() {
            return true;
        }
        let exponents: Vec<u32> = self.at(p).falling().map(|(exponents, _)| exponents[v as usize]).collect();
        let greatest = exponents.iter().copied().max().unwrap_or(0);
        let total: u32 = exponents.iter().sum();
        if self.rows(q) < 2 || self.room() <= 20 {
            total <= 3000
        } else {
            greatest <= 6 && total <= 20 && self.rows(q) <= 30
        }
    }

    /// Writes a place, with a room about the deck's length or with none.
    fn write(&mut self) {
        let p = self.operand();
        let length = match self.session.sheet() {
            Some(sheet) if p < 8 => sheet.write(p, None).map_or(0, |deck| deck.len() as u64),
            _ => 0,
        };
        let room = self.random.pick(&[length, length, length.saturating_sub(1), length + 1, 0, 1, 20, u64::MAX]);
        if self.random.percent(30) {
            self.line(&format!("write {p}"));
        } else {
            self.line(&format!("write {p} {room}"));
        }
    }

    fn mistake(&mut self) {
        if !self.random.percent(15) {
            let line = mistakes::line(&mut self.random);
            if self.is_wanted(&line) || self.random.percent(20) {
                let dressed = mistakes::dressed(&mut self.random, &line);
                self.put(dressed.as_bytes());
            }
            return;
        }
        let (line, cards_follow) = mistakes::read_line(&mut self.random);
        if !self.is_wanted(&line) {
            return;
        }
        let cards = if cards_follow { self.random.pick(&[".\n", "1 2\n0\n.\n", "leading 0\n.\n"]) } else { "" };
        self.put(format!("{line}\n{cards}").as_bytes());
    }
}
