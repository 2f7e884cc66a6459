//! Reading a deck of cards.
//!
//! The bytes are worked once, from the left; the first refusal stands. A card ends at byte 10 or with the text, and only
//! its first 72 bytes count: a number that reaches the 72nd ends there, and what stands further right means nothing.

use crate::kind::{Coefficient, ZERO};
use crate::polynomial::{Exponents, Polynomial};
use crate::refusal::{Refusal, BYTE, DIGITS, EXPONENT, TEXT_ENDS};
use crate::setting::Setting;

/// A refusal and the byte that it reports.
#[derive(Clone, Copy, PartialEq, Eq, Debug)]
pub struct Fault {
    pub refusal: Refusal,
    pub byte: usize,
}

/// Whether a zero coefficient has ended the deck.
#[derive(Clone, Copy, PartialEq, Eq)]
enum Deck {
    Ended,
    GoesOn,
}

/// How many bytes of a card count.
const COLUMNS: usize = 72;
/// How many digits a number may have, leading zeros among them.
const MOST_DIGITS: usize = 18;

/// The sum of the deck's terms, and the count of bytes through the card that ends it.
pub fn read(text: &[u8], setting: &Setting) -> Result<(Polynomial, usize), Fault> {
    let mut terms = Terms::new(setting);
    let mut start = 0;
    loop {
        let line_end = text[start..].iter().position(|byte| *byte == 10).map(|length| start + length);
        let end = line_end.unwrap_or(text.len());
        let card = &text[start..end.min(start + COLUMNS)];
        if read_card(card, start, &mut terms)? == Deck::Ended {
            let through = if line_end.is_some() { end + 1 } else { end };
            return Ok((terms.sum, through));
        }
        if line_end.is_none() {
            return Err(Fault { refusal: TEXT_ENDS, byte: text.len() });
        }
        start = end + 1;
    }
}

/// Reads the bytes of a card that count; `start` is the byte of the text at which the card begins.
fn read_card(card: &[u8], start: usize, terms: &mut Terms) -> Result<Deck, Fault> {
    let mut column = 0;
    // Whether a number stands between the last comma, or the card's start, and here.
    let mut number_stands = false;
    let mut last_comma = None;
    while column < card.len() {
        match card[column] {
            b' ' => column += 1,
            b',' => {
                let comma = start + column;
                if !number_stands && terms.take(0, comma)? == Deck::Ended {
                    return Ok(Deck::Ended);
                }
                last_comma = Some(comma);
                number_stands = false;
                column += 1;
            }
            b'-' | b'0'..=b'9' => {
                let (number, after) = read_number(card, start, column)?;
                if terms.take(number, start + column)? == Deck::Ended {
                    return Ok(Deck::Ended);
                }
                number_stands = true;
                column = after;
            }
            _ => return Err(Fault { refusal: BYTE, byte: start + column }),
        }
    }
    match last_comma {
        Some(comma) if !number_stands => terms.take(0, comma),
        _ => Ok(Deck::GoesOn),
    }
}

/// The number that begins at a column, and the column after it. It has to end at a blank, a comma or the card's end.
fn read_number(card: &[u8], start: usize, first: usize) -> Result<(i128, usize), Fault> {
    let is_digit = |column: usize| card.get(column).is_some_and(|byte| byte.is_ascii_digit());
    let negative = card[first] == b'-';
    let digits_from = if negative { first + 1 } else { first };
    if !is_digit(digits_from) {
        // Only a minus gets here: no digit stands directly after it.
        return Err(Fault { refusal: BYTE, byte: start + first });
    }
    let mut magnitude: i128 = 0;
    let mut column = digits_from;
    while is_digit(column) {
        if column - digits_from == MOST_DIGITS {
            return Err(Fault { refusal: DIGITS, byte: start + first });
        }
        magnitude = magnitude * 10 + i128::from(card[column] - b'0');
        column += 1;
    }
    match card.get(column) {
        None | Some(b' ') | Some(b',') => Ok((if negative { -magnitude } else { magnitude }, column)),
        Some(_) => Err(Fault { refusal: BYTE, byte: start + column }),
    }
}

/// What the numbers so far have given: whole terms in the sum, and the term that is being read.
struct Terms<'a> {
    setting: &'a Setting,
    sum: Polynomial,
    /// The first byte of the term.
    first_byte: usize,
    figures: Vec<i128>,
    /// The coefficient, once its last figure has ended.
    coefficient: Option<Coefficient>,
    exponents: Exponents,
}

impl<'a> Terms<'a> {
    fn new(setting: &'a Setting) -> Terms<'a> {
        Terms {
            setting,
            sum: Polynomial::zero(),
            first_byte: 0,
            figures: Vec::new(),
            coefficient: None,
            exponents: Vec::new(),
        }
    }

    /// Takes the next number of the deck; `byte` is its first byte, or the comma of an understood zero.
    fn take(&mut self, number: i128, byte: usize) -> Result<Deck, Fault> {
        match self.coefficient {
            None => self.take_figure(number, byte),
            Some(coefficient) => {
                self.take_exponent(number, byte, coefficient)?;
                Ok(Deck::GoesOn)
            }
        }
    }

    fn take_figure(&mut self, number: i128, byte: usize) -> Result<Deck, Fault> {
        if self.figures.is_empty() {
            self.first_byte = byte;
        }
        self.figures.push(number);
        if self.figures.len() < self.setting.kind.figure_count() {
            return Ok(Deck::GoesOn);
        }
        let second = self.figures.get(1).copied().unwrap_or(0);
        let made = self.setting.kind.from_figures(self.figures[0], second);
        let coefficient = made.map_err(|refusal| self.at_term(refusal))?;
        if coefficient == ZERO {
            return Ok(Deck::Ended);
        }
        self.coefficient = Some(coefficient);
        Ok(Deck::GoesOn)
    }

    fn take_exponent(&mut self, number: i128, byte: usize, coefficient: Coefficient) -> Result<(), Fault> {
        let greatest = self.setting.format.greatest(self.exponents.len());
        match u32::try_from(number) {
            Ok(exponent) if exponent <= greatest => self.exponents.push(exponent),
            _ => return Err(Fault { refusal: EXPONENT, byte }),
        }
        if self.exponents.len() == self.setting.format.count() {
            let term = Polynomial::term(std::mem::take(&mut self.exponents), coefficient);
            self.sum.gain(&term, self.setting).map_err(|refusal| self.at_term(refusal))?;
            self.figures.clear();
            self.coefficient = None;
        }
        Ok(())
    }

    /// A refusal that is reported at the term's first byte.
    fn at_term(&self, refusal: Refusal) -> Fault {
        Fault { refusal, byte: self.first_byte }
    }
}
