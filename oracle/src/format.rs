//! Formats: the letters of the variables and the widths of their exponents.

use crate::refusal::{Refusal, LETTER, NO_VARIABLES, TOO_WIDE, WIDTH};

#[derive(Clone, PartialEq, Eq, Debug)]
pub struct Format {
    letters: Vec<u8>,
    widths: Vec<u32>,
}

impl Format {
    /// Adds the variables one by one; each is tested for its letter, its width, then for the room that is left.
    /// A letter is any word here, since a word of several bytes is a bad letter.
    pub fn new(variables: &[(&[u8], u32)]) -> Result<Format, Refusal> {
        let mut format = Format { letters: Vec::new(), widths: Vec::new() };
        for &(letter, width) in variables {
            format.add(letter, width)?;
        }
        if format.letters.is_empty() {
            return Err(NO_VARIABLES);
        }
        Ok(format)
    }

    fn add(&mut self, word: &[u8], width: u32) -> Result<(), Refusal> {
        let letter = match word {
            [letter @ b'A'..=b'Z'] => *letter,
            _ => return Err(LETTER),
        };
        if self.letters.contains(&letter) {
            return Err(LETTER);
        }
        if width == 0 || width > 16 {
            return Err(WIDTH);
        }
        let total: u32 = self.widths.iter().sum();
        if self.letters.len() == 8 || total + width > 64 {
            return Err(TOO_WIDE);
        }
        self.letters.push(letter);
        self.widths.push(width);
        Ok(())
    }

    /// How many variables there are.
    pub fn count(&self) -> usize {
        self.widths.len()
    }

    /// The greatest exponent of a variable.
    pub fn greatest(&self, variable: usize) -> u32 {
        (1 << self.widths[variable]) - 1
    }

    /// The exponents packed into one number, the last variable lowest.
    pub fn key(&self, exponents: &[u32]) -> u64 {
        let mut key: u128 = 0;
        for (exponent, width) in exponents.iter().zip(&self.widths) {
            key = (key << width) + u128::from(*exponent);
        }
        u64::try_from(key).expect("64 bits hold every key")
    }
}
