//! The sheet: eight places, and the order in which a call is tested.
//! Places come first, then the variable, then k, then the call's own steps. A refusal changes nothing.

use crate::deck_reader::{self, Fault};
use crate::deck_writer;
use crate::differentiate::differentiate;
use crate::divide::divide;
use crate::kind::ONE;
use crate::multiply::{multiply, multiply_truncate};
use crate::polynomial::Polynomial;
use crate::refusal::{Refusal, OUTPUT, PLACE, PREFIX, ROWS, VARIABLE};
use crate::setting::Setting;
use crate::substitute::substitute;
use crate::truncate::truncate;

const PLACES: usize = 8;

pub struct Sheet {
    pub setting: Setting,
    places: [Polynomial; PLACES],
}

type Outcome = Result<(), Refusal>;

impl Sheet {
    pub fn open(setting: Setting) -> Sheet {
        Sheet { setting, places: Default::default() }
    }

    /// What stands in a place.
    pub fn at(&self, place: u32) -> &Polynomial {
        &self.places[place as usize]
    }

    fn check_places(&self, places: &[u32]) -> Outcome {
        if places.iter().any(|place| *place as usize >= PLACES) {
            return Err(PLACE);
        }
        Ok(())
    }

    fn check_variable(&self, variable: u32) -> Result<usize, Refusal> {
        let variable = variable as usize;
        if variable >= self.setting.format.count() {
            return Err(VARIABLE);
        }
        Ok(variable)
    }

    fn check_prefix(&self, k: u32) -> Result<usize, Refusal> {
        let k = k as usize;
        if k > self.setting.format.count() {
            return Err(PREFIX);
        }
        Ok(k)
    }

    fn store(&mut self, place: u32, polynomial: Polynomial) -> Outcome {
        self.places[place as usize] = polynomial;
        Ok(())
    }

    /// A place that a call of one row needs.
    fn check_room_for_a_row(&self) -> Outcome {
        if self.setting.room == 0 {
            return Err(ROWS);
        }
        Ok(())
    }

    /// Answers how many bytes were read; a bad place has no byte to report.
    pub fn read(&mut self, r: u32, text: &[u8]) -> Result<usize, (Refusal, Option<usize>)> {
        self.check_places(&[r]).map_err(|refusal| (refusal, None))?;
        let read = deck_reader::read(text, &self.setting);
        let (sum, bytes) = read.map_err(|Fault { refusal, byte }| (refusal, Some(byte)))?;
        self.places[r as usize] = sum;
        Ok(bytes)
    }

    pub fn constant(&mut self, r: u32, first: i64, second: i64) -> Outcome {
        self.check_places(&[r])?;
        let coefficient = self.setting.kind.from_figures(first.into(), second.into())?;
        let constant = Polynomial::term(vec![0; self.setting.format.count()], coefficient);
        if !constant.is_zero() {
            self.check_room_for_a_row()?;
        }
        self.store(r, constant)
    }

    pub fn variable(&mut self, r: u32, v: u32) -> Outcome {
        self.check_places(&[r])?;
        let variable = self.check_variable(v)?;
        self.check_room_for_a_row()?;
        let mut exponents = vec![0; self.setting.format.count()];
        exponents[variable] = 1;
        self.store(r, Polynomial::term(exponents, ONE))
    }

    pub fn copy(&mut self, r: u32, p: u32) -> Outcome {
        self.check_places(&[r, p])?;
        self.store(r, self.at(p).clone())
    }

    pub fn negate(&mut self, r: u32, p: u32) -> Outcome {
        self.check_places(&[r, p])?;
        self.store(r, self.at(p).negative(&self.setting))
    }

    pub fn add(&mut self, r: u32, p: u32, q: u32) -> Outcome {
        self.check_places(&[r, p, q])?;
        self.store(r, self.at(p).plus(self.at(q), &self.setting)?)
    }

    pub fn subtract(&mut self, r: u32, p: u32, q: u32) -> Outcome {
        self.check_places(&[r, p, q])?;
        self.store(r, self.at(p).plus(&self.at(q).negative(&self.setting), &self.setting)?)
    }

    pub fn multiply(&mut self, r: u32, p: u32, q: u32) -> Outcome {
        self.check_places(&[r, p, q])?;
        self.store(r, multiply(self.at(p), self.at(q), &self.setting)?)
    }

    pub fn divide(&mut self, r: u32, p: u32, q: u32) -> Outcome {
        self.check_places(&[r, p, q])?;
        self.store(r, divide(self.at(p), self.at(q), &self.setting)?)
    }

    pub fn differentiate(&mut self, r: u32, p: u32, v: u32) -> Outcome {
        self.check_places(&[r, p])?;
        let variable = self.check_variable(v)?;
        self.store(r, differentiate(self.at(p), variable, &self.setting)?)
    }

    /// Puts q for the variable v in p.
    pub fn substitute(&mut self, r: u32, p: u32, q: u32, v: u32) -> Outcome {
        self.check_places(&[r, p, q])?;
        let variable = self.check_variable(v)?;
        self.store(r, substitute(self.at(p), self.at(q), variable, &self.setting)?)
    }

    pub fn truncate(&mut self, r: u32, p: u32, k: u32, n: u32) -> Outcome {
        self.check_places(&[r, p])?;
        let k = self.check_prefix(k)?;
        self.store(r, truncate(self.at(p), k, n))
    }

    pub fn multiply_truncate(&mut self, r: u32, p: u32, q: u32, k: u32, n: u32) -> Outcome {
        self.check_places(&[r, p, q])?;
        let k = self.check_prefix(k)?;
        self.store(r, multiply_truncate(self.at(p), self.at(q), k, n, &self.setting)?)
    }

    /// The deck of a place; `room` is how many bytes the output holds, if that is limited.
    pub fn write(&self, p: u32, room: Option<u64>) -> Result<String, Refusal> {
        self.check_places(&[p])?;
        let deck = deck_writer::deck(self.at(p), &self.setting);
        if room.is_some_and(|room| room < deck.len() as u64) {
            return Err(OUTPUT);
        }
        Ok(deck)
    }

    pub fn equal(&self, p: u32, q: u32) -> Result<bool, Refusal> {
        self.check_places(&[p, q])?;
        Ok(self.at(p) == self.at(q))
    }

    /// The key and the written figures of the leading row.
    pub fn leading(&self, p: u32) -> Result<Option<(u64, String)>, Refusal> {
        self.check_places(&[p])?;
        let row = self.at(p).leading();
        Ok(row.map(|(exponents, coefficient)| {
            (self.setting.format.key(exponents), self.setting.kind.written(*coefficient))
        }))
    }
}
