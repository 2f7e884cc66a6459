//! One command of a script after the other: what its words mean, and the answer.

use std::ffi::OsStr;
use std::os::unix::ffi::OsStrExt;

use crate::format::Format;
use crate::kind::Kind;
use crate::numbers::{figure, number_32, number_64};
use crate::refusal::Refusal;
use crate::setting::Setting;
use crate::sheet::Sheet;

/// A script error: the command was not carried out and nothing changed.
#[derive(Clone, PartialEq, Eq, Debug)]
pub struct Mistake(pub &'static str);

const NOT_A_NUMBER: Mistake = Mistake("not a number, or too large");
const MISSING: Mistake = Mistake("a word is missing");
const TOO_MANY: Mistake = Mistake("a word too many");

/// How many rows the first call opens a sheet on if no `open` came before it.
const ROWS_UNASKED: u64 = 49_152;

pub struct Session {
    kind: Kind,
    format: Option<Format>,
    sheet: Option<Sheet>,
}

impl Default for Session {
    fn default() -> Session {
        Session { kind: Kind::Integers, format: None, sheet: None }
    }
}

fn answered(outcome: Result<(), Refusal>) -> String {
    match outcome {
        Ok(()) => "ok\n".to_string(),
        Err(refusal) => refused(refusal),
    }
}

fn refused(Refusal(number): Refusal) -> String {
    format!("refused {number}\n")
}

/// Just so many words after the command's name.
fn exactly<'a, const N: usize>(words: &[&'a [u8]]) -> Result<[&'a [u8]; N], Mistake> {
    if words.len() > N {
        return Err(TOO_MANY);
    }
    <[&[u8]; N]>::try_from(words).map_err(|_| MISSING)
}

/// Just so many words, all of them unsigned 32-bit numbers.
fn numbers<const N: usize>(words: &[&[u8]]) -> Result<[u32; N], Mistake> {
    let words: [&[u8]; N] = exactly(words)?;
    let mut values = [0; N];
    for (value, word) in values.iter_mut().zip(words) {
        *value = number_32(word).ok_or(NOT_A_NUMBER)?;
    }
    Ok(values)
}

impl Session {
    /// The sheet that is open now.
    pub fn sheet(&self) -> Option<&Sheet> {
        self.sheet.as_ref()
    }

    /// Carries out a command. `words` are its words, the name first; `deck` is the text that stood below a `read`.
    pub fn command(&mut self, words: &[&[u8]], deck: &[u8]) -> Result<String, Mistake> {
        let (name, rest) = words.split_first().ok_or(MISSING)?;
        match *name {
            b"kind" => self.set_kind(rest),
            b"format" => self.set_format(rest),
            b"open" => self.open(rest),
            b"read" => self.read(rest, deck),
            b"constant" => self.constant(rest),
            b"variable" => {
                let [r, v] = numbers(rest)?;
                Ok(answered(self.opened()?.variable(r, v)))
            }
            b"copy" => {
                let [r, p] = numbers(rest)?;
                Ok(answered(self.opened()?.copy(r, p)))
            }
            b"negate" => {
                let [r, p] = numbers(rest)?;
                Ok(answered(self.opened()?.negate(r, p)))
            }
            b"add" => {
                let [r, p, q] = numbers(rest)?;
                Ok(answered(self.opened()?.add(r, p, q)))
            }
            b"subtract" => {
                let [r, p, q] = numbers(rest)?;
                Ok(answered(self.opened()?.subtract(r, p, q)))
            }
            b"multiply" => {
                let [r, p, q] = numbers(rest)?;
                Ok(answered(self.opened()?.multiply(r, p, q)))
            }
            b"divide" => {
                let [r, p, q] = numbers(rest)?;
                if !self.kind_of_calls().divides() {
                    return Err(Mistake("a sheet of words does not divide"));
                }
                Ok(answered(self.opened()?.divide(r, p, q)))
            }
            b"differentiate" => {
                let [r, p, v] = numbers(rest)?;
                Ok(answered(self.opened()?.differentiate(r, p, v)))
            }
            b"substitute" => {
                let [r, p, q, v] = numbers(rest)?;
                Ok(answered(self.opened()?.substitute(r, p, q, v)))
            }
            b"truncate" => {
                let [r, p, k, n] = numbers(rest)?;
                Ok(answered(self.opened()?.truncate(r, p, k, n)))
            }
            b"multiply-truncate" => {
                let [r, p, q, k, n] = numbers(rest)?;
                Ok(answered(self.opened()?.multiply_truncate(r, p, q, k, n)))
            }
            b"write" => self.write(rest),
            b"equal" => {
                let [p, q] = numbers(rest)?;
                Ok(match self.opened()?.equal(p, q) {
                    Ok(true) => "ok equal\n".to_string(),
                    Ok(false) => "ok different\n".to_string(),
                    Err(refusal) => refused(refusal),
                })
            }
            b"leading" => {
                let [p] = numbers(rest)?;
                Ok(match self.opened()?.leading(p) {
                    Ok(None) => "ok none\n".to_string(),
                    Ok(Some((key, figures))) => format!("ok {key} {figures}\n"),
                    Err(refusal) => refused(refusal),
                })
            }
            _ => Err(Mistake("unknown command")),
        }
    }

    /// The sheet of a call. The first call opens one if no `open` did. A mistake in the call's words is found before.
    fn opened(&mut self) -> Result<&mut Sheet, Mistake> {
        if self.sheet.is_none() {
            self.sheet = Some(self.new_sheet(ROWS_UNASKED)?);
        }
        Ok(self.sheet.as_mut().expect("opened above"))
    }

    fn new_sheet(&self, rows: u64) -> Result<Sheet, Mistake> {
        let format = self.format.clone().ok_or(Mistake("no format has been accepted yet"))?;
        Ok(Sheet::open(Setting::on_rows(self.kind, format, rows)))
    }

    /// The kind of the open sheet, or of the one that the next call would open.
    pub fn kind_of_calls(&self) -> Kind {
        self.sheet.as_ref().map_or(self.kind, |sheet| sheet.setting.kind)
    }

    fn set_kind(&mut self, words: &[&[u8]]) -> Result<String, Mistake> {
        let [name] = exactly(words)?;
        self.kind = Kind::named(name).ok_or(Mistake("unknown kind"))?;
        Ok("ok\n".to_string())
    }

    /// All words are looked at before any variable is added.
    fn set_format(&mut self, words: &[&[u8]]) -> Result<String, Mistake> {
        let mut variables = Vec::new();
        for pair in words.chunks(2) {
            let [letter, width] = exactly(pair)?;
            variables.push((letter, number_32(width).ok_or(NOT_A_NUMBER)?));
        }
        Ok(match Format::new(&variables) {
            Ok(format) => {
                self.format = Some(format);
                "ok\n".to_string()
            }
            Err(refusal) => refused(refusal),
        })
    }

    fn open(&mut self, words: &[&[u8]]) -> Result<String, Mistake> {
        let [rows] = exactly(words)?;
        let sheet = self.new_sheet(number_64(rows).ok_or(NOT_A_NUMBER)?)?;
        let answer = format!("ok {}\n", sheet.setting.room);
        self.sheet = Some(sheet);
        Ok(answer)
    }

    fn read(&mut self, words: &[&[u8]], deck: &[u8]) -> Result<String, Mistake> {
        let (place, from_file) = match words {
            [] => return Err(MISSING),
            [place] => (place, None),
            [place, file] => {
                let text = std::fs::read(OsStr::from_bytes(file)).map_err(|_| Mistake("unknown file"))?;
                (place, Some(text))
            }
            _ => return Err(TOO_MANY),
        };
        let place = number_32(place).ok_or(NOT_A_NUMBER)?;
        let text = from_file.as_deref().unwrap_or(deck);
        Ok(match self.opened()?.read(place, text) {
            Ok(bytes) => format!("ok {bytes}\n"),
            Err((Refusal(number), Some(byte))) => format!("refused {number} at {byte}\n"),
            Err((refusal, None)) => refused(refusal),
        })
    }

    fn constant(&mut self, words: &[&[u8]]) -> Result<String, Mistake> {
        let (place, first, second) = match words {
            [] | [_] => return Err(MISSING),
            [place, first] => (place, first, None),
            [place, first, second] => (place, first, Some(second)),
            _ => return Err(TOO_MANY),
        };
        let place = number_32(place).ok_or(NOT_A_NUMBER)?;
        let first = figure(first).ok_or(NOT_A_NUMBER)?;
        let second = second.map_or(Some(0), |word| figure(word)).ok_or(NOT_A_NUMBER)?;
        Ok(answered(self.opened()?.constant(place, first, second)))
    }

    fn write(&mut self, words: &[&[u8]]) -> Result<String, Mistake> {
        let (place, room) = match words {
            [] => return Err(MISSING),
            [place] => (place, None),
            [place, room] => (place, Some(number_64(room).ok_or(NOT_A_NUMBER)?)),
            _ => return Err(TOO_MANY),
        };
        let place = number_32(place).ok_or(NOT_A_NUMBER)?;
        Ok(match self.opened()?.write(place, room) {
            Ok(deck) => format!("ok {}\n{}", deck.len(), deck),
            Err(refusal) => refused(refusal),
        })
    }
}
