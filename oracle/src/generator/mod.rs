//! Random scripts. A script comes in chapters: a kind, a format and a sheet, then calls on it.
//!
//! The writer carries out each line as it writes it, so it knows which places hold something, how long a deck is, and
//! whether a product is small enough to be worked in no time.

mod calls;
mod decks;
mod mistakes;
mod prepared;
mod random;
mod set_up;
mod terms;

use std::path::PathBuf;

use crate::format::Format;
use crate::kind::Kind;
use crate::polynomial::Polynomial;
use crate::script;
use crate::session::Session;
use random::Random;
use terms::Taste;

/// What a script is made from.
pub struct Order {
    pub seed: u64,
    /// About how many commands it has.
    pub calls: usize,
    /// Where decks go that are read from files; without it no file is read.
    pub folder: Option<PathBuf>,
    /// The only calls that are written; without it all are.
    pub only: Option<Vec<String>>,
}

/// Writes a script; decks that it reads from files are put into the folder.
pub fn script(order: Order) -> std::io::Result<Vec<u8>> {
    let mut writer = Writer::new(order);
    if writer.random.percent(15) {
        writer.before_any_format();
    }
    while writer.commands < writer.order.calls {
        writer.chapter();
    }
    if writer.random.percent(40) && writer.sheet_is_open() {
        writer.last_read();
    }
    match writer.trouble {
        Some(error) => Err(error),
        None => Ok(writer.text),
    }
}

struct Writer {
    order: Order,
    random: Random,
    session: Session,
    taste: Taste,
    text: Vec<u8>,
    commands: usize,
    files: usize,
    /// The first file that could not be written.
    trouble: Option<std::io::Error>,
}

impl Writer {
    fn new(order: Order) -> Writer {
        Writer {
            random: Random::new(order.seed),
            order,
            session: Session::default(),
            taste: Taste { wild: 0, reach: Vec::new() },
            text: Vec::new(),
            commands: 0,
            files: 0,
            trouble: None,
        }
    }

    fn sheet_is_open(&self) -> bool {
        self.session.sheet().is_some()
    }

    fn kind(&self) -> Kind {
        self.session.kind_of_calls()
    }

    /// The format of the open sheet.
    fn format(&self) -> Format {
        self.session.sheet().expect("a sheet is open").setting.format.clone()
    }

    fn room(&self) -> usize {
        self.session.sheet().expect("a sheet is open").setting.room
    }

    /// What stands in a place, zero if there is no such place.
    fn at(&self, place: u32) -> Polynomial {
        match self.session.sheet() {
            Some(sheet) if place < 8 => sheet.at(place).clone(),
            _ => Polynomial::zero(),
        }
    }

    fn rows(&self, place: u32) -> usize {
        match self.session.sheet() {
            Some(sheet) if place < 8 => sheet.at(place).row_count(),
            _ => 0,
        }
    }

    /// Writes text and carries it out. Whether its last command was accepted is the answer.
    fn put(&mut self, text: &[u8]) -> bool {
        self.text.extend(text);
        let mut accepted = false;
        for command in script::commands(text) {
            self.commands += 1;
            accepted = self.session.command(&command.words, command.deck).is_ok_and(|answer| answer.starts_with("ok"));
        }
        accepted
    }

    fn is_wanted(&self, line: &str) -> bool {
        let name = line.split(' ').next().unwrap_or("");
        let set_up = ["kind", "format", "open"].contains(&name);
        set_up || self.order.only.as_ref().map_or(true, |only| only.iter().any(|wanted| wanted == name))
    }

    /// Writes a command of one line, unless its call is not wanted.
    fn line(&mut self, line: &str) -> bool {
        if !self.is_wanted(line) {
            return false;
        }
        let dressed = mistakes::dressed(&mut self.random, line);
        self.put(dressed.as_bytes())
    }

    /// Writes a `read` of this text, with the cards below it or in a file.
    fn read(&mut self, place: u32, text: &[u8]) -> bool {
        let line = format!("read {place}");
        if !self.is_wanted(&line) {
            return false;
        }
        let lines_end = text.is_empty() || text.ends_with(b"\n");
        let no_point = text.split(|byte| *byte == 10).all(|line| line != b".");
        let in_file = !(lines_end && no_point) || self.random.percent(10);
        if let (true, Some(folder)) = (in_file, self.order.folder.clone()) {
            let file = folder.join(format!("{}.deck", self.files));
            self.files += 1;
            if let Err(error) = std::fs::write(&file, text) {
                self.trouble.get_or_insert(error);
            }
            let line = mistakes::dressed(&mut self.random, &format!("{line} {}", file.display()));
            return self.put(line.as_bytes());
        }
        let mut all = mistakes::dressed(&mut self.random, &line).into_bytes();
        for card in text.split_inclusive(|byte| *byte == 10) {
            let card = card.strip_suffix(b"\n").unwrap_or(card);
            all.extend(if card == b"." { b"x" } else { card });
            all.push(10);
        }
        all.extend(b".\n");
        self.put(&all)
    }

    /// Calls before any format was accepted.
    fn before_any_format(&mut self) {
        for line in ["copy 0 1", "kind residues", "open 120", "format X 8 X 8", "leading 9", "divide 0 0 0"] {
            self.line(line);
        }
        self.read(0, b"1 1\n0\n");
    }

    /// Sets up a sheet, makes calls on it, and writes all places.
    fn chapter(&mut self) {
        if self.random.percent(85) {
            let line = set_up::kind_line(&mut self.random);
            self.line(&line);
        }
        if self.random.percent(20) {
            let line = set_up::bad_format(&mut self.random);
            self.line(&line);
        }
        let line = set_up::good_format(&mut self.random);
        self.line(&line);
        if self.random.percent(10) {
            let line = set_up::bad_format(&mut self.random);
            self.line(&line);
        }
        if self.sheet_is_open() || self.random.percent(80) {
            let line = set_up::open_line(&mut self.random);
            self.line(&line);
        } else {
            // The first call opens the sheet, but a mistake does not.
            let line = self.random.pick(&["add 0 0", "leading x", "divide 0 0 0", "divide 0 0 0"]);
            self.line(line);
            if self.random.percent(60) {
                let line = set_up::kind_line(&mut self.random);
                self.line(&line);
            }
            let line = self.random.pick(&["write 0", "constant 0 1", "add 8 0 0", "write 9"]);
            self.line(line);
            if !self.sheet_is_open() {
                self.line("open 49152");
            }
        }
        let format = self.format();
        self.taste = Taste::new(&mut self.random, &format);
        let length = self.random.between(15, 70) as usize;
        let end = self.order.calls.min(self.commands + length);
        while self.commands < end {
            self.some_call();
        }
        for place in 0..8 {
            self.line(&format!("write {place}"));
        }
    }

    /// A `read` whose cards nothing ends but the script.
    fn last_read(&mut self) {
        let text = self.some_deck();
        let place = self.random.below(9);
        let end: &[u8] = self.random.pick(&[b"".as_slice(), b"\n", b"\n."]);
        if self.is_wanted("read") && text.split(|byte| *byte == 10).all(|line| line != b".") {
            self.put(&[format!("read {place}\n").as_bytes(), &text, end].concat());
        }
    }
}
