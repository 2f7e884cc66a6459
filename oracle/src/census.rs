//! Counts, from scripts and their answers, how often each call of each kind was accepted and refused with each number.

use std::collections::{BTreeMap, BTreeSet};

use crate::script;

/// What became of a command.
#[derive(Clone, Copy, PartialEq, Eq, PartialOrd, Ord, Debug)]
pub enum Outcome {
    Accepted,
    Refused(u8),
    Mistake,
}

/// The commands in the order of the table. Others count as `unknown`.
const NAMES: [&str; 20] = [
    "kind", "format", "open", "read", "constant", "variable", "copy", "negate", "add", "subtract", "multiply", "divide",
    "differentiate", "substitute", "truncate", "multiply-truncate", "write", "equal", "leading", "unknown",
];
const SET_UP: [&str; 3] = ["kind", "format", "open"];

#[derive(Default)]
pub struct Census {
    /// By the place of the command in the table, then by the sheet's kind; what sets up is counted without a kind.
    counts: BTreeMap<(usize, String), BTreeMap<Outcome, usize>>,
}

impl Census {
    /// Counts the commands of one script by its answers.
    pub fn add(&mut self, script: &[u8], answers: &[u8]) -> Result<(), String> {
        let mut answers = Answers { left: answers };
        let mut next_kind = "integers".to_string();
        let mut sheet_kind: Option<String> = None;
        for command in script::commands(script) {
            let name = String::from_utf8_lossy(command.words[0]).to_string();
            let place = NAMES.iter().position(|known| *known == name).unwrap_or(NAMES.len() - 1);
            let outcome = answers.next(&name).ok_or_else(|| format!("no answer for the command of line {}", command.line))?;
            if outcome == Outcome::Accepted && name == "kind" {
                next_kind = String::from_utf8_lossy(command.words[1]).to_string();
            }
            if outcome == Outcome::Accepted && name == "open" {
                sheet_kind = Some(next_kind.clone());
            }
            let sets_up = SET_UP.contains(&NAMES[place]);
            if !sets_up && outcome != Outcome::Mistake {
                // A call without `open` opens a sheet of the kind that was named last.
                sheet_kind.get_or_insert(next_kind.clone());
            }
            let kind = if sets_up { "-".to_string() } else { sheet_kind.clone().unwrap_or("-".to_string()) };
            *self.counts.entry((place, kind)).or_default().entry(outcome).or_default() += 1;
        }
        if answers.left.is_empty() {
            Ok(())
        } else {
            Err("answers are left over".to_string())
        }
    }

    /// How often a call of this kind had this outcome.
    pub fn count(&self, name: &str, kind: &str, outcome: Outcome) -> usize {
        let place = NAMES.iter().position(|known| *known == name).expect("a command of the table");
        let counts = self.counts.get(&(place, kind.to_string()));
        counts.and_then(|counts| counts.get(&outcome)).copied().unwrap_or(0)
    }

    /// The table: a line for each command and kind, a column for each outcome that occurs.
    pub fn table(&self) -> String {
        let outcomes: BTreeSet<Outcome> = self.counts.values().flat_map(|counts| counts.keys().copied()).collect();
        let mut text = format!("{:<18}{:<10}", "call", "kind");
        for outcome in &outcomes {
            text += &match outcome {
                Outcome::Accepted => format!("{:>7}", "ok"),
                Outcome::Refused(number) => format!("{number:>6}"),
                Outcome::Mistake => format!("{:>7}", "error"),
            };
        }
        text += "\n";
        for ((place, kind), counts) in &self.counts {
            text += &format!("{:<18}{:<10}", NAMES[*place], kind);
            for outcome in &outcomes {
                let count = counts.get(outcome).map_or(".".to_string(), |count| count.to_string());
                let width = if matches!(outcome, Outcome::Refused(_)) { 6 } else { 7 };
                text += &format!("{count:>width$}");
            }
            text += "\n";
        }
        text
    }
}

/// The answers that have not been counted yet.
struct Answers<'a> {
    left: &'a [u8],
}

impl Answers<'_> {
    /// The outcome of the next command. The cards of a `write` are passed over with its answer.
    fn next(&mut self, name: &str) -> Option<Outcome> {
        let end = self.left.iter().position(|byte| *byte == 10)?;
        let line = String::from_utf8_lossy(&self.left[..end]).to_string();
        self.left = &self.left[end + 1..];
        let mut words = line.split(' ');
        match words.next()? {
            "ok" => {
                if name == "write" {
                    let bytes: usize = words.next()?.parse().ok()?;
                    self.left = self.left.get(bytes..)?;
                }
                Some(Outcome::Accepted)
            }
            "refused" => words.next()?.parse().ok().map(Outcome::Refused),
            "error:" => Some(Outcome::Mistake),
            _ => None,
        }
    }
}
