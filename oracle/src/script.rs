//! Scripts: lines, words, the cards below a `read`, and the run of a whole script.

use crate::session::Session;

/// A command as it stands in a script.
pub struct Command<'a> {
    /// The number of its line, counted from 1.
    pub line: usize,
    pub words: Vec<&'a [u8]>,
    /// The cards below a `read` without a file name; empty for every other command.
    pub deck: &'a [u8],
}

/// Splits a script into its commands.
pub fn commands(script: &[u8]) -> Vec<Command<'_>> {
    let mut found = Vec::new();
    let mut rest = Rest { script, at: 0, line: 0 };
    while let Some(line) = rest.next_line() {
        let words = words(line);
        if words.first().map_or(true, |word| word.starts_with(b"#")) {
            continue;
        }
        let number = rest.line;
        // Cards follow whatever the place says; only a file name means that there are none.
        let deck = if words[0] == b"read" && words.len() < 3 { rest.deck() } else { b"" };
        found.push(Command { line: number, words, deck });
    }
    found
}

/// The words of a command line. A byte 13 right before the line's byte 10 is none of it.
fn words(line: &[u8]) -> Vec<&[u8]> {
    let line = line.strip_suffix(b"\r\n").or(line.strip_suffix(b"\n")).unwrap_or(line);
    line.split(|byte| *byte == b' ' || *byte == b'\t').filter(|word| !word.is_empty()).collect()
}

/// What has not been split yet.
struct Rest<'a> {
    script: &'a [u8],
    at: usize,
    /// How many lines were taken.
    line: usize,
}

impl<'a> Rest<'a> {
    /// The next line with its byte 10, which only the last line may lack.
    fn next_line(&mut self) -> Option<&'a [u8]> {
        let left = &self.script[self.at..];
        if left.is_empty() {
            return None;
        }
        let length = left.iter().position(|byte| *byte == 10).map_or(left.len(), |at| at + 1);
        self.at += length;
        self.line += 1;
        Some(&left[..length])
    }

    /// Every byte up to the line that is just a point, or all that is left; that line is taken too.
    fn deck(&mut self) -> &'a [u8] {
        let start = self.at;
        loop {
            let end = self.at;
            match self.next_line() {
                None => return &self.script[start..],
                Some(b".\n") | Some(b".") => return &self.script[start..end],
                Some(_) => {}
            }
        }
    }
}

/// What a script's run leaves.
pub struct Run {
    pub output: String,
    /// For each line of the output, the line of the command that it answers.
    pub lines: Vec<usize>,
    /// 1 after a script error, else 0.
    pub status: u8,
}

pub fn run(script: &[u8]) -> Run {
    let mut session = Session::default();
    let mut run = Run { output: String::new(), lines: Vec::new(), status: 0 };
    for command in commands(script) {
        let answer = session.command(&command.words, command.deck).unwrap_or_else(|mistake| {
            run.status = 1;
            format!("error: line {}: {}\n", command.line, mistake.0)
        });
        run.lines.extend(answer.lines().map(|_| command.line));
        run.output += &answer;
    }
    run
}
