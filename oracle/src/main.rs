//! oracle [SCRIPT]: carries out a script, from a file or from standard input, and prints an answer for each command.
//! oracle --lines SCRIPT: prints, for each line of the answers, the line of the script that it belongs to.

use std::io::{Read, Write};
use std::process::ExitCode;

fn script_of(file: Option<&str>) -> std::io::Result<Vec<u8>> {
    match file {
        Some(file) => std::fs::read(file),
        None => {
            let mut script = Vec::new();
            std::io::stdin().read_to_end(&mut script)?;
            Ok(script)
        }
    }
}

fn main() -> ExitCode {
    let mut arguments: Vec<String> = std::env::args().skip(1).collect();
    let lines_only = arguments.first().is_some_and(|argument| argument == "--lines");
    if lines_only {
        arguments.remove(0);
    }
    let script = match script_of(arguments.first().map(String::as_str)) {
        Ok(script) => script,
        Err(error) => {
            eprintln!("oracle: {error}");
            return ExitCode::from(2);
        }
    };
    let run = oracle::script::run(&script);
    let text = if lines_only { run.lines.iter().map(|line| format!("{line}\n")).collect() } else { run.output };
    if std::io::stdout().write_all(text.as_bytes()).is_err() {
        return ExitCode::from(2);
    }
    ExitCode::from(run.status)
}
