//! scripts SEED CALLS [--decks FOLDER] [--only CALL,CALL...]: prints a random script of about so many commands.
//! With a folder, some decks are read from files that are put there.

use std::io::Write;
use std::process::ExitCode;

use oracle::generator::{script, Order};

fn order() -> Option<Order> {
    let arguments: Vec<String> = std::env::args().skip(1).collect();
    let (numbers, mut options) = arguments.split_at_checked(2)?;
    let mut order =
        Order { seed: numbers[0].parse().ok()?, calls: numbers[1].parse().ok()?, folder: None, only: None };
    while let [name, value, rest @ ..] = options {
        match name.as_str() {
            "--decks" => order.folder = Some(value.into()),
            "--only" => order.only = Some(value.split(',').map(str::to_string).collect()),
            _ => return None,
        }
        options = rest;
    }
    options.is_empty().then_some(order)
}

fn main() -> ExitCode {
    let Some(order) = order() else {
        eprintln!("usage: scripts SEED CALLS [--decks FOLDER] [--only CALL,CALL...]");
        return ExitCode::from(2);
    };
    let written = script(order).and_then(|text| std::io::stdout().write_all(&text));
    if let Err(error) = written {
        eprintln!("scripts: {error}");
        return ExitCode::from(2);
    }
    ExitCode::SUCCESS
}
