//! census SCRIPT.lz...: counts what became of the commands of each script; its answers stand in SCRIPT.answers beside it.

use std::path::Path;
use std::process::ExitCode;

use oracle::census::Census;

fn count(census: &mut Census, script: &Path) -> Result<(), String> {
    let text = |file: &Path| std::fs::read(file).map_err(|error| format!("{}: {error}", file.display()));
    let answers = text(&script.with_extension("answers"))?;
    census.add(&text(script)?, &answers).map_err(|trouble| format!("{}: {trouble}", script.display()))
}

fn main() -> ExitCode {
    let mut census = Census::default();
    for script in std::env::args_os().skip(1) {
        if let Err(trouble) = count(&mut census, Path::new(&script)) {
            eprintln!("census: {trouble}");
            return ExitCode::from(2);
        }
    }
    print!("{}", census.table());
    ExitCode::SUCCESS
}
