//! The script language: lines, words, cards, mistakes.

use oracle::script::run;

/// The answers, with mistakes cut after their line number, and the status.
fn ran(script: &str) -> (Vec<String>, u8) {
    let run = run(script.as_bytes());
    let cut = |answer: &str| match answer.strip_prefix("error: line ") {
        Some(rest) => format!("error {}", rest.split(':').next().unwrap()),
        None => answer.to_string(),
    };
    (run.output.lines().map(cut).collect(), run.status)
}

#[test]
fn nothing_before_a_format() {
    assert_eq!(ran("leading 0\nopen 12\nkind words\nformat x 1\nleading 0\n"), (
        vec!["error 1".into(), "error 2".into(), "ok".into(), "refused 1".into(), "error 5".into()], 1));
}

#[test]
fn lines_and_words() {
    assert_eq!(ran("# comment\n\n  \t\r\n\tformat   X\t8 \r\n  # indented\nleading 0"), (vec!["ok".into(), "ok none".into()], 0));
    assert_eq!(ran("format X 8\nleading 0\r"), (vec!["ok".into(), "error 2".into()], 1));
    assert_eq!(ran("format X 8\nleading 00000000000000000000000\n.\n"), (vec!["ok".into(), "ok none".into(), "error 3".into()], 1));
    assert_eq!(ran(""), (vec![], 0));
}

#[test]
fn mistakes() {
    let bad = [
        "nonsense", "kind", "kind reals", "kind words words", "format X", "format X 8 Y", "format x 8 Y", "format 8 X",
        "format X -1", "format X 4294967296", "open", "open x", "open 1 2", "open 18446744073709551616", "copy 0",
        "copy 0 1 2", "copy 0 -1", "copy 0 +1", "copy 0 4294967296", "constant 0", "constant 0 x", "constant 0 1 2 3",
        "constant 0 9223372036854775808", "constant 0 --1", "constant 0 -", "write", "write 0 0 0", "write 0 x", "equal 0",
        "leading", "read 0 /no/such/file", "read 9 /no/such/file", "read 0 a b", "Copy 0 1",
    ];
    for line in bad {
        assert_eq!(ran(&format!("format X 8\n{line}\nleading 0\n")), (vec!["ok".into(), "error 2".into(), "ok none".into()], 1), "{line}");
    }
}

#[test]
fn a_mistake_opens_no_sheet() {
    let script = "kind words\nformat X 8\ndivide 0 0 0\nkind integers\nconstant 0 -1\n";
    assert_eq!(ran(script), (vec!["ok".into(), "ok".into(), "error 3".into(), "ok".into(), "ok".into()], 1));
    let script = "kind words\nformat X 8\ncopy 9 9\nkind integers\nconstant 0 -1\n";
    assert_eq!(ran(script), (vec!["ok".into(), "ok".into(), "refused 5".into(), "ok".into(), "refused 10".into()], 0));
}

#[test]
fn kind_and_format_wait_for_the_next_sheet() {
    let script = "format X 8\nvariable 0 0\nkind words\nformat A 1 B 1\nconstant 1 -1\nvariable 0 1\nopen 12\nvariable 0 1\nconstant 1 -1\nleading 0\n";
    assert_eq!(ran(script), (
        ["ok", "ok", "ok", "ok", "ok", "refused 6", "ok 1", "ok", "refused 10", "ok 1 1"].map(String::from).to_vec(), 0));
}

#[test]
fn cards_below_a_read() {
    let ok = |answers: &[&str]| answers.iter().map(|answer| answer.to_string()).collect::<Vec<_>>();
    assert_eq!(ran("format X 8\nread 0\n.\nleading 0\n"), (ok(&["ok", "refused 9 at 0", "ok none"]), 0));
    assert_eq!(ran("format X 8\nread 0"), (ok(&["ok", "refused 9 at 0"]), 0));
    assert_eq!(ran("format X 8\nread 0\n1 2 0"), (ok(&["ok", "ok 5"]), 0));
    assert_eq!(ran("format X 8\nread 0\n1 2 0\n"), (ok(&["ok", "ok 6"]), 0));
    assert_eq!(ran("format X 8\nread 0\n1 2 0\n."), (ok(&["ok", "ok 6"]), 0));
    assert_eq!(ran("format X 8\nread 0\n# 1\n.\n"), (ok(&["ok", "refused 7 at 0"]), 0));
    // A line of a point and a byte 13, or of a blank and a point, is a card.
    assert_eq!(ran("format X 8\nread 0\n1 1\n.\r\n.\n"), (ok(&["ok", "refused 7 at 4"]), 0));
    assert_eq!(ran("format X 8\nread 0\n1 1\n .\n.\n"), (ok(&["ok", "refused 7 at 5"]), 0));
    // The cards belong to the read even if its place is none, or is no number, or nothing is set up.
    assert_eq!(ran("format X 8\nread 8\n1 2 0\n.\nleading 0\n"), (ok(&["ok", "refused 5", "ok none"]), 0));
    assert_eq!(ran("format X 8\nread x\nleading 0\n.\nleading 0\n"), (ok(&["ok", "error 2", "ok none"]), 1));
    assert_eq!(ran("read 0\n0\n.\nformat X 8\n"), (ok(&["error 1", "ok"]), 1));
    // Line numbers count the cards.
    assert_eq!(ran("format X 8\nread 0\n1\n2\n0\n.\nbad\n"), (ok(&["ok", "ok 6", "error 7"]), 1));
}

#[test]
fn files() {
    let file = std::env::temp_dir().join(format!("oracle-deck-{}", std::process::id()));
    std::fs::write(&file, "5,3,").unwrap();
    let script = format!("format X 8\nread 0 {}\nwrite 0\nread 9 {}\n", file.display(), file.display());
    let answers = ran(&script);
    std::fs::remove_file(&file).unwrap();
    assert_eq!(answers, (["ok", "ok 4", "ok 6", "5 3", "0", "refused 5"].map(String::from).to_vec(), 0));
}
