//! Lines that are script errors, and odd ways to write good ones.

use super::random::Random;

/// A word that is no number of 32 bits.
fn no_number(random: &mut Random) -> &'static str {
    random.pick(&["x", "-1", "+1", "1.5", "4294967296", "99999999999999999999999", "0x1", "1,", "-", "\u{e9}"])
}

/// A line that cannot be understood, whatever stands before it. None of them begins with `read`.
pub fn line(random: &mut Random) -> String {
    let word = no_number(random);
    let list = [
        "nonsense".to_string(),
        "ADD 0 1 2".to_string(),
        ".".to_string(),
        "kind".to_string(),
        "kind reals".to_string(),
        "kind integers words".to_string(),
        "kind Integers".to_string(),
        "format X".to_string(),
        "format X 8 Y".to_string(),
        "format x 8 Y".to_string(),
        "format X 8 X".to_string(),
        format!("format X {word}"),
        format!("format x 3 Y {word}"),
        format!("format X 17 Y {word}"),
        "open".to_string(),
        "open 12 12".to_string(),
        "open -1".to_string(),
        "open 18446744073709551616".to_string(),
        "constant 0".to_string(),
        "constant".to_string(),
        "constant 0 1 0 0".to_string(),
        "constant 0 9223372036854775808".to_string(),
        "constant 0 -9223372036854775809".to_string(),
        "constant 0 1 --1".to_string(),
        "constant 0 +1".to_string(),
        format!("constant {word} 1"),
        "variable 0".to_string(),
        "variable 0 0 0".to_string(),
        format!("variable 0 {word}"),
        "copy 0".to_string(),
        format!("copy {word} 0"),
        "negate 0 1 2".to_string(),
        format!("negate 9 {word}"),
        "add 0 1".to_string(),
        "add 0 1 2 3".to_string(),
        format!("add 0 {word} 1"),
        "subtract".to_string(),
        format!("subtract 0 1 {word}"),
        "multiply 0 1".to_string(),
        format!("multiply 0 1 {word}"),
        "divide 0 1".to_string(),
        "divide 0 1 2 3".to_string(),
        format!("divide 0 1 {word}"),
        "differentiate 0 1".to_string(),
        format!("differentiate 0 1 {word}"),
        "substitute 0 1 2".to_string(),
        "substitute 0 1 2 0 0".to_string(),
        format!("substitute 0 1 2 {word}"),
        "truncate 0 1 0".to_string(),
        format!("truncate 0 1 0 {word}"),
        format!("truncate 0 1 {word} 0"),
        "multiply-truncate 0 1 2 0".to_string(),
        "multiply-truncate 0 1 2 0 0 0".to_string(),
        format!("multiply-truncate 0 1 2 0 {word}"),
        "multiply_truncate 0 1 2 0 0".to_string(),
        "write".to_string(),
        "write 0 1 2".to_string(),
        "write 0 18446744073709551616".to_string(),
        "write 0 -1".to_string(),
        "equal 0".to_string(),
        format!("equal 0 {word}"),
        "leading".to_string(),
        "leading 0 0".to_string(),
        format!("leading {word}"),
        "\rleading 0".to_string(),
        "leading\u{b}0".to_string(),
    ];
    random.pick(&list)
}

/// A `read` that cannot be understood. Whether cards follow it comes with the line.
pub fn read_line(random: &mut Random) -> (String, bool) {
    let word = no_number(random);
    let list = [
        (format!("read {word}"), true),
        ("read".to_string(), true),
        ("read 0 no-such-folder/no-such-file".to_string(), false),
        ("read 9 no-such-folder/no-such-file".to_string(), false),
        ("read 0 . .".to_string(), false),
    ];
    random.pick(&list)
}

/// The same line with other blanks, and its end. Most lines stay plain.
pub fn dressed(random: &mut Random, line: &str) -> String {
    if random.percent(94) {
        return format!("{line}\n");
    }
    let between = random.pick(&[" ", "  ", "\t", " \t "]);
    let before = random.pick(&["", " ", "\t"]);
    let after = random.pick(&["", " ", "\t \t"]);
    let end = random.pick(&["\n", "\r\n"]);
    format!("{before}{}{after}{end}", line.replace(' ', between))
}

/// A line that is passed over.
pub fn comment(random: &mut Random) -> &'static str {
    random.pick(&["\n", "# a comment\n", "#\n", "   \n", "\r\n", "\t#x\n", "#add 0 0 0\r\n"])
}
