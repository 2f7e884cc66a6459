//! Scripts of calls with answers worked out by hand.

use oracle::script::run;

/// The answers of a script, one line each.
fn answers(script: &str) -> Vec<String> {
    run(script.as_bytes()).output.lines().map(str::to_string).collect()
}

/// The answers after the lines that set up; those have to be accepted.
fn after(set_up: &str, script: &str) -> Vec<String> {
    let done = answers(set_up);
    assert!(done.iter().all(|answer| answer.starts_with("ok")), "{done:?}");
    answers(&format!("{set_up}{script}"))[done.len()..].to_vec()
}

#[test]
fn width_two() {
    let set_up = "format X 2\nread 0\n1 3 0\n.\nread 1\n1 2 0\n.\n";
    assert_eq!(after(set_up, "write 0\nmultiply 2 1 1\nwrite 2\n"), ["ok 6", "1 3", "0", "refused 11", "ok 2", "0"]);
}

#[test]
fn residues() {
    let set_up = "kind residues\nformat X 16\nread 0\n1 257 0\n.\nread 1\n2 1 0\n.\nconstant 2 4\n";
    let script = "differentiate 3 0 0\nleading 3\ndivide 3 1 2\nwrite 3\n";
    assert_eq!(after(set_up, script), ["ok", "ok none", "ok", "ok 8", "129 1", "0"]);
}

#[test]
fn integers_do_not_round() {
    let set_up = "format X 16\nread 1\n2 1 0\n.\nconstant 2 4\n";
    assert_eq!(after(set_up, "divide 3 1 2\ndivide 3 2 1\n"), ["refused 14", "refused 14"]);
}

#[test]
fn words_have_divisors_of_zero() {
    let set_up = "kind words\nformat X 8 Y 8\nread 0\n65536,1,0,0\n.\nread 1\n65536,0,1,0\n.\n";
    let done = run(format!("{set_up}multiply 2 0 1\nleading 2\ndivide 2 0 1\n").as_bytes());
    assert!(done.output.ends_with("ok\nok none\nerror: line 11: a sheet of words does not divide\n"), "{}", done.output);
    assert_eq!(done.status, 1);
}

#[test]
fn a_zero_product_of_words_is_still_tested_for_its_exponents() {
    let set_up = "kind words\nformat X 1\nread 0\n65536,1,0\n.\n";
    assert_eq!(after(set_up, "multiply 0 0 0\n"), ["refused 11"]);
}

#[test]
fn pairs() {
    let set_up = "kind pairs\nformat X 8\nread 0\n1,0,1,0,1,0,,\n.\nread 1\n1,0,1,0,-1,0,,\n.\n";
    assert_eq!(after(set_up, "multiply 2 0 1\nwrite 2\n"), ["ok", "ok 16", "1,0 2", "1,0 0", "0,0"]);
    assert_eq!(after(set_up, "multiply 2 0 1\ndivide 3 2 1\nequal 3 0\n"), ["ok", "ok", "ok equal"]);
}

#[test]
fn division_that_fails() {
    let set_up = "format X 8 Y 8\nread 0\n1,2,0,1,1,1,1,0,2,0\n.\nread 1\n1,1,1,0\n.\n";
    assert_eq!(after(set_up, "divide 2 0 1\ndivide 2 0 7\ndivide 2 7 7\ndivide 2 7 0\n"), [
        "refused 14", "refused 13", "refused 13", "ok"
    ]);
}

#[test]
fn one_row() {
    let set_up = "format X 8 Y 8\nopen 12\nvariable 0 0\nvariable 1 1\n";
    let script = "add 2 0 1\nadd 2 0 0\nwrite 2\n";
    assert_eq!(after(set_up, script), ["refused 12", "ok", "ok 8", "2 1,0", "0"]);
}

#[test]
fn truncation() {
    let set_up = "format X 8 Y 8\nread 0\n1,2,0,1,1,1,1,0,1,0\n.\n";
    let script = "truncate 1 0 2 1\nwrite 1\ntruncate 1 0 0 0\nequal 0 1\ntruncate 1 0 3 1\ntruncate 8 0 3 1\n";
    assert_eq!(after(set_up, script), ["ok", "ok 8", "1 0,1", "0", "ok", "ok equal", "refused 17", "refused 5"]);
}

#[test]
fn formats() {
    assert_eq!(answers("format X 16\nformat X 17\nformat X 0\nformat\nformat A 16 B 16 C 16 D 16\nformat A 16 B 16 C 16 D 16 E 1\n"), [
        "ok", "refused 2", "refused 2", "refused 4", "ok", "refused 3"
    ]);
    let nine = "format A 1 B 1 C 1 D 1 E 1 F 1 G 1 H 1 I 1\n";
    assert_eq!(answers(nine), ["refused 3"]);
    // A letter comes before a width, and both before the count; an earlier variable before a later one.
    assert_eq!(answers("format x 99\nformat X 3 X 99\nformat A 1 B 1 C 1 D 1 E 1 F 1 G 1 H 1 I 17\nformat A 17 b 1\nformat AB 1\n"), [
        "refused 1", "refused 1", "refused 2", "refused 2", "refused 1"
    ]);
}

#[test]
fn opening() {
    assert_eq!(answers("format X 8\nopen 0\nopen 11\nopen 12\nopen 23\nopen 24\nopen 49151\nopen 49152\nopen 18446744073709551615\n"), [
        "ok", "ok 0", "ok 0", "ok 1", "ok 1", "ok 2", "ok 4095", "ok 4096", "ok 4096"
    ]);
}

#[test]
fn no_room_at_all() {
    let script = "constant 0 0\nconstant 0 1\nconstant 0 134217728\nvariable 0 0\nvariable 0 1\nvariable 8 1\nconstant 8 134217728\n";
    assert_eq!(after("format X 8\nopen 11\n", script), [
        "ok", "refused 12", "refused 10", "refused 12", "refused 6", "refused 5", "refused 5"
    ]);
}

#[test]
fn constants_take_two_figures() {
    assert_eq!(after("format X 8\n", "constant 0 5 0\nconstant 0 5 1\nleading 0\nconstant 0 -9223372036854775808\n"), [
        "ok", "refused 10", "ok 0 5", "refused 10"
    ]);
    assert_eq!(after("kind pairs\nformat X 8\n", "constant 0 0 -1073741823\nleading 0\nconstant 0 7\nleading 0\n"), [
        "ok", "ok 0 0,-1073741823", "ok", "ok 0 7,0"
    ]);
}

#[test]
fn a_product_is_refused_row_by_row() {
    // X + 20000 times X^3 + 20000: at the first row of the second X^4 is above the field; the 10 of the second is not reached.
    let set_up = "format X 2\nread 0\n1 1 20000 0 0\n.\nread 1\n1 3 20000 0 0\n.\nread 2\n20000 1 20000 0 0\n.\nread 3\n1 3 0\n.\n";
    assert_eq!(after(set_up, "multiply 4 0 1\n"), ["refused 11"]);
    // The first row of the second gives 10 before the second row's exponents are looked at.
    let set_up = "format X 2 Y 2\nread 0\n20000,0,3,0\n.\nread 1\n20000,1,0,1,0,1,0\n.\n";
    assert_eq!(after(set_up, "multiply 4 0 1\n"), ["refused 10"]);
    // In one row, 11 of a later pair comes before 10 of an earlier one.
    let set_up = "format X 2 Y 2\nread 0\n20000,1,0,1,0,3,0\n.\nread 1\n20000,0,1,0\n.\n";
    assert_eq!(after(set_up, "multiply 4 0 1\n"), ["refused 11"]);
}

#[test]
fn a_product_needs_room_on_the_way() {
    // (X^2 - X + 1)(X + 1) = X^3 + 1, with X^3 - X^2 + X after the first row: three rows on the way to two.
    // The other way round it goes by X^3 + X^2, then X^3 - X, then X^3 + 1.
    let decks = "read 0\n1,2,-1,1,1,,\n.\nread 1\n1,1,1,,\n.\n";
    let script = "multiply 2 0 1\nwrite 2\nmultiply 3 1 0\nequal 2 3\n";
    assert_eq!(after(&format!("format X 8\nopen 36\n{decks}"), script), ["ok", "ok 10", "1 3", "1 0", "0", "ok", "ok equal"]);
    // (X^2 + X)(X^2 - X), two rows each: X^4 + X^3, then X^4 - X^2. The square of X + 1 is one row too many.
    let decks = "read 0\n1,2,1,1,0\n.\nread 1\n1,2,-1,1,0\n.\n";
    let script = "multiply 2 0 1\nwrite 2\nmultiply 3 0 0\n";
    assert_eq!(after(&format!("format X 8\nopen 24\n{decks}"), script), ["ok", "ok 11", "1 4", "-1 2", "0", "refused 12"]);
}

#[test]
fn a_quotient_may_be_too_long() {
    // X^3 - Y^3 by X - Y: two rows of remainder at every step, three rows of quotient.
    let decks = "read 0\n1,3,0,-1,0,3,0\n.\nread 1\n1,1,0,-1,0,1,0\n.\n";
    assert_eq!(after(&format!("format X 8 Y 8\nopen 24\n{decks}"), "divide 2 0 1\n"), ["refused 12"]);
    let script = "divide 2 0 1\nwrite 2\n";
    assert_eq!(after(&format!("format X 8 Y 8\nopen 36\n{decks}"), script), ["ok", "ok 20", "1 2,0", "1 1,1", "1 0,2", "0"]);
}

#[test]
fn division_meets_the_limits_of_numbers_and_exponents() {
    // X^2 by X + 134217727: the second step multiplies the limit by itself.
    let decks = "read 0\n1,2,,\n.\nread 1\n1,1,134217727,,\n.\n";
    assert_eq!(after(&format!("format X 8\n{decks}"), "divide 2 0 1\n"), ["refused 10"]);
    // X^2 + 134217727 X by X - 5: the remainder would have 134217732.
    let decks = "read 0\n1,2,134217727,1,0\n.\nread 1\n1,1,-5,,\n.\n";
    assert_eq!(after(&format!("format X 8\n{decks}"), "divide 2 0 1\n"), ["refused 10"]);
    // X Y^3 by X + Y^3, width 2: Y^3 times Y^3.
    let decks = "read 0\n1,1,3,0\n.\nread 1\n1,1,,1,,3,0\n.\n";
    assert_eq!(after(&format!("format X 2 Y 2\n{decks}"), "divide 2 0 1\n"), ["refused 11"]);
}

#[test]
fn derivatives() {
    let set_up = "format X 16 Y 4\nread 0\n3,2,1,5,0,1,7,1,0,0\n.\nread 1\n134217727,2,0,0\n.\n";
    assert_eq!(after(set_up, "differentiate 2 0 0\nwrite 2\ndifferentiate 2 0 1\nwrite 2\n"), [
        "ok", "ok 14", "6 1,1", "7 0,0", "0", "ok", "ok 14", "3 2,0", "5 0,0", "0"
    ]);
    assert_eq!(after(set_up, "differentiate 2 1 0\ndifferentiate 2 1 2\ndifferentiate 2 8 2\ndifferentiate 1 1 1\nleading 1\n"), [
        "refused 10", "refused 6", "refused 5", "ok", "ok none"
    ]);
}

#[test]
fn substitution() {
    // X^2 Y + 3 X + 5 with X + 1 for X: (X^2 + 2X + 1) Y + 3X + 3 + 5.
    let set_up = "format X 4 Y 4\nread 0\n1,2,1,3,1,0,5,,,,\n.\nread 1\n1,1,,1,,,,\n.\n";
    assert_eq!(after(set_up, "substitute 2 0 1 0\nwrite 2\n"), [
        "ok", "ok 32", "1 2,1", "2 1,1", "3 1,0", "1 0,1", "8 0,0", "0"
    ]);
    // Zero for X leaves what has no X, for a zeroth power is one.
    assert_eq!(after(set_up, "substitute 0 0 7 0\nwrite 0\nsubstitute 0 0 0 2\n"), ["ok", "ok 8", "5 0,0", "0", "refused 6"]);
    // The power of an exponent that grows beyond its field.
    assert_eq!(after("format X 2\nread 0\n1 3 0\n.\nread 1\n1 2 0\n.\n", "substitute 2 0 1 0\n"), ["refused 11"]);
}

#[test]
fn truncated_products_pass_pairs_over() {
    // X^3 x X^3 is beyond the field and over the sum, so it is passed over; 20000 x 20000 is not looked at either.
    let set_up = "format X 2 Y 2\nread 0\n20000,3,0,1,0,1,0\n.\n";
    assert_eq!(after(set_up, "multiply-truncate 1 0 0 1 2\nwrite 1\nmultiply-truncate 1 0 0 1 6\nmultiply-truncate 1 0 0 1 3\n"), [
        "ok", "ok 8", "1 0,2", "0", "refused 11", "ok"
    ]);
    assert_eq!(after(set_up, "multiply-truncate 1 0 0 3 0\nmultiply-truncate 1 0 9 3 0\nmultiply-truncate 1 0 0 0 0\n"), [
        "refused 17", "refused 5", "refused 11"
    ]);
}

#[test]
fn results_may_overwrite_operands() {
    let set_up = "format X 8\nread 0\n1,1,2,,\n.\n";
    assert_eq!(after(set_up, "add 0 0 0\nmultiply 0 0 0\nwrite 0\nsubtract 0 0 0\nwrite 0\n"), [
        "ok", "ok", "ok 16", "4 2", "16 1", "16 0", "0", "ok", "ok 2", "0"
    ]);
}

#[test]
fn subtract_and_negate() {
    let set_up = "format X 8\nconstant 0 134217727\nconstant 1 -134217727\n";
    assert_eq!(after(set_up, "negate 2 0\nequal 2 1\nsubtract 3 0 1\nsubtract 3 0 0\nequal 3 4\nadd 3 0 1\nequal 0 1\n"), [
        "ok", "ok equal", "refused 10", "ok", "ok equal", "ok", "ok different"
    ]);
}

#[test]
fn writing_needs_room_for_all() {
    let set_up = "format X 8\nread 0\n-12,3,0\n.\n";
    assert_eq!(after(set_up, "write 0 7\nwrite 0 8\nwrite 8 0\nwrite 1 1\nwrite 1 2\n"), [
        "refused 16", "ok 8", "-12 3", "0", "refused 5", "refused 16", "ok 2", "0"
    ]);
}

#[test]
fn keys() {
    let set_up = "format X 3 Y 5\nread 0\n9,2,3,0\n.\n";
    assert_eq!(after(set_up, "leading 0\nleading 8\n"), ["ok 67 9", "refused 5"]);
    let set_up = "format A 16 B 16 C 16 D 16\nread 0\n9,65535,65535,65535,65535,0\n.\n";
    assert_eq!(after(set_up, "leading 0\n"), ["ok 18446744073709551615 9"]);
}
