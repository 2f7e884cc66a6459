//! Decks worked out by hand: what is read, what is refused, and at which byte.

use oracle::deck_reader::{read, Fault};
use oracle::deck_writer::deck;
use oracle::format::Format;
use oracle::kind::Kind;
use oracle::refusal::Refusal;
use oracle::setting::Setting;

fn setting(kind: Kind, format: &[(&[u8], u32)], room: usize) -> Setting {
    Setting { kind, format: Format::new(format).unwrap(), room }
}

fn x_alone() -> Setting {
    setting(Kind::Integers, &[(b"X", 8)], 100)
}

fn pairs() -> Setting {
    setting(Kind::Pairs, &[(b"X", 8)], 100)
}

/// The text reads as these cards, and through so many bytes.
fn reads(text: &str, setting: &Setting, cards: &str, bytes: usize) {
    let (polynomial, through) = read(text.as_bytes(), setting).unwrap_or_else(|fault| panic!("{text:?}: {fault:?}"));
    assert_eq!(deck(&polynomial, setting), cards, "{text:?}");
    assert_eq!(through, bytes, "{text:?}");
}

/// The text is refused with this number at this byte.
fn refuses(text: &str, setting: &Setting, number: u8, byte: usize) {
    assert_eq!(read(text.as_bytes(), setting), Err(Fault { refusal: Refusal(number), byte }), "{text:?}");
}

#[test]
fn three_variables_with_understood_zeros() {
    let xyz = setting(Kind::Integers, &[(b"X", 8), (b"Y", 8), (b"Z", 8)], 100);
    reads("3,2,,,2,1,1,1,-5,,1,2,", &xyz, "3 2,0,0\n2 1,1,1\n-5 0,1,2\n0\n", 22);
    reads("3,2,,,2,1,1,1,-5,,1,2,\nmore", &xyz, "3 2,0,0\n2 1,1,1\n-5 0,1,2\n0\n", 23);
}

#[test]
fn the_zero_deck_and_the_empty_text() {
    reads("0", &x_alone(), "0\n", 1);
    reads("0\n", &x_alone(), "0\n", 2);
    refuses("", &x_alone(), 9, 0);
    refuses("\n", &x_alone(), 9, 1);
    refuses("   \n\n", &x_alone(), 9, 5);
}

#[test]
fn terms_cancel_or_do_not_fit_together() {
    reads("1 1 -1 1 0", &x_alone(), "0\n", 10);
    refuses("134217727 1 1 1 -1 1 0", &x_alone(), 10, 12);
    reads("134217727 1 -1 1 1 1 0", &x_alone(), "134217727 1\n0\n", 22);
}

#[test]
fn a_number_has_to_end_before_it_is_tested() {
    let narrow = setting(Kind::Residues, &[(b"X", 2)], 100);
    refuses("257x", &narrow, 7, 3);
    refuses("257 x", &narrow, 10, 0);
    refuses("1 4x", &narrow, 7, 3);
    refuses("1 4 x", &narrow, 11, 2);
    refuses("1 4\nx", &narrow, 11, 2);
    refuses("1 3\nx", &narrow, 7, 4);
    refuses("0x", &x_alone(), 7, 1);
    refuses("0-", &x_alone(), 7, 1);
    reads("0 x", &x_alone(), "0\n", 3);
    reads("0,x", &x_alone(), "0\n", 3);
    reads("0 x\ny", &x_alone(), "0\n", 4);
}

#[test]
fn a_minus_needs_a_digit_and_no_digit_before() {
    for text in ["- 1", "-,1", "--1", "-x", "-\n1", "-"] {
        refuses(text, &x_alone(), 7, 0);
    }
    refuses("1-1", &x_alone(), 7, 1);
    refuses("1 2 -", &x_alone(), 7, 4);
    refuses(&format!("{}-1 0\n", " ".repeat(71)), &x_alone(), 7, 71);
    reads(&format!("{}-1\n1\n0", " ".repeat(70)), &x_alone(), "-1 1\n0\n", 76);
}

#[test]
fn only_72_columns_count() {
    // The number is cut after column 72: 12 of 123, then its exponent stands on the next card.
    reads(&format!("{}123\n5\n0\n", " ".repeat(70)), &x_alone(), "12 5\n0\n", 78);
    // Past column 72 anything goes, and nothing means anything.
    reads(&format!("7{}x-,,9\r\n5\n0\n", " ".repeat(71)), &x_alone(), "7 5\n0\n", 83);
    // A zero that column 72 ends is a zero, and its card is counted whole.
    reads(&format!("{}0xyz\n", " ".repeat(71)), &x_alone(), "0\n", 76);
    reads(&format!("{}0xyz", " ".repeat(71)), &x_alone(), "0\n", 75);
    // A comma in column 73 has no understood zero.
    refuses(&format!("{},", " ".repeat(72)), &x_alone(), 9, 73);
    reads(&format!("{},", " ".repeat(71)), &x_alone(), "0\n", 72);
    // The nineteenth digit has to be counted to be refused.
    let zeros = "0".repeat(18);
    reads(&format!("{}{}1", " ".repeat(54), zeros), &x_alone(), "0\n", 73);
    refuses(&format!("{}{}1", " ".repeat(53), zeros), &x_alone(), 8, 53);
}

#[test]
fn eighteen_digits_are_read_and_the_nineteenth_is_refused() {
    reads("000000000000000001 2 0", &x_alone(), "1 2\n0\n", 22);
    refuses("0000000000000000001 2 0", &x_alone(), 8, 0);
    refuses("1 -0000000000000000001x", &x_alone(), 8, 2);
    reads("1 -000000000000000000 0", &x_alone(), "1 0\n0\n", 23);
    refuses("999999999999999999 1 0", &x_alone(), 10, 0);
    refuses("1 999999999999999999 0", &x_alone(), 11, 2);
    reads("000000000000000001,-000000000000000002 3\n0,0\n", &pairs(), "1,-2 3\n0,0\n", 45);
    refuses("1,9999999999999999 3\n0,0\n", &pairs(), 10, 0);
}

#[test]
fn minus_zero_is_zero() {
    reads("-0", &x_alone(), "0\n", 2);
    reads("5 -0 -0 x", &x_alone(), "5 0\n0\n", 9);
    reads("-0 -1 3 -0 -0", &pairs(), "0,-1 3\n0,0\n", 13);
}

#[test]
fn understood_zeros_see_their_own_card() {
    // Just a comma: the zero before it ends the deck of a kind of one figure; a pair takes the one after it too.
    reads(",", &x_alone(), "0\n", 1);
    reads(",x-\n", &x_alone(), "0\n", 4);
    reads(",", &pairs(), "0,0\n", 1);
    refuses(",x", &pairs(), 7, 1);
    reads(",\nx", &pairs(), "0,0\n", 2);
    // A comma after a number and blanks has no zero before it.
    reads("5 , 3 , 0", &x_alone(), "5 3\n0\n", 9);
    // The comma at the end of a card has a zero after it, however the next card begins.
    reads("5,\n0", &x_alone(), "5 0\n0\n", 4);
    refuses("5,\n3 ,", &x_alone(), 9, 6);
    // 5, then 0 after the comma; 3, and its comma again has a zero after it; then the text ends.
    reads("5,\n3 ,\n0", &x_alone(), "8 0\n0\n", 8);
    // Blank and empty cards have none.
    reads("5\n\n   \n3\n0", &x_alone(), "5 3\n0\n", 10);
    // A comma between blanks at the start of a card.
    reads("5\n , 7 4\n0", &x_alone(), "7 4\n5 0\n0\n", 10);
    // An exponent that is understood before a comma, then a coefficient that ends the deck after it.
    reads("5\n,", &x_alone(), "5 0\n0\n", 3);
    reads("5,,,7 is comment\n", &x_alone(), "5 0\n0\n", 17);
    refuses("5,,7 is none\n", &x_alone(), 7, 5);
}

#[test]
fn the_zero_after_the_last_comma_comes_after_everything_else() {
    refuses("5,x", &x_alone(), 7, 2);
    refuses("5, -", &x_alone(), 7, 3);
    // Figure of a pair: 0 after the comma, so (2000000000, 0) does not fit; reported at its first byte.
    refuses("  2000000000,  \n", &pairs(), 10, 2);
    refuses("  2000000000,  x\n", &pairs(), 7, 15);
}

#[test]
fn a_pair_is_tested_when_its_second_figure_ends() {
    refuses("2000000000 x", &pairs(), 7, 11);
    refuses("2000000000 1 x", &pairs(), 10, 0);
    refuses("1 2000000000 ", &pairs(), 10, 0);
    refuses(", 2000000000", &pairs(), 10, 0);
    refuses("2000000000", &pairs(), 9, 10);
    reads("0 1 2 0 0", &pairs(), "0,1 2\n0,0\n", 9);
    reads(",1 2,0 , 0 rest", &pairs(), "0,1 2\n0,0\n", 15);
}

#[test]
fn the_last_exponent_is_tested_before_the_sum_and_the_sum_before_the_rows() {
    let small = setting(Kind::Integers, &[(b"X", 2)], 1);
    refuses("134217727 1 134217727 4 0", &small, 11, 22);
    refuses("134217727 1 134217727 1 0", &small, 10, 12);
    refuses("1 1 1 2 0", &small, 12, 4);
    // Later terms do not heal it; a term that cancels before makes room.
    refuses("1 1 1 2 -1 1 0", &small, 12, 4);
    reads("1 1 -1 1 1 2 0", &small, "1 2\n0\n", 14);
    let none = setting(Kind::Integers, &[(b"X", 2)], 0);
    refuses(" 1 1 0", &none, 12, 1);
    reads("0", &none, "0\n", 1);
}

#[test]
fn the_end_of_the_text_ends_its_card() {
    refuses("1 2", &x_alone(), 9, 3);
    refuses("1 256", &x_alone(), 11, 2);
    refuses("134217728", &x_alone(), 10, 0);
    refuses("1,", &x_alone(), 9, 2);
    refuses("1,2,3,4", &x_alone(), 9, 7);
    reads("1,2,", &x_alone(), "1 2\n0\n", 4);
}

#[test]
fn only_byte_10_ends_a_card() {
    refuses("1 2\r\n0\r\n", &x_alone(), 7, 3);
    reads("0 \r\n0", &x_alone(), "0\n", 4);
    refuses("1\t2", &x_alone(), 7, 1);
    refuses("+1 2", &x_alone(), 7, 0);
}

#[test]
fn exponents_are_tested_as_they_end() {
    let two = setting(Kind::Integers, &[(b"X", 2), (b"Y", 2)], 10);
    refuses("1 4 x", &two, 11, 2);
    refuses("1 -1 x", &two, 11, 2);
    refuses("1,,-1,", &two, 11, 3);
    refuses("1 3 4", &two, 11, 4);
}

#[test]
fn figures_of_residues_and_words() {
    let residues = setting(Kind::Residues, &[(b"X", 8)], 10);
    refuses("-1 0 0", &residues, 10, 0);
    reads("-0", &residues, "0\n", 2);
    reads("256 1 2 1 0", &residues, "1 1\n0\n", 11);
    let words = setting(Kind::Words, &[(b"X", 8)], 10);
    reads("4294967295 1 1 1 0", &words, "0\n", 18);
    refuses("4294967296 1 0", &words, 10, 0);
}
