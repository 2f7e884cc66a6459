//! Random decks: well-formed in many layouts, damaged, and of random bytes.

use super::random::Random;
use super::terms::Term;
use crate::kind::Kind;

const COLUMNS: usize = 72;

/// The numbers of a deck, with the zeros that end it.
fn numbers(terms: &[Term], kind: Kind) -> Vec<i64> {
    let mut list = Vec::new();
    for term in terms {
        list.extend(&term.figures);
        list.extend(term.exponents.iter().map(|exponent| i64::from(*exponent)));
    }
    list.extend(vec![0; kind.figure_count()]);
    list
}

/// One number as it may stand on a card.
fn spelled(random: &mut Random, number: i64) -> String {
    if random.percent(96) {
        return number.to_string();
    }
    let sign = if number < 0 || (number == 0 && random.percent(60)) { "-" } else { "" };
    let digits = number.unsigned_abs().to_string();
    let zeros = random.below(19 - digits.len().min(18));
    format!("{sign}{}{digits}", "0".repeat(zeros))
}

/// A card with these numbers, zeros partly understood. Whether its last number is written comes with it.
fn card(random: &mut Random, numbers: &[i64]) -> (String, bool) {
    let commas = random.weighted(&[(5, 100), (3, 0), (2, 50)]);
    let leave_out = random.pick(&[0, 50, 90]);
    let mut text = if random.percent(10) { " ".to_string() } else { String::new() };
    // Whether the number before is written. If it is left out, a comma has to follow.
    let mut written = false;
    for (index, number) in numbers.iter().enumerate() {
        let comma = index > 0 && (!written || random.percent(commas));
        if comma {
            let gap = if random.percent(90) { "" } else { " " };
            text += &format!("{gap},{gap}");
        } else if index > 0 {
            text += " ";
        }
        // A zero is understood between commas, and between a comma and the card's start or end.
        let between_commas = comma || (index == 0 && numbers.len() > 1);
        written = !(*number == 0 && between_commas && random.percent(leave_out));
        if written {
            text += &spelled(random, *number);
        }
    }
    (text, written)
}

/// A deck of these terms that is read whole, if they fit.
pub fn well_formed(random: &mut Random, terms: &[Term], kind: Kind) -> Vec<u8> {
    let numbers = numbers(terms, kind);
    let mut text = String::new();
    let mut at = 0;
    let per_card = random.pick(&[2, 6, 12, 30]);
    while at < numbers.len() {
        let mut take = (1 + random.below(per_card)).min(numbers.len() - at);
        let (mut line, mut written) = card(random, &numbers[at..at + take]);
        while line.len() > COLUMNS {
            take = (take / 2).max(1);
            (line, written) = card(random, &numbers[at..at + take]);
        }
        at += take;
        if at == numbers.len() {
            if written && random.percent(15) {
                line += random.pick(&[" comment", ", and -x", " 1,2,3", ",,", " .", " -"]);
            }
        } else if random.percent(6) {
            line = format!("{line:<COLUMNS$}");
            line += random.pick(&["x", "  7", ",,", "-", "12345", "\r", ",9 -", "  comment"]);
        }
        text += &line;
        if at < numbers.len() || random.percent(90) {
            text += "\n";
        }
        if random.percent(3) && at < numbers.len() {
            text += random.pick(&["\n", "   \n"]);
        }
    }
    if random.percent(6) && text.ends_with('\n') {
        text += random.pick(&["more\n", "\n", "1 2 3\n", "0"]);
    }
    text.into_bytes()
}

/// A card for each term, its numbers parted by commas. A first figure of zero is left to the comma at the end of the
/// card before it.
pub fn split_figures(random: &mut Random, terms: &[Term]) -> Vec<u8> {
    let mut text = "".to_string();
    for term in terms {
        let mut numbers: Vec<String> = term.figures.iter().map(|figure| figure.to_string()).collect();
        if numbers[0] == "0" && text.ends_with('\n') {
            text.insert_str(text.len() - 1, random.pick(&[",", " ,", ",  "]));
            numbers.remove(0);
        }
        numbers.extend(term.exponents.iter().map(|exponent| exponent.to_string()));
        text += &format!("{}\n", numbers.join(","));
    }
    text += random.pick(&["0,0\n", "0 0", ",\n"]);
    text.into_bytes()
}

fn some_byte(random: &mut Random) -> u8 {
    random.weighted(&[
        (10, b' '),
        (14, b','),
        (8, b'-'),
        (8, b'0'),
        (8, b'1'),
        (4, b'2'),
        (3, b'3'),
        (2, b'7'),
        (2, b'9'),
        (9, 10),
        (1, b'x'),
        (1, 13),
        (1, b'+'),
        (1, b'.'),
        (1, 9),
        (1, 0),
        (1, 200),
    ])
}

/// A deck with a few bytes changed.
pub fn damaged(random: &mut Random, mut text: Vec<u8>) -> Vec<u8> {
    for _ in 0..1 + random.below(3) {
        let at = random.below(text.len() + 1);
        match random.below(7) {
            0 => text.truncate(at),
            1 => {
                if at < text.len() {
                    text.remove(at);
                }
            }
            2 => {
                if at < text.len() {
                    text[at] = some_byte(random);
                }
            }
            3 => {
                // A run of digits, about as long as a number may be.
                let count = 14 + random.below(7);
                let digit = random.pick(&[b'0', b'0', b'1', b'9']);
                text.splice(at..at, vec![digit; count]);
            }
            4 => {
                // Blanks, so that what follows gets to the edge of the card.
                let count = 40 + random.below(40);
                text.splice(at..at, vec![b' '; count]);
            }
            _ => {
                let byte = some_byte(random);
                text.insert(at, byte);
            }
        }
    }
    text
}

/// Random bytes, mostly such as may stand on a card.
pub fn random_bytes(random: &mut Random) -> Vec<u8> {
    let count = random.below(40);
    let plain = random.percent(60);
    let mut text = Vec::new();
    while text.len() < count {
        let byte = some_byte(random);
        if !plain || matches!(byte, b' ' | b',' | b'-' | b'0'..=b'9' | 10) {
            text.push(byte);
        }
    }
    text
}

/// A card whose last bytes stand about column 72, and a card or two after it.
pub fn at_the_edge(random: &mut Random) -> Vec<u8> {
    let mut text = vec![b' '; 50 + random.below(24)];
    if random.percent(40) {
        text.splice(0..1, *b"1");
    }
    while text.len() < 76 {
        let byte = random.pick(b"0001 ,,-12");
        text.push(byte);
    }
    text.push(10);
    text.extend(random.pick(&["1 2 0\n", "0,0\n", "1,1,1,1,1,0,0\n", ",\n", "3\n0\n", "", "x\n"]).bytes());
    text
}

/// Short texts at which a reader stumbles.
pub fn tricky(random: &mut Random) -> Vec<u8> {
    let list: [&[u8]; 47] = [
        b"", b"\n", b",", b",\n", b",,", b"-", b"-\n", b"--1", b"- 1", b"-,", b"-x", b"0x", b"0-", b"0 x\n", b"0,x\n", b"-0",
        b"-0 -0\n", b"1-1", b"1x", b"  , ,\n0\n", b"1\n,\n,\n", b",1 1\n0,0\n", b"1,\n0\n", b"1 , ,\n", b"0 0\n",
        b"000000000000000000\n", b"0000000000000000000\n", b"-000000000000000000\n", b"-0000000000000000000\n",
        b"1 000000000000000001 0\n0\n", b"1 0000000000000000001 0\n0\n", b"999999999999999999\n", b"999999999999999999,1 \n",
        b"1,999999999999999999 \n", b"1 1\r\n0\r\n", b"\t0\n", b"1,1,1,1,1,1,1,1,1,1,", b"2 -1\n0\n", b"1 65536 \n", b"1 0 -0 ,\n",
        // A first figure that does not fit, with the second spoilt, missing or sound.
        b"2000000000 x", b"2000000000\n", b"2000000000,-", b"2000000000 0000000000000000000", b"-2000000000 1 \n",
        b"2000000000,\nx", b", 2000000000",
    ];
    random.pick(&list).to_vec()
}
