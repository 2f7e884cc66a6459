//! Random kinds, formats and sizes of sheets.

use super::random::Random;
use crate::kind::KINDS;

pub fn kind_line(random: &mut Random) -> String {
    format!("kind {}", random.pick(&KINDS).name())
}

fn letters(random: &mut Random, count: usize) -> Vec<char> {
    let mut left: Vec<char> = ('A'..='Z').collect();
    (0..count).map(|_| left.remove(random.below(left.len()))).collect()
}

fn line(letters: &[char], widths: &[u32]) -> String {
    let mut text = "format".to_string();
    for (letter, width) in letters.iter().zip(widths) {
        text += &format!(" {letter} {width}");
    }
    text
}

/// So many widths from 1 to 16 that add to `total`.
fn widths_of_total(random: &mut Random, count: usize, total: u32) -> Vec<u32> {
    let mut widths = vec![1; count];
    let mut sum = count as u32;
    while sum < total {
        let at = random.below(count);
        if widths[at] < 16 {
            widths[at] += 1;
            sum += 1;
        }
    }
    widths
}

/// A format that is accepted.
pub fn good_format(random: &mut Random) -> String {
    let widths = match random.below(10) {
        0..=2 => {
            let count = 1 + random.below(3);
            (0..count).map(|_| random.between(2, 5) as u32).collect()
        }
        3..=5 => {
            let count = 1 + random.below(4);
            (0..count).map(|_| random.between(4, 16) as u32).collect()
        }
        6 => {
            let count = 1 + random.below(8);
            (0..count).map(|_| random.between(1, 2) as u32).collect()
        }
        7 => {
            let count = 1 + random.below(8);
            (0..count).map(|_| random.between(1, 8) as u32).collect()
        }
        _ => {
            let count = 4 + random.below(5);
            let total = random.pick(&[64, 64, 63]);
            widths_of_total(random, count, total)
        }
    };
    line(&letters(random, widths.len()), &widths)
}

/// A format that is refused: with 1, 2, 3 or 4, at any of its variables.
pub fn bad_format(random: &mut Random) -> String {
    match random.below(9) {
        0 => "format".to_string(),
        1 => {
            let count = 5 + random.below(4);
            line(&letters(random, count), &widths_of_total(random, count, 65))
        }
        2 => {
            let width = random.pick(&[1, 3, 16, 17, 0]);
            line(&letters(random, 9), &[1, 1, 2, 1, 3, 1, 1, 1, width])
        }
        3 => {
            let width = random.pick(&["0", "17", "18", "256", "65536", "4294967295"]);
            format!("{} Z {width}", line(&['X'], &[3]))
        }
        4 => {
            let width = random.pick(&[3, 17]);
            format!("format X 3 Y 2 X {width}")
        }
        5 => {
            let letter = random.pick(&["x", "XY", "1", "@", "[", "a", "-", "\u{c4}", "Z9"]);
            let width = random.pick(&[0, 4, 99]);
            format!("format X 3 {letter} {width}")
        }
        6 => "format A 16 B 16 C 16 D 16 E 1".to_string(),
        7 => "format A 16 B 16 C 16 D 15 E 2 F 17".to_string(),
        _ => "format X 0 x 3".to_string(),
    }
}

pub fn open_line(random: &mut Random) -> String {
    let rows = match random.below(20) {
        0 => random.pick(&[0, 1, 11]),
        1..=6 => random.pick(&[12, 13, 23, 24, 35, 36, 47, 48, 59, 60, 61]),
        7..=11 => random.pick(&[72, 96, 119, 120, 143, 144]),
        12..=16 => random.pick(&[240, 359, 600, 1200]),
        _ => random.pick(&[6000, 49_151, 49_152, 49_163, 49_164, 100_000, u64::MAX]),
    };
    format!("open {rows}")
}
