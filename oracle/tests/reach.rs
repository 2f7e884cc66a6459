//! The random scripts reach every outcome that each call can have.

use oracle::census::{Census, Outcome};
use oracle::generator::{script, Order};
use oracle::script::run;

fn random_script(seed: u64) -> Vec<u8> {
    script(Order { seed, calls: 200, folder: None, only: None }).unwrap()
}

#[test]
fn every_outcome_is_reached() {
    let mut census = Census::default();
    for seed in 0..400 {
        let script = random_script(seed);
        census.add(&script, run(&script).output.as_bytes()).unwrap();
    }
    for number in 1..=4 {
        assert!(census.count("format", "-", Outcome::Refused(number)) > 0, "format {number}");
    }
    // The refusals of each call: over every kind, and those that only kinds with a limit have.
    let calls: [(&str, &[u8], &[u8]); 16] = [
        ("read", &[5, 7, 8, 9, 10, 11, 12], &[]),
        ("constant", &[5, 10, 12], &[]),
        ("variable", &[5, 6, 12], &[]),
        ("copy", &[5], &[]),
        ("negate", &[5], &[]),
        ("add", &[5, 12], &[10]),
        ("subtract", &[5, 12], &[10]),
        ("multiply", &[5, 11, 12], &[10]),
        ("divide", &[5, 11, 12, 13, 14], &[10]),
        ("differentiate", &[5, 6], &[10]),
        ("substitute", &[5, 6, 11, 12], &[10]),
        ("truncate", &[5, 17], &[]),
        ("multiply-truncate", &[5, 11, 12, 17], &[10]),
        ("write", &[5, 16], &[]),
        ("equal", &[5], &[]),
        ("leading", &[5], &[]),
    ];
    for (name, always, limited) in calls {
        for kind in ["integers", "residues", "pairs", "words"] {
            assert!(census.count(name, kind, Outcome::Mistake) > 0, "{name} {kind} error");
            if name == "divide" && kind == "words" {
                continue;
            }
            assert!(census.count(name, kind, Outcome::Accepted) > 0, "{name} {kind} ok");
            let has_limit = kind == "integers" || kind == "pairs";
            for number in always.iter().chain(if has_limit { limited } else { &[] }) {
                assert!(census.count(name, kind, Outcome::Refused(*number)) > 0, "{name} {kind} {number}");
            }
        }
    }
}

#[test]
fn a_seed_makes_one_script() {
    assert_eq!(random_script(7), random_script(7));
    assert_ne!(random_script(7), random_script(8));
}
