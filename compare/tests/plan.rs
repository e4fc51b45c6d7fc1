//! What is compared, whatever the arguments.

use compare::arguments::Arguments;
use compare::case::{always, Case};
use compare::work::{cases, BLOCKS};
use std::path::PathBuf;

#[test]
fn every_run_has_the_cases_that_it_must_have() {
    for files in [0, 1, 1_000, 5_000, 20_000, 100_000] {
        let cases = cases(files);
        assert!(cases.len() + BLOCKS >= files);
        let others = cases.iter().filter(|case| **case == Case::Any).count();
        let mut needed = always();
        assert_eq!(cases.len(), needed.len() + others);
        for case in cases.iter().filter(|case| **case != Case::Any) {
            let place = needed.iter().position(|other| other == case);
            needed.remove(place.expect("each as often as it has to be"));
        }
        assert!(needed.is_empty());
    }
}

#[test]
fn arguments_are_read_in_any_order() {
    let read = |words: &str| {
        let words: Vec<String> = words.split(' ').map(str::to_string).collect();
        Arguments::read(&words)
    };
    let wanted = Arguments {
        seed: 7,
        files: 20,
        queries: 30,
        rules: PathBuf::from("rules"),
        keep: Some(PathBuf::from("kept")),
        threads: 2,
    };
    let words = "--rules rules --keep kept --seed 7 --threads 2 --queries 30 --files 20";
    assert_eq!(read(words), Some(wanted));
    assert_eq!(read("--seed 7 --files 20 --queries 30"), None);
    assert_eq!(read("--seed x --files 20 --queries 30 --rules r"), None);
}
