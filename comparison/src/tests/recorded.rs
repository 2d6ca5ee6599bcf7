//! The recorded list: it is what its parts give, its answers are the driver's, and nothing reachable is missing from it.

use std::fs;

use crate::calls::run_script;
use crate::coverage::Coverage;
use crate::generate::{all_verbs, script, Profile};
use crate::record::{list, root, STDIN, STDOUT};

#[test]
fn the_list_is_what_its_parts_give() {
    let recorded = fs::read(root().join(STDIN)).unwrap();
    assert!(recorded == list(&root()).unwrap(), "run `comparison/record`");
    assert!(recorded.starts_with(b"# An evening at a box office"));
}

#[test]
fn the_answers_are_the_drivers() {
    let recorded = fs::read(root().join(STDIN)).unwrap();
    let answers = fs::read(root().join(STDOUT)).unwrap();
    assert!(answers == run_script(&recorded).into_bytes(), "run `comparison/record`");
}

/// Every answer that a verb can give, `route` and `arbitrate` by kind too, and every kind of list.
#[test]
fn the_list_has_everything() {
    let mut coverage = Coverage::default();
    coverage.add(&fs::read(root().join(STDIN)).unwrap());
    assert!(coverage.calls() >= 3_000);
    assert_eq!(coverage.missing_pairs(), []);
    assert_eq!(coverage.missing_lists(), []);
    assert_eq!(coverage.unexpected(), []);
}

/// The generator reaches the same by itself, and nothing beyond what the table says.
#[test]
fn generated_scripts_reach_everything() {
    let mut coverage = Coverage::default();
    for seed in 1..=1_500 {
        let profile = Profile::ALL[seed as usize % Profile::ALL.len()];
        coverage.add(&script(seed, 200, profile, &all_verbs()));
    }
    assert_eq!(coverage.missing_pairs(), []);
    assert_eq!(coverage.missing_lists(), []);
    assert_eq!(coverage.unexpected(), []);
}
