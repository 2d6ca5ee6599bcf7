//! Generated scripts of all profiles on both sides: every answer and both whole states after every call.
//!
//! `NIBCOBALT_SCRIPTS` is how many scripts are run (500), `NIBCOBALT_CALLS` how many calls each has (200),
//! `NIBCOBALT_SEED` the first seed (1).

use std::collections::BTreeMap;

use compared::both::Both;
use comparison::calls::lines;
use comparison::generate::{all_verbs, script, Profile};

fn number(name: &str, otherwise: u64) -> u64 {
    let given = std::env::var(name).ok();
    given.map_or(otherwise, |text| text.parse().unwrap_or_else(|_| panic!("{name} is no number")))
}

#[test]
fn generated_scripts_are_answered_alike() {
    let (scripts, calls) = (number("NIBCOBALT_SCRIPTS", 500), number("NIBCOBALT_CALLS", 200));
    let first = number("NIBCOBALT_SEED", 1);
    let verbs = all_verbs();
    let mut made = 0_u64;
    let mut answers = BTreeMap::<u64, u64>::new();
    for seed in first..first + scripts {
        let profile = Profile::ALL[(seed % 5) as usize];
        let script = script(seed, calls as usize, profile, &verbs);
        let mut both = Both::default();
        for (place, line) in lines(&script).enumerate() {
            match both.run(line) {
                Ok(Some(answer)) => *answers.entry(answer).or_default() += 1,
                Ok(None) => {}
                Err(difference) => panic!(
                    "seed {seed}, profile {}, line {}: {}\n{}",
                    profile.name(),
                    place + 1,
                    difference.line,
                    difference.what
                ),
            }
            made += 1;
        }
    }
    println!("{scripts} scripts, {made} lines; answers and how often: {answers:?}");
    assert!(made >= scripts * calls);
}
