//! Compares a program with the driver:
//! compare PORT_PROGRAM COUNT CALLS [SEED] [PROFILE,..] [VERB,..]

use std::process::exit;

use comparison::compare::{compare, verbs_named, Plan};
use comparison::generate::{all_verbs, Profile};
use comparison::program::run;

fn main() {
    let arguments = std::env::args().skip(1).collect::<Vec<_>>();
    let Some((program, plan)) = read(&arguments) else {
        eprintln!("compare PORT_PROGRAM COUNT CALLS [SEED] [PROFILE,..] [VERB,..]");
        exit(2);
    };
    let mut port = |script: &[u8]| {
        let (written, remark) = run(&program, script);
        if let Some(remark) = remark {
            eprintln!("{remark}");
        }
        written
    };
    match compare(&plan, &mut port) {
        Ok(counts) => print!("{}", counts.report()),
        Err(report) => {
            print!("{report}");
            exit(1);
        }
    }
}

fn read(arguments: &[String]) -> Option<(String, Plan)> {
    let [program, count, calls, rest @ ..] = arguments else {
        return None;
    };
    let (seed, rest) = match rest {
        [seed, rest @ ..] => (seed.parse().ok()?, rest),
        [] => (1, rest),
    };
    let (profiles, rest) = match rest {
        [names, rest @ ..] => {
            (names.split(',').map(Profile::named).collect::<Option<Vec<_>>>()?, rest)
        }
        [] => (Profile::ALL.to_vec(), rest),
    };
    let mut verbs = match rest {
        [] => all_verbs(),
        [names] => verbs_named(names)?,
        _ => return None,
    };
    // The states are always compared too.
    if !verbs.contains(&"digest") {
        verbs.push("digest");
    }
    let plan =
        Plan { count: count.parse().ok()?, calls: calls.parse().ok()?, seed, profiles, verbs };
    Some((program.clone(), plan))
}
