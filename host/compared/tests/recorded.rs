//! The list that the gate runs, on both sides, and that every answer which a call can give is among its answers.

use std::collections::BTreeSet;

use compared::both::Both;
use comparison::calls::lines;
use comparison::coverage;
use comparison::script::split;

/// What the crate has no function for.
const NOT_IN_THE_CRATE: [&str; 4] = ["digest", "state", "router_state", "inverse_point"];

fn kind(verb: &str, numbers: &[i128]) -> Option<i128> {
    match verb {
        "route" => numbers.get(11).copied(),
        "arbitrate" => numbers.get(2).copied(),
        _ => None,
    }
}

#[test]
fn the_recorded_list_is_answered_alike_and_has_every_answer() {
    let list = include_bytes!("../../../crates/replay/stdin");
    let mut both = Both::default();
    let mut seen = BTreeSet::new();
    let mut calls = 0;
    for line in lines(list) {
        let answer = match both.run(line) {
            Ok(Some(answer)) => answer as u32,
            Ok(None) => continue,
            Err(difference) => panic!("{}\n{}", difference.line, difference.what),
        };
        calls += 1;
        let (verb, numbers) = split(line).expect("a call");
        if let Some(kind) = kind(verb, &numbers) {
            seen.insert((format!("{verb} {kind}"), answer));
        }
        seen.insert((verb.to_string(), answer));
    }
    let of_crate = |pair: &(String, u32)| !NOT_IN_THE_CRATE.contains(&pair.0.as_str());
    let reachable: Vec<_> = coverage::pairs().into_iter().filter(of_crate).collect();
    let missing: Vec<_> = reachable.iter().filter(|pair| !seen.contains(*pair)).collect();
    println!("{calls} calls; {} pairs of a call and its answer", reachable.len());
    assert!(missing.is_empty(), "{missing:?}");
}
