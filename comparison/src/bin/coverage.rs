//! Tells what scripts reach: coverage [COUNT CALLS [SEED] [PROFILE,..]], or of the script on standard input.

use std::io::{self, Read};
use std::process::exit;

use comparison::coverage::Coverage;
use comparison::generate::{all_verbs, script, Profile};

fn main() -> io::Result<()> {
    let arguments = std::env::args().skip(1).collect::<Vec<_>>();
    let mut coverage = Coverage::default();
    if arguments.is_empty() {
        let mut text = Vec::new();
        io::stdin().lock().read_to_end(&mut text)?;
        coverage.add(&text);
    } else if add_generated(&mut coverage, &arguments).is_none() {
        eprintln!("coverage [COUNT CALLS [SEED] [PROFILE,..]]");
        exit(2);
    }
    print!("{}", coverage.report());
    Ok(())
}

fn add_generated(coverage: &mut Coverage, arguments: &[String]) -> Option<()> {
    let [count, calls, rest @ ..] = arguments else {
        return None;
    };
    let (count, calls): (u64, usize) = (count.parse().ok()?, calls.parse().ok()?);
    let seed: u64 = rest.first().map_or(Some(1), |seed| seed.parse().ok())?;
    let profiles = match rest.get(1) {
        Some(names) => names.split(',').map(Profile::named).collect::<Option<Vec<_>>>()?,
        None => Profile::ALL.to_vec(),
    };
    for turn in 0..count {
        let profile = profiles[(turn % profiles.len() as u64) as usize];
        coverage.add(&script(seed.wrapping_add(turn), calls, profile, &all_verbs()));
    }
    Some(())
}
