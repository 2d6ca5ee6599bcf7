//! Writes one script: generate SEED CALLS PROFILE [VERB,VERB,..]

use std::io::{self, Write};
use std::process::exit;

use comparison::compare::verbs_named;
use comparison::generate::{all_verbs, script, Profile};

fn main() -> io::Result<()> {
    let arguments = std::env::args().skip(1).collect::<Vec<_>>();
    let Some((seed, calls, profile, verbs)) = read(&arguments) else {
        eprintln!("generate SEED CALLS normal|wild|limits|geometry|ends [VERB,VERB,..]");
        exit(2);
    };
    io::stdout().lock().write_all(&script(seed, calls, profile, &verbs))
}

fn read(arguments: &[String]) -> Option<(u64, usize, Profile, Vec<&'static str>)> {
    let [seed, calls, profile, rest @ ..] = arguments else {
        return None;
    };
    let verbs = match rest {
        [] => all_verbs(),
        [names] => verbs_named(names)?,
        _ => return None,
    };
    Some((seed.parse().ok()?, calls.parse().ok()?, Profile::named(profile)?, verbs))
}
