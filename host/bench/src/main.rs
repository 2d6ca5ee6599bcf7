//! Measures the linked library, through the crate `nibcobalt`, and the unchanged Rust on the same events in one
//! process. The words are the names of cases; without any, all are measured.

#[path = "../../../comparison/src/bin/bench/cases.rs"]
mod cases;
#[path = "../../../comparison/src/bin/bench/cpu_time.rs"]
#[allow(dead_code)]
mod cpu_time;

use std::process::ExitCode;
use std::time::Duration;

use cases::{Case, Kind, CASES};

/// What a run answers: numbers that depend on every call.
#[derive(Clone, Copy, Debug, Eq, PartialEq)]
pub struct Tally {
    pub revision: u64,
    pub presses: u64,
    pub sum: u64,
}

mod rust {
    use comparison::platform_input::*;
    use comparison::*;

    include!("side.rs");
}

mod linked {
    use nibcobalt::composition::*;
    use nibcobalt::platform_input::*;
    use nibcobalt::{SessionHandle, SurfaceHandle, ViewHandle, WindowHandle};

    include!("side.rs");
}

const RUNS: u32 = 9;

const HOW: &str = "\
All times are CPU times, in one process and one thread. Each side has one registry and one router, which each call
alters. The time is that of a loop over all turns, the least of 9 runs. A disconnect finds its presses or captures in a
state of its own, which is set up before the clock starts. The library is called through the crate nibcobalt: writing
the call, the two exchanges of the router's memory and reading the answer are in its times.
Both sides ran the same text and answered the same numbers (revision, open presses, a sum over all answers) for each
case.";

/// The turns of a run that is timed. The Rust's are many, as they are short; each disconnect needs a state of its own.
fn turns(case: &Case) -> [u64; 2] {
    match case.kind {
        Kind::DisconnectPresses | Kind::DisconnectCaptures => [case.turns, case.turns / 5],
        Kind::Moves | Kind::Presses | Kind::HitTest | Kind::Panel => [50 * case.turns, case.turns],
    }
}

fn nanos(run: fn(&Case, u64) -> (Duration, Tally), case: &Case, turns: u64) -> f64 {
    let best = (0..RUNS).map(|_| run(case, turns).0).min().unwrap_or_default();
    best.as_nanos() as f64 / (turns * u64::from(case.calls)) as f64
}

fn main() -> ExitCode {
    let names: Vec<String> = std::env::args().skip(1).collect();
    let is_named = |case: &Case| names.is_empty() || names.iter().any(|name| name == case.name);
    println!("| case | Rust, ns a call | linked library, ns a call | ratio |");
    println!("|---|---|---|---|");
    for case in CASES.into_iter().filter(is_named) {
        let [of_rust, of_linked] = turns(&case);
        let (rust, linked) = (rust::run(&case, of_linked).1, linked::run(&case, of_linked).1);
        if rust != linked {
            eprintln!("{}: Rust {rust:?}, library {linked:?}", case.name);
            return ExitCode::FAILURE;
        }
        let rust = nanos(rust::run, &case, of_rust);
        let linked = nanos(linked::run, &case, of_linked);
        println!("| {} | {rust:.0} | {linked:.0} | {:.0} |", case.what, linked / rust);
    }
    println!("\n{HOW}");
    ExitCode::SUCCESS
}
