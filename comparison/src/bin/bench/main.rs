//! Measures the port and the unchanged Rust on the same events and prints both times and their ratio.
//!
//! `bench PROGRAM`: PROGRAM is the port's program `benchmark`, or a command that runs it.

mod cases;
mod cpu_time;
mod port;
mod rust;
mod tally;

use std::process::ExitCode;

use cases::CASES;

const HOW: &str = "\
All times are CPU times.
Rust: called in this process on one registry and one router, which each call alters; the time of a loop over all
  turns, the least of several runs. A disconnect finds its presses or captures in a state of its own, which is set
  up before the clock starts.
port: the program `benchmark` calls the port's own functions with both states by value and takes the answered states
  on; the time of a run of 3T turns less that of a run of T, over 2T turns, the least of several runs each. So its
  start and the set-up do not count. A disconnect hands in the same state each turn.
Both wrote the same numbers (revision, open presses, a sum over all answers) for each case, with T and 3T turns.";

fn main() -> ExitCode {
    let command: Vec<String> = std::env::args().skip(1).collect();
    if command.is_empty() {
        eprintln!("usage: bench PROGRAM [WORDS]");
        return ExitCode::FAILURE;
    }
    println!("| case | Rust, ns a call | port, ns a call | ratio |");
    println!("|---|---|---|---|");
    for case in CASES {
        let rust = rust::measure(&case);
        let port = match port::measure(&case, &command) {
            Ok(port) => port,
            Err(error) => {
                eprintln!("{}: {error}", case.name);
                return ExitCode::FAILURE;
            }
        };
        if rust.tallies != port.tallies {
            eprintln!("{}: Rust {:?}, port {:?}", case.name, rust.tallies, port.tallies);
            return ExitCode::FAILURE;
        }
        let ratio = port.nanos / rust.nanos;
        println!("| {} | {:.0} | {:.0} | {ratio:.0} |", case.what, rust.nanos, port.nanos);
    }
    println!("\n{HOW}");
    ExitCode::SUCCESS
}
