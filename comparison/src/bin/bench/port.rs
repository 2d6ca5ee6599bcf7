//! The port: its program is run with T and with 3T turns, and the times are subtracted.

use std::process::Command;
use std::time::Duration;

use crate::cases::Case;
use crate::cpu_time;
use crate::tally::{Measured, Tally};

const RUNS: u32 = 9;

fn number(word: Option<&str>) -> Result<u64, String> {
    let word = word.ok_or("a number is missing")?;
    word.parse().map_err(|error| format!("{word}: {error}"))
}

fn run(case: &Case, command: &[String], turns: u64) -> Result<(Duration, Tally), String> {
    let mut program = Command::new(&command[0]);
    program.args(&command[1..]).arg(case.name).arg(turns.to_string());
    let before = cpu_time::of_children();
    let output = program.output().map_err(|error| format!("{}: {error}", command[0]))?;
    let elapsed = cpu_time::of_children() - before;
    if !output.status.success() {
        return Err(format!("the program ended with {}", output.status));
    }
    let text = String::from_utf8_lossy(&output.stdout);
    let mut words = text.split_whitespace();
    let revision = number(words.next())?;
    let presses = number(words.next())?;
    let sum = number(words.next())?;
    Ok((elapsed, Tally { revision, presses, sum }))
}

pub fn measure(case: &Case, command: &[String]) -> Result<Measured, String> {
    let lengths = [case.turns, 3 * case.turns];
    let mut best = [Duration::MAX; 2];
    let mut tallies = [Tally::default(); 2];
    for _ in 0..RUNS {
        for (i, turns) in lengths.into_iter().enumerate() {
            let (elapsed, tally) = run(case, command, turns)?;
            best[i] = best[i].min(elapsed);
            tallies[i] = tally;
        }
    }
    let calls = (lengths[1] - lengths[0]) * u64::from(case.calls);
    let nanos = best[1].saturating_sub(best[0]).as_nanos() as f64 / calls as f64;
    Ok(Measured { nanos, tallies })
}
