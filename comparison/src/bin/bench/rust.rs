//! The unchanged Rust, called in this process.

use std::hint::black_box;
use std::time::Duration;

use comparison::composition::access::set_revision;
use comparison::platform_input::*;
use comparison::*;

use crate::cases::{Case, Kind};
use crate::cpu_time;
use crate::tally::{Measured, Tally};

const RUNS: u32 = 9;

include!("opened.rs");

fn disconnect_turns(case: &Case, turns: u64, prepare: fn(&mut Opened)) -> (Duration, Tally) {
    let mut elapsed = Duration::ZERO;
    let mut sum = 0u64;
    let mut full = open(case.panels);
    prepare(&mut full);
    for first in (0..turns).step_by(BATCH as usize) {
        let batch = first..turns.min(first + BATCH);
        let mut ready: Vec<Opened> = Vec::new();
        for turn in batch.clone() {
            let mut opened = open(case.panels);
            prepare(&mut opened);
            set_revision(&mut opened.registry, turn);
            ready.push(opened);
        }
        let start = cpu_time::own();
        for (opened, turn) in ready.iter_mut().zip(batch) {
            let event = opened.event(turn + 129, PlatformInputPayload::DeviceDisconnected);
            sum = sum.wrapping_add(opened.route(event));
        }
        elapsed += cpu_time::own() - start;
    }
    set_revision(&mut full.registry, turns - 1);
    (elapsed, full.tally(sum))
}

fn hit_turns(case: &Case, turns: u64) -> (Duration, Tally) {
    let mut opened = open(case.panels);
    let mut sum = 0u64;
    let start = cpu_time::own();
    for _ in 0..turns {
        let hits = black_box(&opened.registry).hit_test_stack(opened.view, 0, 0).expect("hits");
        sum = sum.wrapping_add(2 * black_box(&hits).len() as u64);
    }
    let elapsed = cpu_time::own() - start;
    set_revision(&mut opened.registry, turns - 1);
    (elapsed, opened.tally(sum))
}

fn run(case: &Case, turns: u64) -> (Duration, Tally) {
    match case.kind {
        Kind::Moves => route_turns(case, turns, [PointerPhase::Move; 2]),
        Kind::Presses => route_turns(case, turns, [PointerPhase::Up, PointerPhase::Down]),
        Kind::HitTest => hit_turns(case, turns),
        Kind::DisconnectPresses => disconnect_turns(case, turns, Opened::press),
        Kind::DisconnectCaptures => disconnect_turns(case, turns, Opened::capture_in_all_views),
        Kind::Panel => panel_turns(case, turns),
    }
}

/// The turns of a run that is timed: many, as they are short; but each disconnect needs a state of its own.
fn timed_turns(case: &Case) -> u64 {
    match case.kind {
        Kind::DisconnectPresses | Kind::DisconnectCaptures => 3 * case.turns,
        Kind::Moves | Kind::Presses | Kind::HitTest | Kind::Panel => 50 * case.turns,
    }
}

pub fn measure(case: &Case) -> Measured {
    let tallies = [case.turns, 3 * case.turns].map(|turns| run(case, turns).1);
    let turns = timed_turns(case);
    let best = (0..RUNS).map(|_| run(case, turns).0).min().unwrap_or_default();
    let calls = turns * u64::from(case.calls);
    Measured { nanos: best.as_nanos() as f64 / calls as f64, tallies }
}
