// The loops of one side. This text is compiled over the unchanged Rust and over the crate: only the imports before it
// differ.

use std::hint::black_box;
use std::time::Duration;

use crate::cases::{Case, Kind};
use crate::cpu_time;
use crate::Tally;

include!("../../../comparison/src/bin/bench/opened.rs");

fn disconnect_turns(case: &Case, turns: u64, prepare: fn(&mut Opened)) -> (Duration, Tally) {
    let mut elapsed = Duration::ZERO;
    let mut tally = Tally { revision: 0, presses: 0, sum: 0 };
    for first in (0..turns).step_by(BATCH as usize) {
        let mut ready: Vec<Opened> = Vec::new();
        for _ in first..turns.min(first + BATCH) {
            let mut opened = open(case.panels);
            prepare(&mut opened);
            ready.push(opened);
        }
        let start = cpu_time::own();
        for opened in &mut ready {
            let event = opened.event(129, PlatformInputPayload::DeviceDisconnected);
            tally.sum = tally.sum.wrapping_add(opened.route(event));
        }
        elapsed += cpu_time::own() - start;
        tally = ready.last().map_or(tally, |opened| opened.tally(tally.sum));
    }
    (elapsed, tally)
}

fn hit_turns(case: &Case, turns: u64) -> (Duration, Tally) {
    let opened = open(case.panels);
    let mut sum = 0u64;
    let start = cpu_time::own();
    for _ in 0..turns {
        let hits = black_box(&opened.registry).hit_test_stack(opened.view, 0, 0).expect("hits");
        sum = sum.wrapping_add(2 * black_box(&hits).len() as u64);
    }
    (cpu_time::own() - start, opened.tally(sum))
}

pub fn run(case: &Case, turns: u64) -> (Duration, Tally) {
    match case.kind {
        Kind::Moves => route_turns(case, turns, [PointerPhase::Move; 2]),
        Kind::Presses => route_turns(case, turns, [PointerPhase::Up, PointerPhase::Down]),
        Kind::HitTest => hit_turns(case, turns),
        Kind::DisconnectPresses => disconnect_turns(case, turns, Opened::press),
        Kind::DisconnectCaptures => disconnect_turns(case, turns, Opened::capture_in_all_views),
        Kind::Panel => panel_turns(case, turns),
    }
}
