//! That the comparison can fail: what only one side does, and what is altered in the library's memory, is noticed.

use compared::both::Both;
use compared::memory::{self, Memory};
use compared::state::{self, State};
use comparison::calls::lines;
use nibcobalt::ffi::Counter;
use nibcobalt::{ArbitrationEvent, SurfaceHandle, ViewHandle};

const VIEW: ViewHandle = ViewHandle { index: 0, generation: 7 };
const PANEL: SurfaceHandle = SurfaceHandle { index: 0, generation: 7 };

/// A state with something of everything: windows, views, panels, captures, a composition, registrations, traces,
/// presses.
const FURNISHED: &[u8] = b"new_at 3 2 5 8 16 64 16 32 40 7
create_window
create_window
close_window 1 7
create_view 0 7
create_view 0 7
close_view 1 7
attach_surface 0 7 1 0 2 1 1 -5 -6 700 800 1 -1 -2 300 400 65536 0 0 65536 3 4 65535 1
attach_surface 0 7 1 1 0 0 0 0 0 0 0 0 0 0 0 0 65536 0 0 65536 0 0 65535 1
attach_surface 0 7 1 2 3 0 0 0 0 0 0 0 0 0 0 0 65536 0 0 65536 0 0 65535 1
close_surface 2 7
update_view_metrics 0 7 -9 9 1000 2000 10 20 65536 1 2 3 4 0 1
register_surface_system_shortcut_set 0 7 51 2 6 1 -3 9 0 4
set_focus 0 7 1 0 7 52
capture_pointer_for 1 1 0 0 7 53
capture_pointer_for 7 1 1 0 7 54
begin_ime 0 7 55
route 1 10 2 0 7 0 7 7 1 1 0 0 0 0 5 5 0 0 0 0 0 0 1 0
route 1 10 2 0 7 0 7 8 1 3 0 2 0 30 0
route 1 11 2 0 7 0 7 9 1 4 0 6 1 0
";

fn furnished() -> Both {
    let mut both = Both::default();
    for line in lines(FURNISHED) {
        let answer = both.run(line).expect("no difference");
        assert_eq!(answer, Some(0), "{}", String::from_utf8_lossy(line));
    }
    both
}

#[test]
fn a_call_on_one_side_alone_is_noticed() {
    let calls: [fn(&mut Both); 5] = [
        |both| assert!(both.port.create_window().is_ok()),
        |both| assert!(both.rust.create_window().is_ok()),
        |both| assert!(both.port.arbitrate(VIEW, ArbitrationEvent::Text).is_ok()),
        |both| drop(both.port_router.release_all()),
        |both| drop(both.rust_router.release_all()),
    ];
    for (place, call) in calls.into_iter().enumerate() {
        let mut both = furnished();
        assert!(both.compare_states(b"").is_ok());
        call(&mut both);
        assert!(both.compare_states(b"").is_err(), "call {place} is not noticed");
    }
    let mut both = furnished();
    let now = both.port.revision();
    assert!(both.port.end_ime(PANEL, now).is_ok());
    assert!(both.run(b"view_input_state 0 7").is_err());
}

#[test]
fn a_press_that_only_one_side_holds_is_noticed_by_its_release() {
    let mut both = furnished();
    assert_eq!(both.port_router.release_surface(PANEL).len(), 3);
    let difference = both.run(b"release_surface 0 7").expect_err("a difference");
    assert!(difference.what.contains("PointerCancel"), "{}", difference.what);
}

/// A copy of a counter's memory as bytes that may be altered.
struct Copy(Vec<u64>);

impl Copy {
    fn of(counter: &Counter) -> Self {
        Self(counter.registry().iter().chain(counter.router()).copied().collect())
    }

    fn flip(&mut self, byte: usize) {
        self.0[byte / 8] ^= 1 << (byte % 8 * 8);
    }

    fn fields(&self) -> &Memory {
        assert_eq!(size_of_val(&self.0[..]), size_of::<Memory>());
        // SAFETY: the vector has the size and the alignment of the struct, whose fields are plain numbers.
        unsafe { &*self.0.as_ptr().cast() }
    }
}

/// The lowest bit of each byte is changed. Every number of the state is the first to differ for some byte, so all of
/// them are read from the memory, but for the zeros that stand where there is no handle or rectangle (14), and for a
/// panel without registrations, which stand in one table for all panels.
#[test]
fn altered_memory_is_noticed() {
    let mut both = furnished();
    let rust = both.states()[0].clone();
    let registry = both.port.with_memory(Copy::of);
    let router = both.port_router.with_memory(Copy::of);
    let mut noticed = 0;
    let mut is_first = vec![false; rust.0.len()];
    for byte in 0..size_of::<Memory>() {
        let is_router = byte >= size_of::<memory::Registry>();
        let mut copy = Copy(if is_router { &router } else { &registry }.0.clone());
        // A count that is altered in its upper bytes passes its table and cannot be read.
        if byte % 8 != 0 && counts(copy.fields()).contains(&(byte / 8 * 8)) {
            continue;
        }
        copy.flip(byte);
        let mut port = State::default();
        let (one, other) = if is_router { (&registry, &copy) } else { (&copy, &router) };
        state::of_memory(one.fields(), other.fields(), &mut port);
        if let Some(place) =
            (0..rust.0.len()).find(|place| port.0.get(*place) != rust.0.get(*place))
        {
            noticed += 1;
            is_first[place] = true;
        }
    }
    let pairs = rust.0.iter().zip(is_first);
    let others: Vec<u64> = pairs.filter(|(_, is_first)| !is_first).map(|(n, _)| *n).collect();
    println!("{noticed} bytes are noticed, by {} numbers", rust.0.len() - others.len());
    assert_eq!(others, [0; 15]);
}

/// Where the counts of a memory stand, in bytes.
fn counts(memory: &Memory) -> Vec<usize> {
    let registry = &memory.registry;
    let mut counts: Vec<&usize> = Vec::new();
    for arena in [&registry.windows, &registry.views.arena, &registry.surfaces.arena] {
        counts.extend([&arena.used, &arena.freed, &arena.live]);
    }
    for view in &registry.views.records {
        counts.extend([&view.surfaces.len, &view.pointer_captures.len]);
    }
    for trace in &registry.traces.items {
        counts.extend([&trace.hits.len, &trace.deliveries.len]);
    }
    counts.extend([&registry.shortcuts.len, &registry.traces.len]);
    counts.extend([&memory.router.device_sequences.len, &memory.router.bindings.len]);
    let start = std::ptr::from_ref(memory) as usize;
    counts.into_iter().map(|count| std::ptr::from_ref(count) as usize - start).collect()
}
