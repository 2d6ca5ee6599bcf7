//! Which numbers are a call, and that nothing is changed where they are malformed.

mod messages;

use messages::{forms, start, Host};
use nibcobalt::ffi::{
    self, Buffer, Counter, Message, Registration, Start, ANSWER_BYTES, MALFORMED, SHORT_BUFFER,
};
use nibcobalt::GenerationalHandle;

#[test]
fn every_field_is_held_to_its_range() {
    let mut host = Host::open();
    let mut tried = [0, 0];
    for form in forms() {
        let call = form.call();
        host.message.call = call;
        host.expect_form("all fields 0");
        for place in 1..32 {
            let (end, flag) = match form.ends.get(place) {
                Some(Some(0)) => continue,
                Some(end) => (*end, form.behind_flag[place]),
                None => (Some(1), None),
            };
            host.message.call = call;
            if let Some(flag) = flag {
                host.message.call[place] = 1;
                host.expect_malformed_numbers("a field behind a flag of 0");
                host.message.call[flag] = 1;
                host.expect_form("the same behind a flag of 1");
                tried[0] += 1;
                tried[1] += 1;
            }
            host.message.call[place] = end.map_or(u64::MAX, |end| end - 1);
            host.expect_form("the last number of a field");
            tried[0] += 1;
            for wrong in end.into_iter().chain(end.map(|_| u64::MAX)) {
                host.message.call[place] = wrong;
                host.expect_malformed_numbers("a number out of its field's range");
                tried[1] += 1;
            }
        }
    }
    println!("{} forms and {} that are none", tried[0], tried[1]);
}

#[test]
fn numbers_and_kinds_past_the_last_are_no_calls() {
    let mut host = Host::open();
    for number in [37, 38, 255, 256, 1 << 32, u64::MAX] {
        host.set(&[number]);
        host.expect_malformed_numbers("a call's number");
        if number > 255 {
            continue;
        }
        host.set(&[20, 0, 1, number]);
        host.expect_malformed_numbers("an event's kind");
        host.set(&[23]);
        host.message.call[17] = number;
        host.expect_malformed_numbers("a payload's kind");
    }
    host.set(&[20, 0, 1, 11]);
    host.expect_malformed_numbers("an event's kind");
    host.set(&[23]);
    host.message.call[17] = 10;
    host.expect_malformed_numbers("a payload's kind");
}

#[test]
fn hits_stand_beside_stacks_only() {
    let mut host = Host::open();
    let hit = GenerationalHandle { index: 0, generation: 1 };
    for form in forms() {
        let call = form.call();
        let is_stack = call[0] == 20 && matches!(call[3], 1 | 3);
        host.message.call = call;
        host.message.hits.len = 1;
        host.message.hits.items[0] = hit;
        if is_stack {
            host.expect_form("a hit beside a stack");
            host.message.hits.items[1] = hit;
            host.expect_malformed("a hit behind the count");
            host.message.hits.items = [hit; 16];
            host.message.hits.len = 16;
            host.expect_form("16 hits");
            host.message.hits.len = u64::MAX;
            host.expect_form("more hits than the port takes");
            host.message.hits.len = 15;
            host.expect_malformed("a hit behind the count");
        } else {
            host.expect_malformed("a hit beside another call");
        }
        host.message.hits = Message::zeroed().hits;
        host.message.hits.items[15].generation = 1;
        host.expect_malformed("a hit behind a count of 0");
        host.message.hits = Message::zeroed().hits;
    }
}

#[test]
fn registrations_stand_beside_their_call_only() {
    let mut host = Host::open();
    let one = Registration { class_mask: 1, scope: 2, priority: 65_535 };
    for form in forms() {
        let call = form.call();
        host.message.call = call;
        host.message.registrations.len = 1;
        host.message.registrations.items[0] = one;
        if call[0] == 17 {
            host.expect_form("one registration");
            for (scope, priority) in [(3, 0), (0, 65_536), (u64::MAX, 0), (0, u64::MAX)] {
                host.message.registrations.items[0] =
                    Registration { class_mask: 1, scope, priority };
                host.expect_malformed("a registration's numbers");
            }
            host.message.registrations.items = [one; 64];
            host.message.registrations.len = 64;
            host.expect_form("64 registrations");
            host.message.registrations.len = u64::MAX;
            host.expect_form("more registrations than the source takes");
            host.message.registrations.len = 63;
            host.expect_malformed("a registration behind the count");
        } else {
            host.expect_malformed("a registration beside another call");
        }
        host.message.registrations = Message::zeroed().registrations;
        host.message.registrations.items[63].class_mask = 1;
        host.expect_malformed("a registration behind a count of 0");
        host.message.registrations = Message::zeroed().registrations;
    }
}

#[test]
fn route_takes_call_23_alone() {
    let mut host = Host::open();
    for form in forms() {
        host.message.call = form.call();
        if host.message.call[0] == 23 {
            let counter = host.counter.clone();
            assert_eq!(host.route(), 0);
            let direct = host.buffer.clone();
            host.counter = counter;
            assert_eq!(host.call(), 0);
            assert_eq!(direct.answer(), host.buffer.answer());
        } else {
            host.expect_untouched(MALFORMED, "not a route", Host::route);
        }
    }
}

#[test]
fn a_short_buffer_is_refused_1001() {
    let mut host = Host::open();
    for bytes in [0, 1, 8, ANSWER_BYTES - 1] {
        host.buffer = Buffer::of(bytes);
        for form in forms() {
            host.message.call = form.call();
            host.expect_untouched(SHORT_BUFFER, "a short buffer", Host::call);
            if host.message.call[0] == 23 {
                host.expect_untouched(SHORT_BUFFER, "a short buffer", Host::route);
            }
        }
        host.message.call[0] = 37;
        host.expect_malformed("a form comes before the buffer");
    }
    host.buffer = Buffer::of(ANSWER_BYTES + 1);
    host.accept(&[33]);
}

#[test]
fn a_refused_start_changes_nothing() {
    let mut host = Host::open();
    let before = host.state();
    let nobody = GenerationalHandle { index: 0, generation: 0 };
    let refused = [
        (2, Start { session: nobody, ..start() }),
        (2, Start { session_epoch: 0, max_windows: 0, ..start() }),
        (1, Start { max_windows: 0, max_views: 17, ..start() }),
        (1, Start { max_trace_entries: 0, max_active_bindings: 0, ..start() }),
        (1, Start { first_generation: 0, ..start() }),
        (1, Start { max_surfaces: 1 << 32, ..start() }),
        (41, Start { max_windows: 9, max_active_bindings: 0, ..start() }),
        (41, Start { max_surfaces_per_view: 17, ..start() }),
        (41, Start { max_trace_entries: u64::MAX, ..start() }),
        (40, Start { max_active_bindings: 0, ..start() }),
        (41, Start { max_active_bindings: 129, ..start() }),
    ];
    for (number, start) in refused {
        assert_eq!(ffi::start(&mut host.counter, &start), number, "{start:?}");
        assert!(host.state() == before, "{start:?}");
    }
    let fresh = Start { first_revision: 77, ..start() };
    assert_eq!(ffi::start(&mut host.counter, &fresh), 0);
    host.accept(&[33]);
    assert_eq!(host.answer(), [0, 77]);
}

#[test]
fn memory_of_zeros_is_refused_42() {
    let mut host = Host::open();
    host.counter = Counter::zeroed();
    for form in forms() {
        host.message.call = form.call();
        assert_eq!(host.call(), 0);
        // An inverse point is asked of no state.
        let number = if form.numbers[0] == 36 { 0 } else { 42 };
        assert_eq!(host.answer(), [number, 0], "{:?}", form.numbers);
    }
}

#[test]
fn a_release_takes_six_numbers_whatever_its_kind() {
    let mut host = Host::open();
    let [_, revision] = host.answer();
    host.accept(&[8, 0, 1, 1, 0, 1, revision]);
    let touch: &[u64] = &[0, 4, 0, 5, 5, 0, 0, 0, 0, 0, 0, 0, 0];
    let (key, gamepad, disconnect): (&[u64], &[u64], &[u64]) = (&[2, 0, 30, 0], &[6, 1, 0], &[9]);
    for (sequence, payload) in (1..).zip([touch, key, gamepad, disconnect]) {
        let mut event = vec![23, sequence, sequence, 1, 0, 1, 0, 1, 7, 1, 1, 0, 0, 0, 0, 0, 0];
        event.extend(payload);
        host.accept(&event);
    }
    let [_, revision] = host.answer();
    let front = [0, revision, 0, 0, 0, 0];
    let releases = [3, 0, 7, 1, 4, 0, 1, 1, 7, 1, 30, 0, 1, 2, 7, 1, 0, 0, 1];
    assert_eq!(host.numbers(), [&front[..], &releases, &[0, 0, 0, 0, 0]].concat());
}
