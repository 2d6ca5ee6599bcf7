//! The stack that the library's functions need, which the header, `ffi` and docs/HOSTING.md give: a thread with so
//! much is enough, and on a thread with less the program is ended.

mod messages;

use std::os::unix::process::ExitStatusExt;
use std::process::Command;
use std::thread;

use messages::{forms, start, Host};
use nibcobalt::ffi::{self, Counter, STACK_CALL, STACK_ROUTE, STACK_START_COUNTER};

/// For the thread's start, this file's functions and those of the C library.
const MARGIN: usize = 64 << 10;

fn on_stack(bytes: usize, work: impl FnOnce() + Send + 'static) {
    let thread = thread::Builder::new().stack_size(bytes).spawn(work).expect("a thread");
    thread.join().expect("the work is done");
}

/// A view's loss of focus, on which a call goes deepest: it is accepted, with a panel in the view.
const LOSS: [u64; 18] = [23, 1, 1, 1, 0, 1, 0, 1, 7, 1, 1, 0, 0, 0, 0, 0, 0, 7];

fn all_calls(mut host: Host) {
    for form in forms() {
        host.message.call = form.call();
        assert_eq!(host.call(), 0, "{:?}", form.numbers);
    }
}

#[test]
fn a_start_needs_no_more_than_it_says() {
    let mut counter = Counter::zeroed();
    on_stack(STACK_START_COUNTER + MARGIN, move || {
        assert_eq!(ffi::start(&mut counter, &start()), 0);
    });
}

#[test]
fn a_call_needs_no_more_than_it_says() {
    let mut host = Host::open();
    on_stack(STACK_CALL + MARGIN, move || {
        host.accept(&LOSS);
        all_calls(host);
    });
}

#[test]
fn a_route_needs_no_more_than_it_says() {
    let mut host = Host::open();
    on_stack(STACK_ROUTE + MARGIN, move || {
        host.set(&LOSS);
        assert_eq!((host.route(), host.answer()[0]), (0, 0));
        for form in forms().into_iter().filter(|form| form.numbers[0] == 23) {
            host.message.call = form.call();
            assert_eq!(host.route(), 0, "{:?}", form.numbers);
        }
    });
}

/// Started by the test below alone, since it ends the program.
#[test]
#[ignore = "ends the program"]
fn calls_on_a_small_stack() {
    let host = Host::open();
    on_stack(STACK_CALL / 4, move || all_calls(host));
}

#[test]
fn a_small_stack_ends_the_program() {
    let own = std::env::current_exe().expect("the path of this program");
    let words = ["--ignored", "--exact", "calls_on_a_small_stack"];
    let ended = Command::new(own).args(words).output().expect("the program is started");
    assert!(ended.status.signal().is_some(), "{}", ended.status);
}

/// docs/HOSTING.md gives the needs with commas between thousands.
#[test]
fn the_document_gives_the_needs() {
    let text = include_str!("../../../docs/HOSTING.md");
    for need in [STACK_START_COUNTER, STACK_CALL, STACK_ROUTE] {
        let digits = need.to_string();
        let groups: Vec<&[u8]> = digits.as_bytes().rchunks(3).rev().collect();
        let grouped = String::from_utf8(groups.join(&b',')).expect("digits");
        assert!(text.contains(&format!("{grouped} bytes")), "{grouped} bytes");
    }
}
