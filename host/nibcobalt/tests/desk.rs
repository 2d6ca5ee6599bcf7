//! The session of RULES.md, Desk, through this crate.

use nibcobalt::composition::*;
use nibcobalt::platform_input::*;
use nibcobalt::{GenerationalHandle, SessionHandle, SurfaceHandle, ViewHandle, WindowHandle};

include!("desk/session.rs");

#[test]
fn desk_writes_document_01() {
    assert_eq!(session(), include_str!("../../../crates/desk/stdout"));
}

#[test]
fn desks_in_several_threads_do_not_meet() {
    let sessions = || (0..50).map(|_| session()).collect::<Vec<_>>();
    let threads: Vec<_> = (0..4).map(|_| std::thread::spawn(sessions)).collect();
    for thread in threads {
        for lines in thread.join().expect("a desk") {
            assert_eq!(lines, include_str!("../../../crates/desk/stdout"));
        }
    }
}

#[test]
fn a_desk_goes_on_in_another_thread() {
    let mut desk = Desk::open();
    desk.down(1, 10);
    let moved = std::thread::spawn(move || {
        let mut desk = desk;
        desk.route(2, 11, PlatformInputPayload::DeviceDisconnected);
        desk.lines
    });
    let lines = moved.join().expect("a desk");
    assert!(lines.ends_with("P7.1.0@2.1\n"), "{lines}");
}
