//! The format's vectors, RULES.md's Desk and Counter table, port limits, lines that are no calls.

mod faults;
mod programs;
mod recorded;

use std::collections::BTreeSet;

use crate::calls::{lines, run_script};
use crate::dump::{Digest, Numbers};
use crate::generate::all_verbs;
use crate::no_calls;
use crate::script::{parse, read_line};

fn digest(list: &[u64]) -> u64 {
    let mut digest = Digest::new();
    list.iter().for_each(|number| digest.number(*number));
    digest.value()
}

/// Column 2 of the last answer line.
fn last_number(script: &str) -> String {
    let out = run_script(script.as_bytes());
    out.lines().last().and_then(|line| line.split(' ').nth(1)).unwrap_or("").to_string()
}

#[test]
fn digest_vectors() {
    assert_eq!(digest(&[]), 30064771083);
    assert_eq!(digest(&[0]), 15209694793061548300);
    assert_eq!(digest(&[1]), 15213989774240694541);
    assert_eq!(digest(&[18446744073709551615]), 15226874729757065584);
    assert_eq!(digest(&[1, 2, 3]), 3439785248268844631);
}

#[test]
fn first_answers() {
    assert_eq!(
        run_script(b"digest 1\n"),
        "1 0 0 - - - - - 7360464826253285904 3239512384180555043\n"
    );
    assert_eq!(
        run_script(b"state\nrouter_state\n"),
        "1 0 0 - - - - 0,1,1,8,16,64,16,32,1,0,0,0,0,0,0,0,0,0,0,0\n2 0 0 - - - - 128,0,0,0,0,0\n"
    );
    assert_eq!(digest(&[128, 0, 0, 0, 0, 0]), 3239512384180555043);
}

#[test]
fn desk_session() {
    const PANEL: &str = "0 0 0 0 0 0 0 0 0 0 65536 0 0 65536 0 0 65535 1";
    let down = |sequence: u64, time: u64| {
        format!("route {sequence} {time} 1 0 1 0 1 7 1 1 0 0 0 0 0 0 0 0 0 0 0 1 1 0\n")
    };
    let setup = format!(
        "create_window\ncreate_view 0 1\nattach_surface 0 1 1 0 2 0 {PANEL}\n\
         attach_surface 0 1 1 1 0 0 {PANEL}\nattach_surface 0 1 1 2 3 0 {PANEL}\n"
    );
    let steps = [
        down(1, 10),
        "close_surface 2 1\n".to_string(),
        "release_surface 2 1\n".to_string(),
        down(2, 10),
        down(2, 10),
        "route 3 11 1 0 1 0 1 7 1 1 0 9\n".to_string(),
        down(1, 9),
        down(1, 11),
    ];
    let out = run_script((setup + &steps.concat()).as_bytes());
    let answers = out.lines().collect::<Vec<_>>();
    let handles = answers[..5].iter().map(|line| line.split(' ').nth(6).unwrap());
    assert_eq!(handles.collect::<Vec<_>>(), ["0.1", "0.1", "0.1", "1.1", "2.1"]);
    let expected = "\
1 0 6 2.1 2.1 -
2 0 7 - - -
3 0 7 - - P7.1.0@2.1
4 0 8 0.1 1.1o,0.1 -
5 32 8 - - -
6 0 8 - - P7.1.0@0.1
7 33 8 - - -
8 0 9 0.1 1.1o,0.1 -";
    for (step, row) in expected.lines().enumerate() {
        let columns = answers[5 + step].split(' ').collect::<Vec<_>>();
        assert_eq!(columns[0], (6 + step).to_string());
        assert_eq!(format!("{} {}", step + 1, columns[1..6].join(" ")), row);
    }
}

#[test]
fn lines_that_are_no_calls() {
    for line in no_calls::lines() {
        let text = String::from_utf8_lossy(&line).into_owned();
        assert_eq!(run_script(&line), "1 ? 0 - - - - -\n", "{text:?}");
    }
    // They are made from calls of every verb.
    let verbs = no_calls::calls().map(|call| {
        assert!(parse(call.as_bytes()).is_some(), "{call}");
        call.split(' ').next().unwrap_or_default()
    });
    let verbs = verbs.collect::<BTreeSet<_>>();
    assert_eq!(verbs, all_verbs().into_iter().collect());
    // What the kind does not have is ignored.
    assert!(parse(b"arbitrate 0 1 4 9 9 9 0 5 5 77 0").is_some());
    assert_eq!(run_script(b"\n\n# nothing\n"), "");
    // A line without its line feed is a line, and a bad line is counted but changes nothing.
    assert_eq!(
        run_script(b"digest 1\nbad\ncreate_window").lines().map(|l| &l[..5]).collect::<Vec<_>>(),
        ["1 0 0", "2 ? 0", "3 0 1"]
    );
}

#[test]
fn long_lines_are_read_to_their_end() {
    let mut input = vec![b'a'; 10_000];
    input.extend_from_slice(b"\ncounts\n\nlast");
    let mut reader = std::io::BufReader::with_capacity(7, &input[..]);
    let (mut line, mut lengths) = (Vec::new(), Vec::new());
    while read_line(&mut reader, &mut line).unwrap() {
        lengths.push(line.len());
    }
    assert_eq!(lengths, [4_097, 6, 0, 4]);
    assert_eq!(lines(b"a\n\nb").count(), 3);
    assert_eq!(lines(b"\n").count(), 1);
    assert_eq!(lines(b"").count(), 0);
}

#[test]
fn start_refusals() {
    let answers = [
        ("new 0 0 1 8 16 64 16 32", "2"),
        ("new 4294967295 1 1 8 16 64 16 32", "2"),
        ("new 0 1 0 0 16 64 16 32", "2"),
        ("new 0 1 1 0 16 64 16 99", "1"),
        ("new 0 1 1 9 16 64 16 32", "41"),
        ("new 0 1 1 8 16 64 16 33", "41"),
        ("new 0 1 1 4294967295 16 64 16 32", "41"),
        ("new 0 1 1 4294967296 16 64 16 32", "1"),
        ("new 0 1 1 8 16 64 4294967296 32", "41"),
        ("new_at 0 1 1 8 16 64 16 32 5 0", "1"),
        ("new_at 0 1 1 8 16 64 17 32 5 0", "1"),
        ("new_at 0 1 1 8 16 64 17 32 5 1", "41"),
        ("new_at 0 1 1 8 16 64 16 32 5 7", "0"),
        ("router 0", "40"),
        ("router 129", "41"),
        ("router 1", "0"),
    ];
    for (line, number) in answers {
        assert_eq!(last_number(line), number, "{line}");
    }
}

#[test]
fn added_start_sets_revision_and_generation() {
    let identity = "0 0 0 0 0 0 0 0 0 0 65536 0 0 65536 0 0 65535 1";
    let script = format!(
        "new_at 0 1 1 8 16 64 16 32 18446744073709551612 4294967295\ncreate_window\n\
         create_view 0 4294967295\nattach_surface 0 4294967295 0 0 2 0 {identity}\n\
         attach_surface 0 4294967295 0 0 2 0 {identity}\nview_layers 0 4294967295\n\
         close_surface 1 4294967295\nview_layers 0 4294967295\n"
    );
    let out = run_script(script.as_bytes());
    let columns =
        |line: usize, column: usize| out.lines().nth(line).unwrap().split(' ').nth(column);
    assert_eq!(columns(3, 6), Some("0.4294967295"));
    // Refused 21 after the change: the slot is there, with the first generation.
    assert_eq!(columns(4, 1), Some("21"));
    assert!(columns(5, 7).unwrap().starts_with("2,0,4294967295,"));
    assert!(columns(5, 7).unwrap().contains(",1,4294967295,0,4294967295,"));
    // The close is refused 22 and has taken the panel out of its view.
    assert_eq!(columns(6, 1), Some("22"));
    assert!(columns(7, 7).unwrap().starts_with("1,0,4294967295,"));
}

#[test]
fn a_full_capture_map_is_a_port_limit() {
    let identity = "0 0 0 0 0 0 0 0 0 0 65536 0 0 65536 0 0 65535 1";
    let mut script =
        format!("create_window\ncreate_view 0 1\nattach_surface 0 1 0 0 2 0 {identity}\n");
    for contact in 0..32 {
        script += &format!("capture_pointer_for 5 1 {contact} 0 1 {}\n", 3 + contact);
    }
    assert_eq!(last_number(&script), "0");
    assert_eq!(last_number(&(script.clone() + "capture_pointer_for 5 1 31 0 1 35\n")), "0");
    assert_eq!(last_number(&(script.clone() + "capture_pointer_for 5 1 32 0 1 35\n")), "41");
    assert_eq!(last_number(&(script.clone() + "capture_pointer_for 5 1 32 0 1 34\n")), "20");
    assert_eq!(last_number(&(script.clone() + "capture_pointer_for 0 1 32 0 1 35\n")), "18");
    assert_eq!(last_number(&(script.clone() + "capture_pointer_for 5 1 32 0 2 35\n")), "12");
    assert_eq!(last_number(&(script + "capture_pointer 0 1 35\n")), "41");
}

/// The other places of 41: the Rust's earlier refusals come first, its later ones are not reached.
#[test]
fn the_other_port_limits() {
    let identity = "0 0 0 0 0 0 0 0 0 0 65536 0 0 65536 0 0 65535 1";
    let mut script = "create_window\ncreate_view 0 1\n".to_string();
    for _ in 0..5 {
        script += &format!("attach_surface 0 1 0 0 2 0 {identity}\n");
    }
    let last = |line: String| last_number(&(script.clone() + &line));
    let hits = |count: usize| format!("{count}{}", " 9 9".repeat(count));
    assert_eq!(last(format!("arbitrate 0 1 1 0 0 0 0 0 0 0 {}\n", hits(16))), "0");
    assert_eq!(last(format!("arbitrate 0 1 1 0 0 0 0 0 0 0 {}\n", hits(17))), "41");
    assert_eq!(last(format!("arbitrate 0 2 1 0 0 0 0 0 0 0 {}\n", hits(17))), "9");
    assert_eq!(last("hit_test_stack 0 1 0 0 31\n".to_string()), "41");
    assert_eq!(last("hit_test_stack 1 1 0 0 31\n".to_string()), "8");
    assert_eq!(last("hit_test_stack 0 1 0 0 32\n".to_string()), "0");

    let set = |panel: usize, revision: u64, count: usize, mask: u64| {
        let list = format!(" {mask} 0 0").repeat(count);
        format!("register_surface_system_shortcut_set {panel} 1 {revision} {count}{list}\n")
    };
    let full = (0..4).map(|panel| set(panel, 7 + panel as u64, 64, 1)).collect::<String>();
    let last = |line: String| last_number(&(script.clone() + &full + &line));
    assert_eq!(last(set(4, 11, 1, 1)), "41");
    assert_eq!(last(set(3, 11, 64, 1)), "0");
    assert_eq!(last(set(4, 10, 1, 1)), "20");
    assert_eq!(last(set(5, 11, 1, 1)), "11");
    assert_eq!(last(set(4, 11, 65, 1)), "3");
    assert_eq!(last(set(4, 11, 1, 0)), "18");
    assert_eq!(last(set(4, 11, 0, 1)), "0");

    let route = |sequence: u64, time: u64, device: u64, payload: &str| {
        format!("route {sequence} {time} 1 0 1 0 1 {device} 1 0 0 {payload}\n")
    };
    let known = (1..=32).map(|device| route(1, 5, device, "4 0")).collect::<String>();
    let last = |line: String| last_number(&(script.clone() + &known + &line));
    assert_eq!(last(route(2, 5, 32, "4 0")), "0");
    assert_eq!(last(route(1, 5, 33, "4 0")), "41");
    assert_eq!(last(route(1, 5, 33, "9")), "41");
    assert_eq!(last(route(0, 5, 33, "4 0")), "32");
    assert_eq!(last(route(1, 4, 33, "4 0")), "33");
    assert_eq!(last(route(1, 5, 33, "3 0 1")), "38");
    let one = "router 1\n".to_string() + &route(1, 5, 1, "6 1 0");
    let known = (2..=32).map(|device| route(1, 5, device, "4 0")).collect::<String>();
    let focus = "set_focus 0 1 1 0 1 7\n";
    let full = one + &known + &route(0, 0, 33, "2 0 1 0");
    assert_eq!(last_number(&(script.clone() + focus + &full)), "40");
}

/// RULES.md, Counter table, as far as calls show it.
#[test]
fn counter_table() {
    let more = |line: &str| {
        run_script(line.as_bytes()).lines().last().unwrap().split(' ').nth(7).unwrap().to_string()
    };
    assert_eq!(more("inverse_point 131072 0 0 131072 0 0 5 -5"), "1,3,-3");
    assert_eq!(more("inverse_point 1 0 0 1 0 0 32767 0"), "1,2147418112,0");
    assert_eq!(more("inverse_point 1 0 0 1 0 0 32768 0"), "0,0,0");
    assert_eq!(more("inverse_point 134217728 134217729 134217727 134217728 0 0 3 4"), "0,0,0");
    let view = "create_window\ncreate_view 0 1\n";
    let rect =
        "attach_surface 0 1 0 0 2 0 1 -500 -500 1000 1000 0 0 0 0 0 65536 0 0 65536 0 0 0 1\n";
    for (x, hits) in [(-501, "0"), (-500, "1,0,1"), (499, "1,0,1"), (500, "0")] {
        assert_eq!(more(&format!("{view}{rect}hit_test_stack 0 1 {x} 0 32")), hits);
    }
    let odd = "0 0 0 0 0 0 0 0 0 0 134217728 134217729 134217727 134217728 0 0 0 1";
    assert_eq!(last_number(&format!("{view}attach_surface 0 1 0 0 2 0 {odd}")), "0");
    let route =
        |payload: &str| last_number(&format!("{view}route 1 1 1 0 1 0 1 7 1 0 0 {payload}"));
    assert_eq!(route("0 0 1 0 0 0 0 32768 90 0 0 0 0"), "0");
    assert_eq!(route("0 0 1 0 0 0 0 32769 90 0 0 0 0"), "35");
    assert_eq!(route("0 0 1 0 0 0 0 32768 -91 0 0 0 0"), "36");
    assert_eq!(route("5 0 3 2 3"), "0");
    assert_eq!(route("5 0 3 3 4"), "37");
    assert_eq!(route("5 0 3 2 1"), "37");
    let observe = "attach_surface 0 1 0 0 0 0 0 0 0 0 0 0 0 0 0 0 65536 0 0 65536 0 0 0 1\n";
    for (count, number) in [(65, "3"), (1, "18"), (0, "0")] {
        let list = " 1 0 0".repeat(count);
        let line = format!("register_surface_system_shortcut_set 0 1 3 {count}{list}");
        assert_eq!(last_number(&format!("{view}{observe}{line}")), number);
    }
    assert_eq!(last_number(&format!("{view}{rect}set_focus 9 9 1 0 1 3")), "17");
    let closing = format!(
        "{view}{rect}{rect}capture_pointer_for 5 1 9 0 1 4\ncapture_pointer 1 1 5\nclose_surface 0 1\n"
    );
    assert_eq!(more(&format!("{closing}view_input_state 0 1")), "0,0,0,0,0,0,0,0,0");
    assert_eq!(more(&format!("{closing}view_pointer_captures 0 1")), "1,1,1,0,1,1");
}
