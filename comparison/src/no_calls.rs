//! Lines that are no calls, in every way that the format names.

use crate::script::{split, LONGEST_LINE, MOST_NUMBERS};

/// A call of each verb, `route` of each payload, with the types of its numbers: `u` u32, `U` u64, `i` i32, `s` i16, `h` u16,
/// `b` u8, a digit d for 0 to d, `m` 0 to 63, `k` 0 to 10.
const CALLS: [(&str, &str); 50] = [
    ("digest 1", "1"),
    ("new 0 1 1 8 16 64 16 32", "uuUUUUUU"),
    ("new_at 0 1 1 8 16 64 16 32 0 1", "uuUUUUUUUu"),
    ("router 128", "U"),
    ("create_window", ""),
    ("close_window 0 1", "uu"),
    ("create_view 0 1", "uu"),
    ("update_view_metrics 0 1 0 0 0 0 0 0 65536 0 0 0 0 0 1", "uuiiuuuuuuuuu2U"),
    ("close_view 0 1", "uu"),
    (
        "attach_surface 0 1 1 0 2 1 1 0 0 9 9 1 0 0 9 9 65536 0 0 65536 0 0 65535 1",
        "uu2i311iiuu1iiuuiiiiiih1",
    ),
    (
        "update_surface_geometry 0 1 1 0 0 9 9 1 0 0 9 9 65536 0 0 65536 0 0 65535 1 0",
        "uu1iiuu1iiuuiiiiiih1U",
    ),
    ("update_surface_input_policy 0 1 0 0", "uu3U"),
    ("register_surface_system_shortcut_set 0 1 0 1 1 0 0", "uuUuU2s"),
    ("set_focus 0 1 1 0 1 0", "uu1uuU"),
    ("capture_pointer 0 1 0", "uuU"),
    ("capture_pointer_for 7 1 0 0 1 0", "UuuuuU"),
    ("release_pointer 0 1 0", "uuU"),
    ("release_pointer_for 7 1 0 0 1 0", "UuuuuU"),
    ("release_device_pointer_captures 7 1", "Uu"),
    ("begin_ime 0 1 0", "uuU"),
    ("end_ime 0 1 0", "uuU"),
    ("suspend_view_input 0 1 0", "uuU"),
    ("arbitrate 0 1 3 7 1 0 0 0 0 0 1 0 1", "uukUuu1uuUuuu"),
    ("close_surface 0 1", "uu"),
    ("shutdown", ""),
    ("hit_test_stack 0 1 0 0 32", "uuiiU"),
    ("inverse_point 65536 0 0 65536 0 0 5 5", "iiiiiiii"),
    ("route 1 1 1 0 1 0 1 7 1 1 0 0 0 0 5 5 0 0 0 0 0 0 1 0", "UUUuuuuUu4m9u3iiiihssu1b"),
    ("route 1 1 1 0 1 0 1 7 1 1 0 1 0 5 5 0 0 0", "UUUuuuuUu4m9uiiii2"),
    ("route 1 1 1 0 1 0 1 7 1 1 0 2 0 4 0", "UUUuuuuUu4m91u1"),
    ("route 1 1 1 0 1 0 1 7 1 1 0 3 1 1", "UUUuuuuUu4m9U1"),
    ("route 1 1 1 0 1 0 1 7 1 1 0 4 3", "UUUuuuuUu4m9h"),
    ("route 1 1 1 0 1 0 1 7 1 1 0 5 0 3 1 2", "UUUuuuuUu4m93huu"),
    ("route 1 1 1 0 1 0 1 7 1 1 0 6 1 0", "UUUuuuuUu4m911"),
    ("route 1 1 1 0 1 0 1 7 1 1 0 7 1", "UUUuuuuUu4m91"),
    ("route 1 1 1 0 1 0 1 7 1 1 0 8 1", "UUUuuuuUu4m91"),
    ("route 1 1 1 0 1 0 1 7 1 1 0 9", "UUUuuuuUu4m9"),
    ("release_surface 0 1", "uu"),
    ("release_all", ""),
    ("view_window 0 1", "uu"),
    ("view_metrics 0 1", "uu"),
    ("view_input_state 0 1", "uu"),
    ("view_pointer_captures 0 1", "uu"),
    ("surface_descriptor 0 1", "uu"),
    ("view_layers 0 1", "uu"),
    ("traces", ""),
    ("counts", ""),
    ("active_binding_count", ""),
    ("state", ""),
    ("router_state", ""),
];

/// Wrong in other ways: verbs, spaces, numbers that are not written as they should be, bytes that are no text, lists
/// that do not fit their counts, an absent thing with numbers.
const WRITTEN: [&[u8]; 44] = [
    b"frobnicate",
    b"frobnicate 1",
    b"Counts",
    b"count",
    b"countss",
    b"counts_",
    b"counts1",
    b"-",
    b"7",
    b" counts",
    b" ",
    b"counts ",
    b"digest  1",
    b"digest 1 ",
    b"digest\t1",
    b"counts\t",
    b"counts\r",
    b"\r",
    b"counts\0",
    b"\0",
    b"digest 1\0",
    b"digest \xFF",
    b"\xFF",
    b"\xC3\xA9",
    b"digest 01",
    b"digest 00",
    b"digest +1",
    b"digest -0",
    b"digest --1",
    b"digest -",
    b"digest 1.0",
    b"digest 0x1",
    b"digest a",
    b"digest 1a",
    b"router 00000000000000000001",
    b"router 99999999999999999999",
    b"router 100000000000000000000000000000000000000000",
    b"set_focus 0 1 0 0 1 0",
    b"attach_surface 0 1 1 0 2 1 0 1 0 0 0 0 0 0 0 0 65536 0 0 65536 0 0 65535 1",
    b"arbitrate 0 1 0 0 0 0 0 0 1 0 0",
    b"arbitrate 0 1 4 0 0 0 0 0 0 0 1 0 1",
    b"arbitrate 0 1 1 0 0 0 0 0 0 0 21",
    b"arbitrate 0 1 1 0 0 0 0 0 0 0 2 0 1",
    b"register_surface_system_shortcut_set 0 1 0 71",
];

/// The least and the greatest number of a type.
fn range(kind: char) -> (i128, i128) {
    match kind {
        'u' => (0, u32::MAX.into()),
        'U' => (0, u64::MAX.into()),
        'i' => (i32::MIN.into(), i32::MAX.into()),
        's' => (i16::MIN.into(), i16::MAX.into()),
        'h' => (0, u16::MAX.into()),
        'b' => (0, u8::MAX.into()),
        'm' => (0, 63),
        'k' => (0, 10),
        digit => (0, digit.to_digit(10).expect("a type of the table").into()),
    }
}

fn line(verb: &str, numbers: &[i128]) -> Vec<u8> {
    numbers.iter().fold(verb.to_string(), |line, number| format!("{line} {number}")).into_bytes()
}

/// The calls from which the lines are made.
pub fn calls() -> impl Iterator<Item = &'static str> {
    CALLS.into_iter().map(|(call, _)| call)
}

/// All lines; none of them is a call.
pub fn lines() -> Vec<Vec<u8>> {
    let mut all = WRITTEN.map(<[u8]>::to_vec).to_vec();
    for (call, types) in CALLS {
        let (verb, numbers) = split(call.as_bytes()).expect("written as the format says");
        assert_eq!(numbers.len(), types.len(), "{call}");
        // A number too few, one too many, and each number just outside its type's range.
        if let Some((_, fewer)) = numbers.split_last() {
            all.push(line(verb, fewer));
        }
        all.push(line(verb, &[&numbers[..], &[0]].concat()));
        for (place, (low, high)) in types.chars().map(range).enumerate() {
            for outside in [low - 1, high + 1] {
                let mut numbers = numbers.clone();
                numbers[place] = outside;
                all.push(line(verb, &numbers));
            }
        }
    }
    let verb = "register_surface_system_shortcut_set";
    all.push(line(verb, &[1; MOST_NUMBERS + 1]));
    for length in [LONGEST_LINE, LONGEST_LINE + 1, 3 * LONGEST_LINE] {
        all.push([b"counts ", &b"1".repeat(length - 7)[..]].concat());
    }
    all
}
