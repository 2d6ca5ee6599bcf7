//! The answers that each verb can give, from any start, to any list of calls.
//!
//! RULES.md's orders, less what no list of calls reaches: 42 (no damaged state comes from a start), 8 of a panel's
//! own view (that view was live once), 15 and 16 (recovery is left out), the metrics' own 21 (its counter starts at 1).

/// Each verb with its answers; 0 is accepted.
pub const ANSWERS: [(&str, &[u32]); 41] = [
    ("digest", &[0]),
    ("new", &[0, 1, 2, 41]),
    ("new_at", &[0, 1, 2, 41]),
    ("router", &[0, 40, 41]),
    ("create_window", &[0, 3, 21]),
    ("close_window", &[0, 5, 6, 7, 21, 22]),
    ("create_view", &[0, 3, 5, 6, 21]),
    ("update_view_metrics", &[0, 8, 9, 14, 20, 21]),
    ("close_view", &[0, 8, 9, 10, 21, 22]),
    ("attach_surface", &[0, 3, 4, 8, 9, 13, 21]),
    ("update_surface_geometry", &[0, 11, 12, 13, 20, 21]),
    ("update_surface_input_policy", &[0, 11, 12, 20, 21]),
    ("register_surface_system_shortcut_set", &[0, 3, 11, 12, 18, 20, 21, 41]),
    ("set_focus", &[0, 8, 9, 11, 12, 17, 18, 20, 21]),
    ("capture_pointer", &[0, 9, 11, 12, 18, 20, 21, 41]),
    ("capture_pointer_for", &[0, 9, 11, 12, 18, 20, 21, 41]),
    ("release_pointer", &[0, 9, 11, 12, 18, 20, 21]),
    ("release_pointer_for", &[0, 9, 11, 12, 18, 20, 21]),
    ("release_device_pointer_captures", &[0, 18, 21]),
    ("begin_ime", &[0, 9, 11, 12, 18, 19, 20, 21]),
    ("end_ime", &[0, 9, 11, 12, 18, 20, 21]),
    ("suspend_view_input", &[0, 8, 9, 20, 21]),
    ("arbitrate", &[0, 8, 9, 21, 41]),
    ("close_surface", &[0, 9, 11, 12, 21, 22]),
    ("shutdown", &[0, 21, 22]),
    ("hit_test_stack", &[0, 8, 9, 41]),
    ("inverse_point", &[0]),
    ("route", &[0, 8, 9, 11, 12, 20, 21, 31, 32, 33, 34, 35, 36, 37, 38, 39, 40, 41]),
    ("release_surface", &[0]),
    ("release_all", &[0]),
    ("view_window", &[0, 8, 9]),
    ("view_metrics", &[0, 8, 9]),
    ("view_input_state", &[0, 8, 9]),
    ("view_pointer_captures", &[0, 8, 9]),
    ("surface_descriptor", &[0, 11, 12]),
    ("view_layers", &[0, 8, 9]),
    ("traces", &[0]),
    ("counts", &[0]),
    ("active_binding_count", &[0]),
    ("state", &[0]),
    ("router_state", &[0]),
];

/// What `route` answers to every kind of payload.
const ROUTE: [u32; 10] = [0, 8, 9, 20, 21, 31, 32, 33, 39, 41];

/// What `route` answers to each kind of payload besides. 11 and 12 are a closed owner at a view's loss;
/// 11 needs a registry that was started anew beside an old router.
const ROUTE_BESIDES: [&[u32]; 10] =
    [&[34, 35, 36, 40], &[34], &[40], &[38], &[], &[37], &[40], &[11, 12], &[11, 12], &[]];

/// What `arbitrate` answers to every kind of event; the stacks (1 and 3) also 41.
const ARBITRATE: [u32; 4] = [0, 8, 9, 21];

/// All pairs of a label and an answer: the verbs, then `route` and `arbitrate` by their kinds.
pub fn pairs() -> Vec<(String, u32)> {
    let mut all = Vec::new();
    for (verb, answers) in ANSWERS {
        all.extend(answers.iter().map(|answer| (verb.to_string(), *answer)));
    }
    for (kind, besides) in ROUTE_BESIDES.iter().enumerate() {
        let answers = ROUTE.iter().chain(besides.iter());
        all.extend(answers.map(|answer| (format!("route {kind}"), *answer)));
    }
    for kind in 0..11 {
        let stack = matches!(kind, 1 | 3).then_some(&41);
        let answers = ARBITRATE.iter().chain(stack);
        all.extend(answers.map(|answer| (format!("arbitrate {kind}"), *answer)));
    }
    all
}
