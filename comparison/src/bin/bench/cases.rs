//! The cases, as the port's program names them.

/// What a turn does.
#[derive(Clone, Copy)]
pub enum Kind {
    /// One contact moves.
    Moves,
    /// One contact presses and lifts in turn.
    Presses,
    HitTest,
    /// The device of 128 presses goes.
    DisconnectPresses,
    /// The device of 512 captures goes.
    DisconnectCaptures,
    /// A panel is attached and closed.
    Panel,
}

pub struct Case {
    pub name: &'static str,
    pub what: &'static str,
    pub kind: Kind,
    pub panels: u32,
    /// How many calls a turn makes.
    pub calls: u32,
    /// The turns T of the shorter of the two runs of the port.
    pub turns: u64,
}

const fn case(
    name: &'static str,
    what: &'static str,
    kind: Kind,
    panels: u32,
    calls: u32,
    turns: u64,
) -> Case {
    Case { name, what, kind, panels, calls, turns }
}

pub const CASES: [Case; 8] = [
    case("move_3", "route Move, 3 panels", Kind::Moves, 3, 1, 8000),
    case("move_16", "route Move, 16 panels", Kind::Moves, 16, 1, 8000),
    case("press_3", "route Down and Up (mean), 3 panels", Kind::Presses, 3, 1, 8000),
    case("press_16", "route Down and Up (mean), 16 panels", Kind::Presses, 16, 1, 8000),
    case("hit_16", "hit test, 16 panels, all hit", Kind::HitTest, 16, 1, 20000),
    case(
        "disconnect_presses",
        "route disconnect, 128 presses",
        Kind::DisconnectPresses,
        3,
        1,
        1000,
    ),
    case(
        "disconnect_captures",
        "route disconnect, 512 captures",
        Kind::DisconnectCaptures,
        1,
        1,
        200,
    ),
    case("panel", "attach and close a panel (mean)", Kind::Panel, 3, 2, 4000),
];
