//! The kinds of lists that stand in answers: empty, full, and with each thing that they can hold.

use crate::answer::Answer;
use crate::calls::Session;
use crate::composition::access;
use crate::limits::{BINDINGS, CAPTURES_A_VIEW, HITS, KNOWN_DEVICES, REGISTRATIONS, START_LIMITS};
use crate::platform_input::access as router_access;
use crate::platform_input::{KeyPhase, PlatformInputPayload, PointerPhase};
use crate::platform_input::{PlatformInputEvent, SynthesizedInputRelease};
use crate::script::Call;
use crate::*;

/// What lists something, and a kind of list that it has.
pub type Kind = (&'static str, &'static str);

const LENGTHS: [&str; 4] = ["none", "one", "several", "full"];
const RELEASES: [&str; 4] = ["none", "P", "K", "G"];
const BEHIND: &str = "captures behind presses";
const LEFT_OUT: &str = "a capture left out, its press being listed";
const INPUT: [&str; 6] =
    ["no focus", "focus", "no capture", "capture", "no composition", "composition"];
/// By composition 4, capture 2, focus 1.
const CLOSED: [&str; 8] = [
    "nothing",
    "focus",
    "capture",
    "capture, focus",
    "composition",
    "composition, focus",
    "composition, capture",
    "composition, capture, focus",
];
const EVENTS: [&str; 11] = [
    "Pointer",
    "PointerStack",
    "PointerFor",
    "PointerStackFor",
    "Keyboard",
    "KeyboardFor",
    "Gamepad",
    "GamepadFor",
    "Text",
    "Shortcut",
    "SystemShortcut",
];
const SHAPES: [&str; 4] = ["no rectangle", "bounds", "clip", "bounds and clip"];

/// All kinds, by what lists them.
const TABLE: [(&str, &[&str]); 27] = [
    ("deliveries", &LENGTHS),
    ("deliveries", &["all observed", "observed, then the consumer", "no consumer"]),
    ("release_surface", &RELEASES),
    ("release_all", &RELEASES),
    ("release_all", &["several panels", "full"]),
    ("disconnect", &RELEASES),
    ("disconnect", &[BEHIND, LEFT_OUT]),
    ("view's loss", &RELEASES),
    ("view's loss", &[BEHIND, LEFT_OUT]),
    ("view's loss", &INPUT),
    ("device captures", &["none", "one", "several", "several views"]),
    ("close", &CLOSED),
    ("close", &["focus restored", "focus not restored"]),
    ("shutdown", &["of nothing", "of windows alone", "of several of each"]),
    ("shutdown", &["a panel's release", "a focus restored"]),
    ("hits", &LENGTHS),
    ("traces", &LENGTHS),
    ("traces", &["16 hits", "a smaller limit reached"]),
    ("traces", &EVENTS),
    ("layers", &LENGTHS),
    ("captures", &LENGTHS),
    ("input state", &INPUT),
    ("suspend", &INPUT),
    ("descriptor", &SHAPES),
    ("inverse point", &["found", "skipped"]),
    ("state", &["8 windows", "16 views", "64 panels", "64 registrations", "256 registrations"]),
    ("router_state", &["no device", "32 devices", "pointers", "keys", "gamepads", "128 presses"]),
];

/// Each kind of payload that `route` accepts, by its phase.
const PAYLOADS: [&str; 22] = [
    "pointer Down",
    "pointer Move",
    "pointer Up",
    "pointer Cancel",
    "wheel",
    "key Down",
    "key Down repeated",
    "key Up",
    "key Up repeated",
    "shortcut",
    "system shortcut",
    "text",
    "composition Start",
    "composition Update",
    "composition End",
    "composition Cancel",
    "gamepad connected",
    "gamepad disconnected",
    "focus gained",
    "focus lost",
    "visibility gained",
    "visibility lost",
];

/// All kinds there are.
pub fn kinds() -> Vec<Kind> {
    let lists = TABLE.iter().flat_map(|(name, kinds)| kinds.iter().map(|kind| (*name, *kind)));
    lists.chain(PAYLOADS.map(|payload| ("payload", payload))).collect()
}

/// The kinds that the answer to an accepted call has; `session` is the state after it.
pub fn of_answer(session: &Session, call: &Call, answer: &Answer, found: &mut Vec<Kind>) {
    let registry = &session.registry;
    match call {
        Call::Arbitrate(..) => deliveries(answer, found),
        Call::Route(event) => route(event, answer, found),
        Call::ReleaseSurface(_) => releases("release_surface", answer, found),
        Call::ReleaseAll => {
            releases("release_all", answer, found);
            let panels =
                answer.releases.iter().map(panel).collect::<std::collections::BTreeSet<_>>();
            push_if(found, panels.len() > 1, ("release_all", "several panels"));
            push_if(found, answer.releases.len() == BINDINGS as usize, ("release_all", "full"));
        }
        Call::ReleaseDevicePointerCaptures(..) => {
            let count = answer.releases.len();
            found.push(("device captures", LENGTHS[count.min(2)]));
            let view = |release| registry.surface_descriptor(panel(release)).map(|d| d.view).ok();
            let views = answer.releases.iter().map(view).collect::<std::collections::BTreeSet<_>>();
            push_if(found, views.len() > 1, ("device captures", "several views"));
        }
        Call::CloseSurface(_) => {
            let closed = Closed::read(&mut numbers(answer).into_iter());
            found.push(("close", CLOSED[closed.released]));
            let kind = if closed.restored { "focus restored" } else { "focus not restored" };
            push_if(found, closed.released & 1 == 1, ("close", kind));
        }
        Call::Shutdown => shutdown(answer, found),
        Call::HitTestStack(..) => length("hits", answer, HITS, found),
        Call::ViewLayers(_) => length("layers", answer, START_LIMITS[3] as usize, found),
        Call::ViewPointerCaptures(_) => length("captures", answer, CAPTURES_A_VIEW, found),
        Call::ViewInputState(_) => input("input state", &numbers(answer), found),
        Call::SuspendViewInput(..) => input("suspend", &numbers(answer), found),
        Call::Traces => traces(registry, answer, found),
        Call::SurfaceDescriptor(surface) => {
            let geometry = registry.surface_descriptor(*surface).map(|d| d.geometry);
            let of = |g: SurfaceGeometry| g.bounds.map_or(0, |_| 1) + g.clip.map_or(0, |_| 2);
            found.push(("descriptor", SHAPES[geometry.map_or(0, of)]));
        }
        Call::InversePoint(..) => {
            let kind = if numbers(answer)[0] == 1 { "found" } else { "skipped" };
            found.push(("inverse point", kind));
        }
        Call::State => state(registry, found),
        Call::RouterState => router_state(session, found),
        _ => {}
    }
}

/// Whether the call releases a device or a view that has a capture by the panel of an open press.
pub fn capture_left_out(session: &Session, call: &Call) -> Option<Kind> {
    let Call::Route(PlatformInputEvent { header, payload }) = call else {
        return None;
    };
    let registry = &session.registry;
    let captures = match payload {
        PlatformInputPayload::DeviceDisconnected => access::views(registry)
            .into_iter()
            .flat_map(|view| registry.view_pointer_captures(view).unwrap_or_default())
            .filter(|(pointer, _)| {
                pointer.device == header.device.value
                    && pointer.device_generation == header.device.generation
            })
            .collect(),
        _ if is_loss(payload) => registry.view_pointer_captures(header.view).ok()?,
        _ => return None,
    };
    let presses = router_access::pointer_presses(&session.router);
    let name = if is_loss(payload) { "view's loss" } else { "disconnect" };
    presses.iter().any(|press| captures.contains(press)).then_some((name, LEFT_OUT))
}

fn is_loss(payload: &PlatformInputPayload) -> bool {
    matches!(
        payload,
        PlatformInputPayload::FocusChanged { focused: false }
            | PlatformInputPayload::VisibilityChanged { visible: false }
    )
}

fn push_if(found: &mut Vec<Kind>, holds: bool, kind: Kind) {
    if holds {
        found.push(kind);
    }
}

/// The numbers of column 8.
fn numbers(answer: &Answer) -> Vec<i128> {
    let column = answer.more.as_ref().map_or("", |column| &column.0);
    column.split(',').filter_map(|number| number.parse().ok()).collect()
}

/// A list in column 8 by its length, which stands first.
fn length(name: &'static str, answer: &Answer, full: usize, found: &mut Vec<Kind>) {
    let count = numbers(answer)[0] as usize;
    found.push((name, LENGTHS[if count == full { 3 } else { count.min(2) }]));
}

fn deliveries(answer: &Answer, found: &mut Vec<Kind>) {
    let list = &answer.deliveries;
    let full = list.len() == START_LIMITS[3] as usize;
    found.push(("deliveries", LENGTHS[if full { 3 } else { list.len().min(2) }]));
    let observed = list.iter().filter(|delivery| delivery.observed).count();
    let all = observed == list.len() && observed > 0;
    let then = observed > 0 && answer.consumer.is_some();
    push_if(found, all, ("deliveries", "all observed"));
    push_if(found, then, ("deliveries", "observed, then the consumer"));
    let unobserved = observed < list.len() && answer.consumer.is_none();
    push_if(found, unobserved, ("deliveries", "no consumer"));
}

fn panel(release: &SynthesizedInputRelease) -> SurfaceHandle {
    match release {
        SynthesizedInputRelease::PointerCancel { surface, .. }
        | SynthesizedInputRelease::KeyUp { surface, .. }
        | SynthesizedInputRelease::GamepadDisconnected { surface, .. } => *surface,
    }
}

/// Which of P 1, K 2, G 3 a release is.
fn letter(release: &SynthesizedInputRelease) -> usize {
    match release {
        SynthesizedInputRelease::PointerCancel { .. } => 1,
        SynthesizedInputRelease::KeyUp { .. } => 2,
        SynthesizedInputRelease::GamepadDisconnected { .. } => 3,
    }
}

fn releases(name: &'static str, answer: &Answer, found: &mut Vec<Kind>) {
    let letters = answer.releases.iter().map(letter).collect::<Vec<_>>();
    push_if(found, letters.is_empty(), (name, RELEASES[0]));
    for (kind, letter) in RELEASES.into_iter().enumerate() {
        push_if(found, letters.contains(&kind), (name, letter));
    }
}

fn route(event: &PlatformInputEvent, answer: &Answer, found: &mut Vec<Kind>) {
    if let Some(kind) = payload(&event.payload) {
        found.push(("payload", kind));
    }
    let name = match &event.payload {
        PlatformInputPayload::DeviceDisconnected => "disconnect",
        payload if is_loss(payload) => "view's loss",
        _ => return deliveries(answer, found),
    };
    releases(name, answer, found);
    let mut letters = answer.releases.iter().map(letter);
    let behind = letters.any(|letter| letter > 1) && letters.any(|letter| letter == 1);
    push_if(found, behind, (name, BEHIND));
    if name == "view's loss" {
        input(name, &numbers(answer)[1..], found);
    }
}

fn payload(payload: &PlatformInputPayload) -> Option<&'static str> {
    use PlatformInputPayload::*;
    let place = match payload {
        Pointer { phase: PointerPhase::Down, .. } => 0,
        Pointer { phase: PointerPhase::Move, .. } => 1,
        Pointer { phase: PointerPhase::Up, .. } => 2,
        Pointer { phase: PointerPhase::Cancel, .. } => 3,
        Wheel { .. } => 4,
        Key { phase: KeyPhase::Down, repeat, .. } => 5 + usize::from(*repeat),
        Key { phase: KeyPhase::Up, repeat, .. } => 7 + usize::from(*repeat),
        Shortcut { system, .. } => 9 + usize::from(*system),
        Text { .. } => 11,
        Composition { phase, .. } => 12 + *phase as usize,
        GamepadSnapshot { connected, .. } => 17 - usize::from(*connected),
        FocusChanged { focused } => 19 - usize::from(*focused),
        VisibilityChanged { visible } => 21 - usize::from(*visible),
        DeviceDisconnected => return None,
    };
    Some(PAYLOADS[place])
}

/// I: three optional handles.
fn input(name: &'static str, numbers: &[i128], found: &mut Vec<Kind>) {
    for place in 0..3 {
        found.push((name, INPUT[2 * place + numbers[3 * place] as usize]));
    }
}

/// What stands in a close report, C.
struct Closed {
    /// Composition 4, capture 2, focus 1.
    released: usize,
    restored: bool,
}

impl Closed {
    fn read(numbers: &mut impl Iterator<Item = i128>) -> Self {
        let count = numbers.next().unwrap_or(0);
        let released = (0..count).filter_map(|_| numbers.next()).map(|place| 1 << place).sum();
        let restored = numbers.next() == Some(1);
        let _ = (numbers.next(), numbers.next());
        Self { released, restored }
    }
}

fn shutdown(answer: &Answer, found: &mut Vec<Kind>) {
    let mut numbers = numbers(answer).into_iter();
    let panels = numbers.next().unwrap_or(0);
    for _ in 0..panels {
        let _ = (numbers.next(), numbers.next());
        let closed = Closed::read(&mut numbers);
        let _ = numbers.next();
        push_if(found, closed.released > 0, ("shutdown", "a panel's release"));
        push_if(found, closed.restored, ("shutdown", "a focus restored"));
    }
    let views = numbers.next().unwrap_or(0);
    let windows = numbers.nth(2 * views as usize).unwrap_or(0);
    let kinds = [
        (windows == 0, "of nothing"),
        (windows > 0 && views == 0, "of windows alone"),
        (windows > 1 && views > 1 && panels > 1, "of several of each"),
    ];
    kinds.into_iter().for_each(|(holds, kind)| push_if(found, holds, ("shutdown", kind)));
}

fn traces(registry: &CompositionRegistry, answer: &Answer, found: &mut Vec<Kind>) {
    length("traces", answer, START_LIMITS[4] as usize, found);
    let limit = access::limits(registry).max_trace_entries;
    let small = limit < START_LIMITS[4] as usize && registry.traces().count() == limit;
    push_if(found, small, ("traces", "a smaller limit reached"));
    for trace in registry.traces() {
        use ArbitrationEvent::*;
        let kind = match &trace.event {
            Pointer { .. } => 0,
            PointerStack { .. } => 1,
            PointerFor { .. } => 2,
            PointerStackFor { .. } => 3,
            Keyboard => 4,
            KeyboardFor { .. } => 5,
            Gamepad => 6,
            GamepadFor { .. } => 7,
            Text => 8,
            Shortcut => 9,
            SystemShortcut { .. } => 10,
        };
        found.push(("traces", EVENTS[kind]));
        if let PointerStack { hits } | PointerStackFor { hits, .. } = &trace.event {
            push_if(found, hits.len() == HITS, ("traces", "16 hits"));
        }
    }
}

fn state(registry: &CompositionRegistry, found: &mut Vec<Kind>) {
    let panels = access::surfaces(registry);
    let registrations = panels.iter().map(|panel| access::registrations(registry, *panel).len());
    let kinds = [
        (registry.live_window_count() == START_LIMITS[0] as usize, "8 windows"),
        (registry.live_view_count() == START_LIMITS[1] as usize, "16 views"),
        (registry.live_surface_count() == START_LIMITS[2] as usize, "64 panels"),
        (registrations.clone().any(|count| count == 64), "64 registrations"),
        (registrations.sum::<usize>() == REGISTRATIONS, "256 registrations"),
    ];
    kinds.into_iter().for_each(|(holds, kind)| push_if(found, holds, ("state", kind)));
}

fn router_state(session: &Session, found: &mut Vec<Kind>) {
    let router = &session.router;
    let devices = router_access::known_devices(router);
    let kinds = [
        (devices == 0, "no device"),
        (devices == KNOWN_DEVICES, "32 devices"),
        (!router_access::pointers(router).is_empty(), "pointers"),
        (!router_access::keys(router).is_empty(), "keys"),
        (!router_access::gamepads(router).is_empty(), "gamepads"),
        (router.active_binding_count() == BINDINGS as usize, "128 presses"),
    ];
    kinds.into_iter().for_each(|(holds, kind)| push_if(found, holds, ("router_state", kind)));
}
