//! The numbers of the C header are those that this crate writes and reads. Every number of the header is held here, so
//! a name that stands on one side alone fails too.

use std::collections::BTreeMap;
use std::fmt::Debug;

use super::{calls, events, Answer, Form, Reader};
use super::{ROUTED_ARBITRATED, ROUTED_DISCONNECTED, ROUTED_VIEW_RELEASED};
use crate::ffi;
use crate::*;

type Names = BTreeMap<String, u64>;

const HEADER: &str = include_str!("../../../c/nibcobalt.h");
const SOME: GenerationalHandle = GenerationalHandle { index: 0, generation: 1 };
const POINTER: CompositionPointerId = CompositionPointerId::PRIMARY;

/// What the header names without a case of the Rust.
const PLACES: [&str; 8] = [
    "AT_PAYLOAD",
    "AT_ANSWER",
    "AT_REVISION",
    "AT_CONSUMER",
    "AT_DELIVERIES",
    "NUMBERS_OF_DELIVERY",
    "NUMBERS_OF_RELEASE",
    "NUMBERS_OF_CAPTURE",
];

/// The names of the header, without their common start, and their numbers.
fn header() -> Names {
    let mut names = Names::new();
    for line in HEADER.lines() {
        let line = line.trim().trim_start_matches("#define ").trim_end_matches(',');
        let Some((name, number)) = line.split_once(" = ").or_else(|| line.split_once(' ')) else {
            continue;
        };
        if let (Some(name), Ok(number)) = (name.strip_prefix("NIBCOBALT_"), number.parse()) {
            assert_eq!(names.insert(name.to_string(), number), None, "{name} stands twice");
        }
    }
    names
}

/// A case's name in the header: `InvalidWindow { .. }` is INVALID_WINDOW.
fn case_name(case: impl Debug) -> String {
    let text = format!("{case:?}");
    let case: String = text.chars().take_while(|letter| letter.is_alphanumeric()).collect();
    let mut name = String::new();
    for letter in case.chars() {
        if letter.is_uppercase() && !name.is_empty() {
            name.push('_');
        }
        name.extend(letter.to_uppercase());
    }
    name
}

fn bytes(numbers: &[u64]) -> Vec<u8> {
    numbers.iter().flat_map(|number| number.to_le_bytes()).collect()
}

#[derive(Default)]
struct Expected(Names);

impl Expected {
    fn name(&mut self, name: &str, number: u64) {
        assert_eq!(self.0.insert(name.to_string(), number), None, "{name} stands twice");
    }

    /// The cases of a type, each with its number.
    fn cases<T: Debug>(&mut self, kind: &str, cases: impl IntoIterator<Item = (T, u64)>) {
        for (case, number) in cases {
            self.name(&format!("{kind}_{}", case_name(case)), number);
        }
    }
}

fn numbered<T: Copy, const N: usize>(cases: [T; N], number: fn(T) -> u64) -> Vec<(T, u64)> {
    cases.into_iter().map(|case| (case, number(case))).collect()
}

fn refusals(expected: &mut Expected) {
    expected.name("ACCEPTED", 0);
    let of_registry = (1..=22).map(|number| (CompositionError::of(number), number));
    expected.cases("COMPOSITION_ERROR", of_registry);
    let of_router = (31..=40).map(|number| (PlatformInputError::of(number), number));
    expected.cases("PLATFORM_INPUT_ERROR", of_router);
    let of_port = [CompositionError::PortLimit, CompositionError::Damaged];
    expected.cases("ERROR", numbered(of_port, CompositionError::number));
    expected.name("MALFORMED", ffi::MALFORMED);
    expected.name("SHORT_BUFFER", ffi::SHORT_BUFFER);
}

fn constants(expected: &mut Expected) {
    expected.name("ABI", ffi::ABI);
    expected.name("MESSAGE_NUMBERS", ffi::CALL_NUMBERS as u64);
    expected.name("ANSWER_BYTES", ffi::ANSWER_BYTES as u64);
    expected.name("STACK_START_COUNTER", ffi::STACK_START_COUNTER as u64);
    expected.name("STACK_CALL", ffi::STACK_CALL as u64);
    expected.name("STACK_ROUTE", ffi::STACK_ROUTE as u64);
}

fn calls(expected: &mut Expected) {
    let metrics = ViewMetricsUpdate {
        origin_x_milli: 0,
        origin_y_milli: 0,
        width_milli: 0,
        height_milli: 0,
        framebuffer_width: 0,
        framebuffer_height: 0,
        scale_q16: 1,
        safe_area: ViewInsets { top_milli: 0, right_milli: 0, bottom_milli: 0, left_milli: 0 },
        visibility: ViewVisibility::Visible,
    };
    let geometry = SurfaceGeometry::default();
    let input = SurfaceInputPolicy::Observe;
    let panel = SurfaceDescriptor {
        view: SOME,
        kind: SurfaceKind::Ui,
        z_order: 0,
        input,
        accepts_text: false,
        geometry,
    };
    let all: [(&str, Form); 36] = [
        ("CREATE_WINDOW", calls::create_window()),
        ("CLOSE_WINDOW", calls::close_window(SOME)),
        ("CREATE_VIEW", calls::create_view(SOME)),
        ("UPDATE_VIEW_METRICS", calls::update_view_metrics(SOME, metrics, 1)),
        ("CLOSE_VIEW", calls::close_view(SOME)),
        ("ATTACH_SURFACE", calls::attach_surface(panel)),
        ("UPDATE_SURFACE_GEOMETRY", calls::update_surface_geometry(SOME, geometry, 1)),
        ("UPDATE_SURFACE_INPUT_POLICY", calls::update_surface_input_policy(SOME, input, 1)),
        ("SET_FOCUS", calls::set_focus(SOME, None, 1)),
        ("CAPTURE_POINTER", calls::capture_pointer(SOME, 1)),
        ("CAPTURE_POINTER_FOR", calls::capture_pointer_for(POINTER, SOME, 1)),
        ("RELEASE_POINTER", calls::release_pointer(SOME, 1)),
        ("RELEASE_POINTER_FOR", calls::release_pointer_for(POINTER, SOME, 1)),
        ("BEGIN_IME", calls::begin_ime(SOME, 1)),
        ("END_IME", calls::end_ime(SOME, 1)),
        ("SUSPEND_VIEW_INPUT", calls::suspend_view_input(SOME, 1)),
        ("RELEASE_DEVICE_POINTER_CAPTURES", calls::release_device_pointer_captures(1, 1)),
        (
            "REGISTER_SURFACE_SYSTEM_SHORTCUT_SET",
            calls::register_surface_system_shortcut_set(SOME, 1),
        ),
        (
            "REGISTER_SURFACE_SYSTEM_SHORTCUTS",
            calls::register_surface_system_shortcuts(SOME, None, 1),
        ),
        ("SET_SURFACE_SYSTEM_SHORTCUTS", calls::set_surface_system_shortcuts(SOME, 1, 1)),
        ("ARBITRATE", calls::arbitrate(SOME, &ArbitrationEvent::Text)),
        ("CLOSE_SURFACE", calls::close_surface(SOME)),
        ("SHUTDOWN", calls::shutdown()),
        ("ROUTE", events::route(&event(PlatformInputPayload::DeviceDisconnected))),
        ("RELEASE_SURFACE", calls::release_surface(SOME)),
        ("RELEASE_ALL", calls::release_all()),
        ("VIEW_WINDOW", calls::view_window(SOME)),
        ("VIEW_METRICS", calls::view_metrics(SOME)),
        ("VIEW_INPUT_STATE", calls::view_input_state(SOME)),
        ("VIEW_POINTER_CAPTURES", calls::view_pointer_captures(SOME)),
        ("SURFACE_DESCRIPTOR", calls::surface_descriptor(SOME)),
        ("VIEW_LAYERS", calls::view_layers(SOME)),
        ("TRACES", calls::traces()),
        ("COUNTS", calls::counts()),
        ("ACTIVE_BINDING_COUNT", calls::active_binding_count()),
        ("HIT_TEST_STACK", calls::hit_test_stack(SOME, 0, 0)),
    ];
    for (name, form) in all {
        expected.name(&format!("CALL_{name}"), form.numbers[0]);
    }
    // The source keeps this one private, so the crate has no function for it; tests/forms.rs makes it by its number.
    expected.name("CALL_INVERSE_POINT", 36);
}

fn choices(expected: &mut Expected) {
    use {CompositionPhase as Text, InputDeviceKind as Device, SurfaceInputPolicy as Policy};
    let kinds = [SurfaceKind::Game, SurfaceKind::Ui, SurfaceKind::Diagnostics];
    expected.cases("SURFACE_KIND", numbered(kinds, |case| case as u64));
    let policies = [Policy::Observe, Policy::Passthrough, Policy::Interactive, Policy::Exclusive];
    expected.cases("POLICY", numbered(policies, |case| case as u64));
    let scopes = [ShortcutScope::View, ShortcutScope::Window, ShortcutScope::Session];
    expected.cases("SCOPE", numbered(scopes, |case| case as u64));
    let seen = [ViewVisibility::Visible, ViewVisibility::Hidden, ViewVisibility::Suspended];
    expected.cases("VISIBILITY", numbered(seen, |case| case as u64));
    let devices = [Device::Mouse, Device::Touch, Device::Pen, Device::Keyboard, Device::Gamepad];
    expected.cases("DEVICE_KIND", numbered(devices, |case| case as u64));
    let phases = [PointerPhase::Down, PointerPhase::Move, PointerPhase::Up, PointerPhase::Cancel];
    expected.cases("POINTER_PHASE", numbered(phases, |case| case as u64));
    expected.cases("KEY_PHASE", numbered([KeyPhase::Down, KeyPhase::Up], |case| case as u64));
    let phases = [Text::Start, Text::Update, Text::End, Text::Cancel];
    expected.cases("COMPOSITION_PHASE", numbered(phases, |case| case as u64));
    let units = [WheelUnit::Pixel, WheelUnit::Line, WheelUnit::Page];
    expected.cases("WHEEL_UNIT", numbered(units, |case| case as u64));
    let mappings = [GamepadMapping::Standard, GamepadMapping::Raw];
    expected.cases("GAMEPAD_MAPPING", numbered(mappings, |case| case as u64));
}

fn arbitrations() -> [ArbitrationEvent; 11] {
    use ArbitrationEvent as Event;
    [
        Event::Pointer { hit: None },
        Event::PointerStack { hits: vec![] },
        Event::PointerFor { pointer: POINTER, hit: None },
        Event::PointerStackFor { pointer: POINTER, hits: vec![] },
        Event::Keyboard,
        Event::KeyboardFor { target: None },
        Event::Gamepad,
        Event::GamepadFor { target: None },
        Event::Text,
        Event::Shortcut,
        Event::SystemShortcut { class_mask: 1 },
    ]
}

fn event(payload: PlatformInputPayload) -> PlatformInputEvent {
    let header = PlatformInputHeader {
        sequence: 1,
        timestamp_micros: 1,
        metrics_revision: 1,
        window: SOME,
        view: SOME,
        device: InputDeviceId { value: 1, generation: 1 },
        device_kind: InputDeviceKind::Touch,
        modifiers: InputModifiers::default(),
    };
    PlatformInputEvent { header, payload }
}

fn payloads() -> [PlatformInputPayload; 10] {
    use PlatformInputPayload as Payload;
    [
        Payload::Pointer {
            contact: 0,
            phase: PointerPhase::Down,
            x_milli: 0,
            y_milli: 0,
            delta_x_milli: 0,
            delta_y_milli: 0,
            pressure_q15: 0,
            tilt_x_degrees: 0,
            tilt_y_degrees: 0,
            buttons: 0,
            changed_button: None,
        },
        Payload::Wheel {
            contact: 0,
            x_milli: 0,
            y_milli: 0,
            delta_x_milli: 0,
            delta_y_milli: 0,
            unit: WheelUnit::Pixel,
        },
        Payload::Key {
            phase: KeyPhase::Down,
            physical_key: 0,
            logical_key: String::new(),
            repeat: false,
        },
        Payload::Shortcut { class_mask: 1, system: false },
        Payload::Text { text: String::new() },
        Payload::Composition {
            phase: CompositionPhase::Start,
            text: String::new(),
            selection_start: 0,
            selection_end: 0,
        },
        Payload::GamepadSnapshot {
            connected: true,
            mapping: GamepadMapping::Standard,
            axes_q15: vec![],
            buttons: vec![],
        },
        Payload::FocusChanged { focused: true },
        Payload::VisibilityChanged { visible: true },
        Payload::DeviceDisconnected,
    ]
}

/// The kinds that are written in calls, and those that are read in answers.
fn kinds(expected: &mut Expected, at_payload: usize) {
    for event in arbitrations() {
        let number = calls::arbitrate(SOME, &event).numbers[3];
        expected.cases("EVENT", [(event, number)]);
    }
    for payload in payloads() {
        let number = events::route(&event(payload.clone())).numbers[at_payload];
        expected.cases("PAYLOAD", [(payload, number)]);
    }
    for number in 0..3 {
        let release = Reader::of(&bytes(&[number, 7, 1, 0, 0, 1])).release();
        expected.cases("RELEASE", [(release, number)]);
        let closed = Reader::of(&bytes(&[1, number, 0, 0, 0])).closed(SOME, 1);
        expected.cases("SURFACE_RELEASE", [(closed.releases[0], number)]);
    }
    expected.name("ROUTED_DISCONNECTED", ROUTED_DISCONNECTED);
    expected.name("ROUTED_ARBITRATED", ROUTED_ARBITRATED);
    expected.name("ROUTED_VIEW_RELEASED", ROUTED_VIEW_RELEASED);
}

#[test]
fn the_header_has_the_numbers_of_this_crate() {
    let mut header = header();
    let at_payload = header["AT_PAYLOAD"] as usize;
    for place in PLACES {
        assert!(header.remove(place).is_some(), "{place}");
    }
    let mut expected = Expected::default();
    refusals(&mut expected);
    constants(&mut expected);
    calls(&mut expected);
    choices(&mut expected);
    kinds(&mut expected, at_payload);
    for (name, number) in expected.0 {
        assert_eq!(header.remove(&name), Some(number), "{name}");
    }
    assert!(header.is_empty(), "in the header alone: {header:?}");
}

#[test]
fn the_header_has_the_places_of_an_answer() {
    let header = header();
    let at = |name: &str| header[name] as usize;
    // One delivery, one release and one capture; every number that is no flag and no count is another one.
    let numbers = [
        10, 11, 1, 12, 13, 1, 14, 15, 0, 1, 0, 16, 17, 18, 19, 20, 1, 21, 22, 23, 24, 25, 0, 0, 0,
        26,
    ];
    let bytes = bytes(&numbers);
    let mut answer = Answer::read(&bytes);
    assert_eq!(answer.number, numbers[at("AT_ANSWER")]);
    assert_eq!(answer.revision, numbers[at("AT_REVISION")]);
    let consumer = answer.consumer.expect("a consumer");
    let place = at("AT_CONSUMER");
    assert_eq!(numbers[place..place + 2], [1, u64::from(consumer.index)]);
    let delivery = answer.deliveries[0];
    let place = at("AT_DELIVERIES");
    assert_eq!(numbers[place..place + 2], [1, u64::from(delivery.surface.index)]);
    let releases = place + 1 + at("NUMBERS_OF_DELIVERY");
    assert_eq!(numbers[releases], answer.releases.len() as u64);
    let captures = releases + 1 + at("NUMBERS_OF_RELEASE");
    assert_eq!(numbers[captures..captures + 2], [1, answer.captures[0].0.device]);
    let handle = captures + 1 + at("NUMBERS_OF_CAPTURE");
    assert_eq!(numbers[handle + 3], answer.more.number());
}
