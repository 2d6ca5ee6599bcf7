//! Every refusal that a list of calls can reach from a start, through this crate, one place for each. The package
//! `compared` holds that each call gives every one that it can.

use std::error::Error;

use nibcobalt::composition::*;
use nibcobalt::platform_input::*;
use nibcobalt::{GenerationalHandle, SessionHandle, SurfaceHandle, ViewHandle, WindowHandle};

use CompositionError as Refused;
use PlatformInputError as NotRouted;

const SESSION: SessionHandle = SessionHandle { index: 0, generation: 1 };
const DEVICE: InputDeviceId = InputDeviceId { value: 7, generation: 1 };
const UNKNOWN: GenerationalHandle = GenerationalHandle { index: 60, generation: 1 };

/// A window, a view, and two panels: one that takes input, one that observes.
struct Host {
    registry: CompositionRegistry,
    router: PlatformInputRouter,
    window: WindowHandle,
    view: ViewHandle,
    panel: SurfaceHandle,
    observer: SurfaceHandle,
}

fn panel(view: ViewHandle, input: SurfaceInputPolicy) -> SurfaceDescriptor {
    SurfaceDescriptor {
        view,
        kind: SurfaceKind::Ui,
        z_order: 0,
        input,
        accepts_text: false,
        geometry: SurfaceGeometry::default(),
    }
}

fn start(limits: CompositionLimits) -> Result<CompositionRegistry, Refused> {
    CompositionRegistry::new(SESSION, 1, limits)
}

fn furnish(mut registry: CompositionRegistry, bindings: usize) -> Host {
    let window = registry.create_window().unwrap();
    let view = registry.create_view(window).unwrap();
    let interactive = panel(view, SurfaceInputPolicy::Interactive);
    let one = registry.attach_surface(interactive).unwrap();
    let other = registry.attach_surface(panel(view, SurfaceInputPolicy::Observe)).unwrap();
    let router = PlatformInputRouter::new(bindings).unwrap();
    Host { registry, router, window, view, panel: one, observer: other }
}

fn open() -> Host {
    furnish(start(CompositionLimits::PORT).unwrap(), 128)
}

fn open_at(revision: u64, generation: u32) -> Host {
    let limits = CompositionLimits::PORT;
    furnish(CompositionRegistry::new_at(SESSION, 1, limits, revision, generation).unwrap(), 128)
}

fn metrics() -> ViewMetricsUpdate {
    ViewMetricsUpdate {
        origin_x_milli: 0,
        origin_y_milli: 0,
        width_milli: 1000,
        height_milli: 1000,
        framebuffer_width: 100,
        framebuffer_height: 100,
        scale_q16: 1 << 16,
        safe_area: ViewInsets { top_milli: 0, right_milli: 0, bottom_milli: 0, left_milli: 0 },
        visibility: ViewVisibility::Visible,
    }
}

fn registration(class_mask: u64) -> SurfaceShortcutRegistration {
    SurfaceShortcutRegistration { class_mask, scope: ShortcutScope::View, priority: 0 }
}

fn pointer(contact: u32, phase: PointerPhase) -> PlatformInputPayload {
    PlatformInputPayload::Pointer {
        contact,
        phase,
        x_milli: 0,
        y_milli: 0,
        delta_x_milli: 0,
        delta_y_milli: 0,
        pressure_q15: 32_768,
        tilt_x_degrees: 90,
        tilt_y_degrees: -90,
        buttons: 0,
        changed_button: None,
    }
}

fn down(contact: u32) -> PlatformInputPayload {
    pointer(contact, PointerPhase::Down)
}

impl Host {
    fn event(&self, sequence: u64, payload: PlatformInputPayload) -> PlatformInputEvent {
        let header = PlatformInputHeader {
            sequence,
            timestamp_micros: sequence,
            metrics_revision: 1,
            window: self.window,
            view: self.view,
            device: DEVICE,
            device_kind: InputDeviceKind::Touch,
            modifiers: InputModifiers::default(),
        };
        PlatformInputEvent { header, payload }
    }

    fn route(&mut self, event: PlatformInputEvent) -> Result<(), NotRouted> {
        self.router.route(&mut self.registry, event).map(|_| ())
    }

    fn routed(&mut self, payload: PlatformInputPayload) -> Result<(), NotRouted> {
        self.route(self.event(1, payload))
    }

    fn now(&self) -> u64 {
        self.registry.revision()
    }
}

#[test]
fn starts() {
    let port = CompositionLimits::PORT;
    let none = CompositionLimits { max_views: 0, ..port };
    assert_eq!(start(none).err(), Some(Refused::InvalidConfig));
    let nobody = SessionHandle::INVALID;
    let unowned = CompositionRegistry::new(nobody, 1, port);
    assert_eq!(unowned.err(), Some(Refused::InvalidOwner));
    let unowned = CompositionRegistry::new(SESSION, 0, port);
    assert_eq!(unowned.err(), Some(Refused::InvalidOwner));
    assert_eq!(start(CompositionLimits::default()).err(), Some(Refused::PortLimit));
    let first = CompositionRegistry::new_at(SESSION, 1, port, 0, 0);
    assert_eq!(first.err(), Some(Refused::InvalidConfig));
    assert_eq!(PlatformInputRouter::new(0).err(), Some(NotRouted::Capacity));
    assert_eq!(PlatformInputRouter::new(129).err(), Some(NotRouted::PortLimit));
    assert_eq!(PlatformInputRouter::new(usize::MAX).err(), Some(NotRouted::PortLimit));
    let most = PlatformInputRouter::MOST_ACTIVE_BINDINGS;
    assert!(PlatformInputRouter::new(most).is_ok());
}

#[test]
fn full_tables() {
    let limits =
        CompositionLimits { max_windows: 1, max_surfaces_per_view: 2, ..CompositionLimits::PORT };
    let mut host = furnish(start(limits).unwrap(), 1);
    assert_eq!(host.registry.create_window(), Err(Refused::Capacity));
    let third = panel(host.view, SurfaceInputPolicy::Observe);
    assert_eq!(host.registry.attach_surface(third), Err(Refused::PerViewCapacity));
    host.routed(down(0)).unwrap();
    assert_eq!(host.route(host.event(2, down(1))), Err(NotRouted::Capacity));
}

#[test]
fn handles_of_nothing_and_of_what_is_closed() {
    let mut host = open();
    let (window, view, surface) = (host.window, host.view, host.panel);
    assert_eq!(host.registry.close_window(UNKNOWN), Err(Refused::InvalidWindow));
    assert_eq!(host.registry.view_window(UNKNOWN), Err(Refused::InvalidView));
    assert_eq!(host.registry.surface_descriptor(UNKNOWN), Err(Refused::InvalidSurface));
    assert_eq!(host.registry.close_window(window), Err(Refused::WindowInUse));
    assert_eq!(host.registry.close_view(view), Err(Refused::ViewInUse));
    for panel in [surface, host.observer] {
        assert_eq!(host.registry.close_surface(panel).unwrap().surface, panel);
    }
    host.registry.close_view(view).unwrap();
    host.registry.close_window(window).unwrap();
    assert_eq!(host.registry.create_view(window), Err(Refused::StaleWindow));
    assert_eq!(host.registry.view_layers(view), Err(Refused::StaleView));
    assert_eq!(host.registry.close_surface(surface).err(), Some(Refused::StaleSurface));
}

#[test]
fn values_that_contradict_themselves() {
    let mut host = open();
    let flat = SurfaceTransform { m11_q16: 0, ..SurfaceTransform::default() };
    let geometry = SurfaceGeometry { transform: flat, ..SurfaceGeometry::default() };
    let now = host.now();
    let moved = host.registry.update_surface_geometry(host.panel, geometry, now);
    assert_eq!(moved, Err(Refused::InvalidGeometry));
    let unscaled = ViewMetricsUpdate { scale_q16: 0, ..metrics() };
    let updated = host.registry.update_view_metrics(host.view, unscaled, 1);
    assert_eq!(updated, Err(Refused::InvalidMetrics));
}

#[test]
fn what_a_panel_does_not_take() {
    let mut host = open();
    let now = host.now();
    let (view, panel, observer) = (host.view, host.panel, host.observer);
    assert_eq!(host.registry.set_focus(UNKNOWN, Some(panel), now), Err(Refused::WrongView));
    let focused = host.registry.set_focus(view, Some(observer), now);
    assert_eq!(focused, Err(Refused::NotInteractive));
    assert_eq!(host.registry.begin_ime(panel, now), Err(Refused::TextUnsupported));
    let invalid = CompositionPointerId { device: 0, ..CompositionPointerId::PRIMARY };
    let captured = host.registry.capture_pointer_for(invalid, panel, now);
    assert_eq!(captured, Err(Refused::NotInteractive));
    assert_eq!(host.registry.capture_pointer(panel, now + 1), Err(Refused::RevisionConflict));
}

#[test]
fn registrations() {
    let mut host = open();
    let now = host.now();
    let many = vec![registration(0); 65];
    let set = host.registry.register_surface_system_shortcut_set(host.observer, many, now);
    assert_eq!(set, Err(Refused::Capacity));
    let one = Some(registration(1));
    let registered = host.registry.register_surface_system_shortcuts(host.observer, one, now);
    assert_eq!(registered, Err(Refused::NotInteractive));
    assert_eq!(host.registry.set_surface_system_shortcuts(host.observer, 0, now), Ok(now + 1));
}

#[test]
fn the_ends_of_revisions_and_generations() {
    let mut host = open_at(u64::MAX - 4, 1);
    assert_eq!(host.now(), u64::MAX);
    assert_eq!(host.registry.create_window(), Err(Refused::RevisionExhausted));
    // The refusal comes after the change, as in the source.
    assert_eq!(host.registry.live_window_count(), 2);
    let routed = host.routed(PlatformInputPayload::FocusChanged { focused: false });
    assert_eq!(routed, Err(NotRouted::Composition(Refused::RevisionExhausted)));
    let mut host = open_at(0, u32::MAX);
    assert_eq!(host.registry.shutdown(), Err(Refused::GenerationExhausted));
    assert_eq!(host.registry.close_surface(host.panel), Err(Refused::GenerationExhausted));
}

#[test]
fn port_limits() {
    let mut host = open();
    let hits = vec![host.panel; 17];
    let arbitrated = host.registry.arbitrate(host.view, ArbitrationEvent::PointerStack { hits });
    assert_eq!(arbitrated, Err(Refused::PortLimit));
    for contact in 1..=32 {
        let pointer = CompositionPointerId { contact, ..CompositionPointerId::PRIMARY };
        let now = host.now();
        assert_eq!(host.registry.capture_pointer_for(pointer, host.panel, now), Ok(now + 1));
    }
    let now = host.now();
    assert_eq!(host.registry.capture_pointer(host.panel, now), Err(Refused::PortLimit));
    let mut panels = vec![host.panel];
    for _ in 0..4 {
        let next = panel(host.view, SurfaceInputPolicy::Exclusive);
        panels.push(host.registry.attach_surface(next).unwrap());
    }
    for (place, panel) in panels.into_iter().enumerate() {
        let list = vec![registration(1); 64];
        let now = host.now();
        let set = host.registry.register_surface_system_shortcut_set(panel, list, now);
        let expected = if place < 4 { Ok(now + 1) } else { Err(Refused::PortLimit) };
        assert_eq!(set, expected);
    }
    for value in 1..=33 {
        let mut event = host.event(1, PlatformInputPayload::Text { text: String::new() });
        event.header.device.value = value;
        let expected = if value < 33 { Ok(()) } else { Err(NotRouted::PortLimit) };
        assert_eq!(host.route(event), expected);
    }
}

#[test]
fn headers_that_are_not_routed() {
    let mut host = open();
    let mut event = host.event(1, down(0));
    event.header.device.generation = 0;
    assert_eq!(host.route(event), Err(NotRouted::InvalidDevice));
    let mut event = host.event(1, down(0));
    event.header.view = UNKNOWN;
    assert_eq!(host.route(event), Err(NotRouted::Composition(Refused::InvalidView)));
    let mut event = host.event(1, down(0));
    event.header.window = UNKNOWN;
    assert_eq!(host.route(event), Err(NotRouted::InvalidWindow));
    let mut event = host.event(1, down(0));
    event.header.metrics_revision = 2;
    assert_eq!(host.route(event), Err(NotRouted::Composition(Refused::RevisionConflict)));
    assert_eq!(host.route(host.event(0, down(0))), Err(NotRouted::InvalidSequence));
    host.route(host.event(5, down(0))).unwrap();
    assert_eq!(host.route(host.event(5, down(0))), Err(NotRouted::InvalidSequence));
    let mut event = host.event(6, down(0));
    event.header.timestamp_micros = 4;
    assert_eq!(host.route(event), Err(NotRouted::InvalidTimestamp));
}

#[test]
fn payloads_that_are_not_routed() {
    let mut host = open();
    assert_eq!(host.routed(down(u32::MAX)), Err(NotRouted::InvalidPointer));
    let mut pressed = down(0);
    if let PlatformInputPayload::Pointer { pressure_q15, .. } = &mut pressed {
        *pressure_q15 = 32_769;
    }
    assert_eq!(host.routed(pressed), Err(NotRouted::InvalidPressure));
    let mut tilted = down(0);
    if let PlatformInputPayload::Pointer { tilt_y_degrees, .. } = &mut tilted {
        *tilt_y_degrees = -91;
    }
    assert_eq!(host.routed(tilted), Err(NotRouted::InvalidTilt));
    let composed = PlatformInputPayload::Composition {
        phase: CompositionPhase::Update,
        text: "né".to_string(),
        selection_start: 3,
        selection_end: 4,
    };
    assert_eq!(host.routed(composed), Err(NotRouted::InvalidTextSelection));
    let shortcut = PlatformInputPayload::Shortcut { class_mask: 0, system: true };
    assert_eq!(host.routed(shortcut), Err(NotRouted::InvalidShortcut));
}

#[test]
fn a_closed_owner_at_a_loss() {
    let mut host = open();
    host.routed(down(0)).unwrap();
    host.registry.close_surface(host.panel).unwrap();
    let lost = host.event(2, PlatformInputPayload::VisibilityChanged { visible: false });
    assert_eq!(host.route(lost), Err(NotRouted::Composition(Refused::StaleSurface)));
    assert_eq!(host.router.release_surface(host.panel).len(), 1);
}

#[test]
fn numbers_of_refusals() {
    assert_eq!(Refused::InvalidConfig.number(), 1);
    assert_eq!(Refused::GenerationExhausted.number(), 22);
    assert_eq!(Refused::PortLimit.number(), 41);
    assert_eq!(Refused::Damaged.number(), 42);
    assert_eq!(NotRouted::InvalidDevice.number(), 31);
    assert_eq!(NotRouted::Capacity.number(), 40);
    assert_eq!(NotRouted::Composition(Refused::StaleView).number(), 9);
    assert_eq!(NotRouted::PortLimit.number(), 41);
}

#[test]
fn words_of_refusals() {
    assert_eq!(Refused::StaleView.to_string(), "the view is closed (refusal 9)");
    assert_eq!(NotRouted::InvalidTilt.to_string(), "a tilt is beyond 90 degrees (refusal 36)");
    assert!(NotRouted::InvalidTilt.source().is_none());
    let routed = NotRouted::Composition(Refused::StaleView);
    assert_eq!(routed.to_string(), "the registry refuses the event (refusal 9)");
    let source = routed.source().expect("the registry's refusal");
    assert_eq!(source.downcast_ref(), Some(&Refused::StaleView));
}
