// What is opened and called on one side, whichever it is. This text is compiled over the unchanged Rust and over the linked library: only the
// imports before it differ.

/// How many states of a disconnect stand ready at a time.
const BATCH: u64 = 50;
const DEVICE: InputDeviceId = InputDeviceId { value: 7, generation: 1 };

struct Opened {
    registry: CompositionRegistry,
    router: PlatformInputRouter,
    window: WindowHandle,
    view: ViewHandle,
}

fn policy_of(layer: u32) -> SurfaceInputPolicy {
    match layer {
        0 => SurfaceInputPolicy::Interactive,
        _ if layer % 2 == 0 => SurfaceInputPolicy::Passthrough,
        _ => SurfaceInputPolicy::Observe,
    }
}

fn panel(view: ViewHandle, input: SurfaceInputPolicy) -> SurfaceDescriptor {
    let geometry = SurfaceGeometry::default();
    let kind = SurfaceKind::Ui;
    SurfaceDescriptor { view, kind, z_order: 0, input, accepts_text: false, geometry }
}

fn open(panels: u32) -> Opened {
    let session = SessionHandle { index: 0, generation: 1 };
    let limits = CompositionLimits {
        max_windows: 8,
        max_views: 16,
        max_surfaces: 64,
        max_surfaces_per_view: 16,
        max_trace_entries: 32,
    };
    let mut registry = CompositionRegistry::new(session, 1, limits).expect("start");
    let window = registry.create_window().expect("window");
    let view = registry.create_view(window).expect("view");
    for layer in 0..panels {
        registry.attach_surface(panel(view, policy_of(layer))).expect("panel");
    }
    let router = PlatformInputRouter::new(128).expect("router");
    Opened { registry, router, window, view }
}

/// The part of a routed event in the sum: its revision, consumer, deliveries and releases.
fn number_of(report: &PlatformInputRoutingReport) -> u64 {
    let (deliveries, consumer) = report.arbitration.as_ref().map_or((0, 0), |result| {
        (result.deliveries.len(), result.consumed_by.map_or(0, |surface| surface.generation))
    });
    let counts = deliveries + report.synthesized_releases.len();
    report.composition_revision + counts as u64 + u64::from(consumer)
}

impl Opened {
    fn event(&self, sequence: u64, payload: PlatformInputPayload) -> PlatformInputEvent {
        let header = PlatformInputHeader {
            sequence,
            timestamp_micros: sequence,
            metrics_revision: 1,
            window: self.window,
            view: self.view,
            device: DEVICE,
            device_kind: InputDeviceKind::Touch,
            modifiers: InputModifiers::default(),
        };
        PlatformInputEvent { header, payload }
    }

    fn pointer(&self, sequence: u64, contact: u32, phase: PointerPhase) -> PlatformInputEvent {
        let payload = PlatformInputPayload::Pointer {
            contact,
            phase,
            x_milli: 0,
            y_milli: 0,
            delta_x_milli: 0,
            delta_y_milli: 0,
            pressure_q15: 16384,
            tilt_x_degrees: 0,
            tilt_y_degrees: 0,
            buttons: 1,
            changed_button: Some(0),
        };
        self.event(sequence, payload)
    }

    /// Routes an event and answers its part of the sum.
    fn route(&mut self, event: PlatformInputEvent) -> u64 {
        let report = self.router.route(&mut self.registry, black_box(event)).expect("routed");
        number_of(black_box(&report))
    }

    fn tally(&self, sum: u64) -> Tally {
        let presses = self.router.active_binding_count() as u64;
        Tally { revision: self.registry.revision(), presses, sum }
    }

    fn press(&mut self) {
        for contact in 0..128 {
            self.route(self.pointer(u64::from(contact) + 1, contact, PointerPhase::Down));
        }
    }

    fn capture(&mut self, surface: SurfaceHandle) {
        for contact in 0..32 {
            let pointer = CompositionPointerId {
                device: DEVICE.value,
                device_generation: DEVICE.generation,
                contact,
            };
            let revision = self.registry.revision();
            self.registry.capture_pointer_for(pointer, surface, revision).expect("captured");
        }
    }

    /// 512 captures: 32 in each of 16 views.
    fn capture_in_all_views(&mut self) {
        self.capture(SurfaceHandle { index: 0, generation: 1 });
        for _ in 1..16 {
            let view = self.registry.create_view(self.window).expect("view");
            let descriptor = panel(view, SurfaceInputPolicy::Interactive);
            let surface = self.registry.attach_surface(descriptor).expect("panel");
            self.capture(surface);
        }
    }
}

fn route_turns(case: &Case, turns: u64, phases: [PointerPhase; 2]) -> (Duration, Tally) {
    let mut opened = open(case.panels);
    let mut sum = 0u64;
    let start = cpu_time::own();
    for turn in 1..=turns {
        let phase = phases[(turn % 2) as usize];
        sum = sum.wrapping_add(opened.route(opened.pointer(turn, 0, phase)));
    }
    (cpu_time::own() - start, opened.tally(sum))
}

fn panel_turns(case: &Case, turns: u64) -> (Duration, Tally) {
    let mut opened = open(case.panels);
    let mut sum = 0u64;
    let start = cpu_time::own();
    for _ in 0..turns {
        let descriptor = black_box(panel(opened.view, SurfaceInputPolicy::Interactive));
        let surface = opened.registry.attach_surface(descriptor).expect("panel");
        let report = opened.registry.close_surface(surface).expect("closed");
        sum = sum.wrapping_add(black_box(&report).revision);
    }
    (cpu_time::own() - start, opened.tally(sum))
}
