// The session of RULES.md, Desk, as its program writes it. This text is compiled over this crate and over the
// unchanged Rust: only the imports before it differ.

fn limits() -> CompositionLimits {
    CompositionLimits {
        max_windows: 8,
        max_views: 16,
        max_surfaces: 64,
        max_surfaces_per_view: 16,
        max_trace_entries: 32,
    }
}

struct Desk {
    registry: CompositionRegistry,
    router: PlatformInputRouter,
    window: WindowHandle,
    view: ViewHandle,
    pay_sheet: SurfaceHandle,
    lines: String,
    step: u32,
}

fn handle(handle: GenerationalHandle) -> String {
    format!("{}.{}", handle.index, handle.generation)
}

fn list(items: Vec<String>) -> String {
    if items.is_empty() { "-".to_string() } else { items.join(",") }
}

fn delivery(delivery: &InputDelivery) -> String {
    let observed = if delivery.observed { "o" } else { "" };
    format!("{}{observed}", handle(delivery.surface))
}

fn release(release: &SynthesizedInputRelease) -> String {
    let SynthesizedInputRelease::PointerCancel { pointer, surface } = release else {
        panic!("only pointers press at the desk")
    };
    let CompositionPointerId { device, device_generation, contact } = pointer;
    format!("P{device}.{device_generation}.{contact}@{}", handle(*surface))
}

/// REFUSALS.md's numbers of what this session refuses.
fn number(refusal: PlatformInputError) -> u32 {
    match refusal {
        PlatformInputError::InvalidSequence => 32,
        PlatformInputError::InvalidTimestamp => 33,
        other => panic!("{other:?}"),
    }
}

impl Desk {
    fn open() -> Self {
        let session = SessionHandle { index: 0, generation: 1 };
        let mut registry = CompositionRegistry::new(session, 1, limits()).expect("a start");
        let window = registry.create_window().expect("a window");
        let view = registry.create_view(window).expect("a view");
        let policies = [
            SurfaceInputPolicy::Interactive,
            SurfaceInputPolicy::Observe,
            SurfaceInputPolicy::Exclusive,
        ];
        let panels = (0..).zip(policies).map(|(z_order, input)| {
            let geometry = SurfaceGeometry::default();
            let kind = SurfaceKind::Ui;
            let accepts_text = false;
            let panel = SurfaceDescriptor { view, kind, z_order, input, accepts_text, geometry };
            registry.attach_surface(panel).expect("a panel")
        });
        let pay_sheet = panels.last().expect("three panels");
        let router = PlatformInputRouter::new(128).expect("a router");
        let lines = "step answer revision consumer deliveries releases\n".to_string();
        Self { registry, router, window, view, pay_sheet, lines, step: 0 }
    }

    fn write(&mut self, number: u32, rest: &str) {
        self.step += 1;
        self.lines += &format!("{} {number} {} {rest}\n", self.step, self.registry.revision());
    }

    fn route(&mut self, sequence: u64, time: u64, payload: PlatformInputPayload) {
        let header = PlatformInputHeader {
            sequence,
            timestamp_micros: time,
            metrics_revision: self.registry.view_metrics(self.view).expect("metrics").revision,
            window: self.window,
            view: self.view,
            device: InputDeviceId { value: 7, generation: 1 },
            device_kind: InputDeviceKind::Touch,
            modifiers: InputModifiers::default(),
        };
        match self.router.route(&mut self.registry, PlatformInputEvent { header, payload }) {
            Ok(report) => {
                let (consumer, deliveries) = report.arbitration.map_or((None, vec![]), |result| {
                    (result.consumed_by, result.deliveries.iter().map(delivery).collect())
                });
                let releases = report.synthesized_releases.iter().map(release).collect();
                let consumer = consumer.map_or("-".to_string(), handle);
                let rest = format!("{consumer} {} {}", list(deliveries), list(releases));
                self.write(0, &rest);
            }
            Err(refusal) => self.write(number(refusal), "- - -"),
        }
    }

    fn down(&mut self, sequence: u64, time: u64) {
        self.route(
            sequence,
            time,
            PlatformInputPayload::Pointer {
                contact: 0,
                phase: PointerPhase::Down,
                x_milli: 0,
                y_milli: 0,
                delta_x_milli: 0,
                delta_y_milli: 0,
                pressure_q15: 16_384,
                tilt_x_degrees: 0,
                tilt_y_degrees: 0,
                buttons: 1,
                changed_button: Some(0),
            },
        );
    }
}

fn session() -> String {
    let mut desk = Desk::open();
    desk.down(1, 10);
    desk.registry.close_surface(desk.pay_sheet).expect("closed");
    desk.write(0, "- - -");
    let releases = desk.router.release_surface(desk.pay_sheet);
    let releases = list(releases.iter().map(release).collect());
    desk.write(0, &format!("- - {releases}"));
    desk.down(2, 10);
    desk.down(2, 10);
    desk.route(3, 11, PlatformInputPayload::DeviceDisconnected);
    desk.down(1, 9);
    desk.down(1, 11);
    desk.lines
}
