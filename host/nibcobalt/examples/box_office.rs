//! An evening at a counter in a few calls: a key on the seat map, a finger on the pay sheet above it, a sheet that
//! closes under the finger, an event that is refused, a device that is unplugged. The program tells what the host has
//! to do.

use std::error::Error;

use nibcobalt::composition::*;
use nibcobalt::platform_input::*;
use nibcobalt::{SessionHandle, SurfaceHandle, ViewHandle, WindowHandle};

const TOUCH: InputDeviceId = InputDeviceId { value: 7, generation: 1 };
const KEYBOARD: InputDeviceId = InputDeviceId { value: 8, generation: 1 };

struct Counter {
    registry: CompositionRegistry,
    router: PlatformInputRouter,
    window: WindowHandle,
    view: ViewHandle,
    /// The sequence and the time of the next event.
    next: u64,
}

impl Counter {
    fn open() -> Result<Self, Box<dyn Error>> {
        let session = SessionHandle { index: 0, generation: 1 };
        let mut registry = CompositionRegistry::new(session, 1, CompositionLimits::PORT)?;
        let window = registry.create_window()?;
        let view = registry.create_view(window)?;
        let router = PlatformInputRouter::new(PlatformInputRouter::MOST_ACTIVE_BINDINGS)?;
        Ok(Self { registry, router, window, view, next: 1 })
    }

    fn attach(
        &mut self,
        z_order: i32,
        input: SurfaceInputPolicy,
    ) -> Result<SurfaceHandle, CompositionError> {
        self.registry.attach_surface(SurfaceDescriptor {
            view: self.view,
            kind: SurfaceKind::Ui,
            z_order,
            input,
            accepts_text: false,
            geometry: SurfaceGeometry::default(),
        })
    }

    /// Routes an event and tells what came of it.
    fn route(&mut self, what: &str, device: InputDeviceId, payload: PlatformInputPayload) {
        let header = PlatformInputHeader {
            sequence: self.next,
            timestamp_micros: self.next,
            metrics_revision: 1,
            window: self.window,
            view: self.view,
            device,
            device_kind: InputDeviceKind::Touch,
            modifiers: InputModifiers::default(),
        };
        self.next += 1;
        match self.router.route(&mut self.registry, PlatformInputEvent { header, payload }) {
            Ok(report) => {
                let taken = report.arbitration.and_then(|result| result.consumed_by);
                println!("{what}: {}", taken.map_or("nobody takes it".to_string(), taken_by));
                tell(&report.synthesized_releases);
            }
            Err(refusal) => {
                println!("{what}: {refusal}");
                if let Some(source) = refusal.source() {
                    println!("  {source}");
                }
            }
        }
    }
}

fn taken_by(panel: SurfaceHandle) -> String {
    format!("panel {}.{} takes it", panel.index, panel.generation)
}

/// Each release ends a press: the host tells the panel.
fn tell(releases: &[SynthesizedInputRelease]) {
    for release in releases {
        match release {
            SynthesizedInputRelease::PointerCancel { pointer, surface } => {
                println!("  contact {} on panel {} is cancelled", pointer.contact, surface.index);
            }
            SynthesizedInputRelease::KeyUp { physical_key, surface, .. } => {
                println!("  key {physical_key} on panel {} goes up", surface.index);
            }
            SynthesizedInputRelease::GamepadDisconnected { surface, .. } => {
                println!("  the gamepad of panel {} is gone", surface.index);
            }
        }
    }
}

fn finger(contact: u32, phase: PointerPhase) -> PlatformInputPayload {
    PlatformInputPayload::Pointer {
        contact,
        phase,
        x_milli: 5_000,
        y_milli: 5_000,
        delta_x_milli: 0,
        delta_y_milli: 0,
        pressure_q15: 16_384,
        tilt_x_degrees: 0,
        tilt_y_degrees: 0,
        buttons: 1,
        changed_button: None,
    }
}

fn key(physical_key: u32) -> PlatformInputPayload {
    let logical_key = "Enter".to_string();
    PlatformInputPayload::Key { phase: KeyPhase::Down, physical_key, logical_key, repeat: false }
}

fn main() -> Result<(), Box<dyn Error>> {
    let mut counter = Counter::open()?;
    let seat_map = counter.attach(0, SurfaceInputPolicy::Interactive)?;
    let now = counter.registry.revision();
    counter.registry.set_focus(counter.view, Some(seat_map), now)?;
    counter.route("a key on the seat map", KEYBOARD, key(28));

    let pay_sheet = counter.attach(1, SurfaceInputPolicy::Exclusive)?;
    counter.route("a finger on the pay sheet", TOUCH, finger(0, PointerPhase::Down));

    counter.registry.close_surface(pay_sheet)?;
    println!("the pay sheet closes");
    tell(&counter.router.release_surface(pay_sheet));

    counter.route("a finger on the seat map", TOUCH, finger(1, PointerPhase::Down));
    counter.route("a contact out of range", TOUCH, finger(u32::MAX, PointerPhase::Down));
    counter.route("the touch screen is unplugged", TOUCH, PlatformInputPayload::DeviceDisconnected);

    counter.view.index = 3;
    if let Err(refusal) = counter.attach(0, SurfaceInputPolicy::Observe) {
        println!("a panel of no view: {refusal}");
    }
    counter.route("a finger in no view", TOUCH, finger(0, PointerPhase::Down));

    println!("the counter closes");
    tell(&counter.router.release_all());
    Ok(())
}
