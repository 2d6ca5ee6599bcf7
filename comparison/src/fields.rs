//! The fields of a line: numbers picked by position, each within the range of its type.

use crate::platform_input::*;
use crate::script::Call;
use crate::*;

type Handle = GenerationalHandle;
type Pointer = CompositionPointerId;

const KINDS: [SurfaceKind; 3] = [SurfaceKind::Game, SurfaceKind::Ui, SurfaceKind::Diagnostics];
pub const POLICIES: [SurfaceInputPolicy; 4] = [
    SurfaceInputPolicy::Observe,
    SurfaceInputPolicy::Passthrough,
    SurfaceInputPolicy::Interactive,
    SurfaceInputPolicy::Exclusive,
];
const SCOPES: [ShortcutScope; 3] =
    [ShortcutScope::View, ShortcutScope::Window, ShortcutScope::Session];
const VISIBILITIES: [ViewVisibility; 3] =
    [ViewVisibility::Visible, ViewVisibility::Hidden, ViewVisibility::Suspended];
const DEVICE_KINDS: [InputDeviceKind; 5] = [
    InputDeviceKind::Mouse,
    InputDeviceKind::Touch,
    InputDeviceKind::Pen,
    InputDeviceKind::Keyboard,
    InputDeviceKind::Gamepad,
];
const POINTER_PHASES: [PointerPhase; 4] =
    [PointerPhase::Down, PointerPhase::Move, PointerPhase::Up, PointerPhase::Cancel];
const KEY_PHASES: [KeyPhase; 2] = [KeyPhase::Down, KeyPhase::Up];
const UNITS: [WheelUnit; 3] = [WheelUnit::Pixel, WheelUnit::Line, WheelUnit::Page];
const COMPOSITION_PHASES: [CompositionPhase; 4] = [
    CompositionPhase::Start,
    CompositionPhase::Update,
    CompositionPhase::End,
    CompositionPhase::Cancel,
];
const MAPPINGS: [GamepadMapping; 2] = [GamepadMapping::Standard, GamepadMapping::Raw];

/// The numbers of a line that are not yet taken.
pub struct Fields<'a> {
    pub numbers: &'a [i128],
}

impl Fields<'_> {
    /// The next number, if it lies in the range of its field's type.
    pub fn take<T: TryFrom<i128>>(&mut self) -> Option<T> {
        let (first, rest) = self.numbers.split_first()?;
        self.numbers = rest;
        T::try_from(*first).ok()
    }

    pub fn below(&mut self, end: usize) -> Option<usize> {
        self.take::<usize>().filter(|number| *number < end)
    }

    pub fn choice<T: Copy>(&mut self, all: &[T]) -> Option<T> {
        self.below(all.len()).map(|number| all[number])
    }

    pub fn flag(&mut self) -> Option<bool> {
        self.choice(&[false, true])
    }

    pub fn handle(&mut self) -> Option<Handle> {
        Some(Handle { index: self.take()?, generation: self.take()? })
    }

    pub fn optional(&mut self) -> Option<Option<Handle>> {
        let some = self.flag()?;
        let handle = self.handle()?;
        let zero = handle.index == 0 && handle.generation == 0;
        if some {
            Some(Some(handle))
        } else {
            zero.then_some(None)
        }
    }

    pub fn pointer(&mut self) -> Option<Pointer> {
        Some(Pointer {
            device: self.take()?,
            device_generation: self.take()?,
            contact: self.take()?,
        })
    }

    pub fn rect(&mut self) -> Option<Option<SurfaceRect>> {
        let some = self.flag()?;
        let rect = SurfaceRect {
            x_milli: self.take()?,
            y_milli: self.take()?,
            width_milli: self.take()?,
            height_milli: self.take()?,
        };
        let zero = SurfaceRect { x_milli: 0, y_milli: 0, width_milli: 0, height_milli: 0 };
        if some {
            Some(Some(rect))
        } else {
            (rect == zero).then_some(None)
        }
    }

    pub fn transform(&mut self) -> Option<SurfaceTransform> {
        Some(SurfaceTransform {
            m11_q16: self.take()?,
            m12_q16: self.take()?,
            m21_q16: self.take()?,
            m22_q16: self.take()?,
            translate_x_milli: self.take()?,
            translate_y_milli: self.take()?,
        })
    }

    pub fn geometry(&mut self) -> Option<SurfaceGeometry> {
        Some(SurfaceGeometry {
            bounds: self.rect()?,
            clip: self.rect()?,
            transform: self.transform()?,
            opacity_q16: self.take()?,
            hit_test_enabled: self.flag()?,
        })
    }

    pub fn descriptor(&mut self) -> Option<SurfaceDescriptor> {
        Some(SurfaceDescriptor {
            view: self.handle()?,
            kind: self.choice(&KINDS)?,
            z_order: self.take()?,
            input: self.choice(&POLICIES)?,
            accepts_text: self.flag()?,
            geometry: self.geometry()?,
        })
    }

    pub fn start(&mut self, added: bool) -> Option<Call> {
        let (session, epoch) = (self.handle()?, self.take()?);
        let mut limits = [0; 5];
        for limit in &mut limits {
            *limit = self.take()?;
        }
        let first = if added { Some((self.take()?, self.take()?)) } else { None };
        Some(Call::New { session, epoch, limits, first })
    }

    pub fn metrics(&mut self) -> Option<ViewMetricsUpdate> {
        Some(ViewMetricsUpdate {
            origin_x_milli: self.take()?,
            origin_y_milli: self.take()?,
            width_milli: self.take()?,
            height_milli: self.take()?,
            framebuffer_width: self.take()?,
            framebuffer_height: self.take()?,
            scale_q16: self.take()?,
            safe_area: ViewInsets {
                top_milli: self.take()?,
                right_milli: self.take()?,
                bottom_milli: self.take()?,
                left_milli: self.take()?,
            },
            visibility: self.choice(&VISIBILITIES)?,
        })
    }

    pub fn registrations(&mut self) -> Option<Call> {
        let (surface, revision) = (self.handle()?, self.take()?);
        let count = self.below(71)?;
        let mut list = Vec::with_capacity(count);
        for _ in 0..count {
            list.push(SurfaceShortcutRegistration {
                class_mask: self.take()?,
                scope: self.choice(&SCOPES)?,
                priority: self.take()?,
            });
        }
        Some(Call::RegisterShortcuts(surface, list, revision))
    }

    /// Fields that the kind does not have may hold anything of their range; only the hits are then none.
    pub fn arbitration(&mut self) -> Option<ArbitrationEvent> {
        let kind = self.below(11)?;
        let pointer = self.pointer()?;
        let target = if matches!(kind, 0 | 2 | 5 | 7) {
            self.optional()?
        } else {
            let _ = (self.flag()?, self.handle()?);
            None
        };
        let class_mask = self.take()?;
        let count = self.below(21)?;
        if count != 0 && !matches!(kind, 1 | 3) {
            return None;
        }
        let hits = (0..count).map(|_| self.handle()).collect::<Option<Vec<_>>>()?;
        Some(match kind {
            0 => ArbitrationEvent::Pointer { hit: target },
            1 => ArbitrationEvent::PointerStack { hits },
            2 => ArbitrationEvent::PointerFor { pointer, hit: target },
            3 => ArbitrationEvent::PointerStackFor { pointer, hits },
            4 => ArbitrationEvent::Keyboard,
            5 => ArbitrationEvent::KeyboardFor { target },
            6 => ArbitrationEvent::Gamepad,
            7 => ArbitrationEvent::GamepadFor { target },
            8 => ArbitrationEvent::Text,
            9 => ArbitrationEvent::Shortcut,
            _ => ArbitrationEvent::SystemShortcut { class_mask },
        })
    }

    pub fn event(&mut self) -> Option<PlatformInputEvent> {
        Some(PlatformInputEvent { header: self.header()?, payload: self.payload()? })
    }

    pub fn header(&mut self) -> Option<PlatformInputHeader> {
        Some(PlatformInputHeader {
            sequence: self.take()?,
            timestamp_micros: self.take()?,
            metrics_revision: self.take()?,
            window: self.handle()?,
            view: self.handle()?,
            device: InputDeviceId { value: self.take()?, generation: self.take()? },
            device_kind: self.choice(&DEVICE_KINDS)?,
            modifiers: self.below(64).map(modifiers)?,
        })
    }

    pub fn payload(&mut self) -> Option<PlatformInputPayload> {
        use PlatformInputPayload as Payload;
        Some(match self.below(10)? {
            0 => Payload::Pointer {
                contact: self.take()?,
                phase: self.choice(&POINTER_PHASES)?,
                x_milli: self.take()?,
                y_milli: self.take()?,
                delta_x_milli: self.take()?,
                delta_y_milli: self.take()?,
                pressure_q15: self.take()?,
                tilt_x_degrees: self.take()?,
                tilt_y_degrees: self.take()?,
                buttons: self.take()?,
                changed_button: {
                    let changed = self.flag()?;
                    let button = self.take()?;
                    changed.then_some(button)
                },
            },
            1 => Payload::Wheel {
                contact: self.take()?,
                x_milli: self.take()?,
                y_milli: self.take()?,
                delta_x_milli: self.take()?,
                delta_y_milli: self.take()?,
                unit: self.choice(&UNITS)?,
            },
            2 => Payload::Key {
                phase: self.choice(&KEY_PHASES)?,
                physical_key: self.take()?,
                logical_key: String::new(),
                repeat: self.flag()?,
            },
            3 => Payload::Shortcut { class_mask: self.take()?, system: self.flag()? },
            4 => Payload::Text { text: self.text()? },
            5 => Payload::Composition {
                phase: self.choice(&COMPOSITION_PHASES)?,
                text: self.text()?,
                selection_start: self.take()?,
                selection_end: self.take()?,
            },
            6 => Payload::GamepadSnapshot {
                connected: self.flag()?,
                mapping: self.choice(&MAPPINGS)?,
                axes_q15: Vec::new(),
                buttons: Vec::new(),
            },
            7 => Payload::FocusChanged { focused: self.flag()? },
            8 => Payload::VisibilityChanged { visible: self.flag()? },
            _ => Payload::DeviceDisconnected,
        })
    }

    /// Only the length of a text counts.
    pub fn text(&mut self) -> Option<String> {
        self.below(65_536).map(|length| "t".repeat(length))
    }
}

fn modifiers(bits: usize) -> InputModifiers {
    let bit = |place: usize| bits >> place & 1 == 1;
    InputModifiers {
        shift: bit(0),
        control: bit(1),
        alt: bit(2),
        meta: bit(3),
        caps_lock: bit(4),
        num_lock: bit(5),
    }
}
