//! Events as devices send them.

use crate::{ViewHandle, WindowHandle};

/// A device. It is ordered by value, then generation.
#[derive(Clone, Copy, Debug, Eq, Ord, PartialEq, PartialOrd)]
pub struct InputDeviceId {
    /// The device, not 0.
    pub value: u64,
    /// How often it has come, not 0.
    pub generation: u32,
}

impl InputDeviceId {
    /// Whether events of the device are accepted.
    pub const fn is_valid(self) -> bool {
        self.value != 0 && self.generation != 0
    }
}

/// What a device is. It has no effect.
#[derive(Clone, Copy, Debug, Eq, PartialEq)]
pub enum InputDeviceKind {
    /// A mouse.
    Mouse,
    /// A touch screen.
    Touch,
    /// A pen.
    Pen,
    /// A keyboard.
    Keyboard,
    /// A gamepad.
    Gamepad,
}

/// The keys held beside an event. They have no effect.
#[derive(Clone, Copy, Debug, Default, Eq, PartialEq)]
pub struct InputModifiers {
    /// Shift.
    pub shift: bool,
    /// Control.
    pub control: bool,
    /// Alt.
    pub alt: bool,
    /// Meta.
    pub meta: bool,
    /// Caps lock.
    pub caps_lock: bool,
    /// Num lock.
    pub num_lock: bool,
}

/// What a key does.
#[derive(Clone, Copy, Debug, Eq, PartialEq)]
pub enum KeyPhase {
    /// It goes down.
    Down,
    /// It goes up.
    Up,
}

/// What a pointer does.
#[derive(Clone, Copy, Debug, Eq, PartialEq)]
pub enum PointerPhase {
    /// It goes down.
    Down,
    /// It moves.
    Move,
    /// It goes up.
    Up,
    /// It is cancelled.
    Cancel,
}

/// The unit of a wheel's turn.
#[derive(Clone, Copy, Debug, Eq, PartialEq)]
pub enum WheelUnit {
    /// Pixels.
    Pixel,
    /// Lines.
    Line,
    /// Pages.
    Page,
}

/// Where a composition of text stands.
#[derive(Clone, Copy, Debug, Eq, PartialEq)]
pub enum CompositionPhase {
    /// It begins.
    Start,
    /// It goes on.
    Update,
    /// It ends.
    End,
    /// It is given up.
    Cancel,
}

/// How a gamepad's buttons are numbered.
#[derive(Clone, Copy, Debug, Eq, PartialEq)]
pub enum GamepadMapping {
    /// In the standard way.
    Standard,
    /// In the device's own way.
    Raw,
}

/// A button of a gamepad. The library does not read it.
#[derive(Clone, Copy, Debug, Eq, PartialEq)]
pub struct GamepadButton {
    /// How far it is pressed, up to 32,768.
    pub value_q15: u16,
    /// Whether it is pressed.
    pub pressed: bool,
    /// Whether it is touched.
    pub touched: bool,
}

/// What every event has.
#[derive(Clone, Debug, Eq, PartialEq)]
pub struct PlatformInputHeader {
    /// The event's number among its device's, rising, not 0.
    pub sequence: u64,
    /// The time, which never goes back among all devices.
    pub timestamp_micros: u64,
    /// The revision of the view's metrics that the host knows.
    pub metrics_revision: u64,
    /// The view's window.
    pub window: WindowHandle,
    /// The view.
    pub view: ViewHandle,
    /// The device.
    pub device: InputDeviceId,
    /// What the device is.
    pub device_kind: InputDeviceKind,
    /// The keys held.
    pub modifiers: InputModifiers,
}

/// What has happened.
#[derive(Clone, Debug, Eq, PartialEq)]
pub enum PlatformInputPayload {
    /// A pointer.
    Pointer {
        /// The contact, not 4,294,967,295.
        contact: u32,
        /// What it does.
        phase: PointerPhase,
        /// Its place from the left, in thousandths.
        x_milli: i32,
        /// Its place from the top, in thousandths.
        y_milli: i32,
        /// Its way to the right.
        delta_x_milli: i32,
        /// Its way downwards.
        delta_y_milli: i32,
        /// Its pressure, up to 32,768.
        pressure_q15: u16,
        /// Its tilt to the right, -90 to 90.
        tilt_x_degrees: i16,
        /// Its tilt downwards, -90 to 90.
        tilt_y_degrees: i16,
        /// The buttons held, one bit each.
        buttons: u32,
        /// The button that has changed.
        changed_button: Option<u8>,
    },
    /// A wheel.
    Wheel {
        /// The contact, not 4,294,967,295.
        contact: u32,
        /// The pointer's place from the left, in thousandths.
        x_milli: i32,
        /// The pointer's place from the top, in thousandths.
        y_milli: i32,
        /// The turn to the right.
        delta_x_milli: i32,
        /// The turn downwards.
        delta_y_milli: i32,
        /// The turn's unit.
        unit: WheelUnit,
    },
    /// A key.
    Key {
        /// What it does.
        phase: KeyPhase,
        /// Where it stands on the keyboard.
        physical_key: u32,
        /// What it means. The library does not read it.
        logical_key: String,
        /// Whether a held key repeats.
        repeat: bool,
    },
    /// A shortcut.
    Shortcut {
        /// Its classes, one bit each; not 0.
        class_mask: u64,
        /// Whether it is a system shortcut.
        system: bool,
    },
    /// Text.
    Text {
        /// The text, of which the library reads the length.
        text: String,
    },
    /// Text that is being composed.
    Composition {
        /// Where the composition stands.
        phase: CompositionPhase,
        /// The text, of which the library reads the length.
        text: String,
        /// The selection's first byte.
        selection_start: u32,
        /// The byte behind the selection.
        selection_end: u32,
    },
    /// A gamepad.
    GamepadSnapshot {
        /// Whether it is there.
        connected: bool,
        /// How its buttons are numbered.
        mapping: GamepadMapping,
        /// Its axes. The library does not read them.
        axes_q15: Vec<i16>,
        /// Its buttons. The library does not read them.
        buttons: Vec<GamepadButton>,
    },
    /// The view has got or lost the focus.
    FocusChanged {
        /// Whether it has it now.
        focused: bool,
    },
    /// The view is seen or not.
    VisibilityChanged {
        /// Whether it is seen now.
        visible: bool,
    },
    /// The device is gone.
    DeviceDisconnected,
}

/// An event of a device.
#[derive(Clone, Debug, Eq, PartialEq)]
pub struct PlatformInputEvent {
    /// What every event has.
    pub header: PlatformInputHeader,
    /// What has happened.
    pub payload: PlatformInputPayload,
}
