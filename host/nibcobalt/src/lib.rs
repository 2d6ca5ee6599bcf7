//! The registry and the router of `vo-app-runtime`'s `composition.rs` and `platform_input.rs`, over the proved library.
//!
//! A host that uses the two files replaces `vo_app_runtime` and `vo_app_protocol` by `nibcobalt` in its imports.
//! Names, types and signatures are the source's; the folder's README lists what differs. The library does all the
//! work: this crate writes a call as numbers, hands it over with the memory of a counter, and reads the answer.
//!
//! A call needs up to 1.6 MB of stack. A thread of the standard library has 2 MB; a smaller one is ended by the system.
//!
//! ```
//! use nibcobalt::composition::*;
//! use nibcobalt::platform_input::*;
//! use nibcobalt::SessionHandle;
//!
//! // A window with one view, and a panel that takes what targets it.
//! let session = SessionHandle { index: 0, generation: 1 };
//! let mut registry = CompositionRegistry::new(session, 1, CompositionLimits::PORT)?;
//! let window = registry.create_window()?;
//! let view = registry.create_view(window)?;
//! let panel = registry.attach_surface(SurfaceDescriptor {
//!     view,
//!     kind: SurfaceKind::Ui,
//!     z_order: 0,
//!     input: SurfaceInputPolicy::Interactive,
//!     accepts_text: false,
//!     geometry: SurfaceGeometry::default(),
//! })?;
//! registry.set_focus(view, Some(panel), registry.revision())?;
//!
//! // A key goes down on it, and its keyboard is unplugged: the press ends.
//! let device = InputDeviceId { value: 7, generation: 1 };
//! let event = |sequence, payload| PlatformInputEvent {
//!     header: PlatformInputHeader {
//!         sequence,
//!         timestamp_micros: sequence,
//!         metrics_revision: 1,
//!         window,
//!         view,
//!         device,
//!         device_kind: InputDeviceKind::Keyboard,
//!         modifiers: InputModifiers::default(),
//!     },
//!     payload,
//! };
//! let down = PlatformInputPayload::Key {
//!     phase: KeyPhase::Down,
//!     physical_key: 30,
//!     logical_key: "a".to_string(),
//!     repeat: false,
//! };
//! let mut router = PlatformInputRouter::new(128).unwrap();
//! let report = router.route(&mut registry, event(1, down)).unwrap();
//! assert_eq!(report.arbitration.unwrap().consumed_by, Some(panel));
//! let gone = event(2, PlatformInputPayload::DeviceDisconnected);
//! let report = router.route(&mut registry, gone).unwrap();
//! let key_up = SynthesizedInputRelease::KeyUp { device, physical_key: 30, surface: panel };
//! assert_eq!(report.synthesized_releases, [key_up]);
//! # Ok::<(), CompositionError>(())
//! ```

#![deny(missing_docs)]
#![deny(unsafe_code)]

mod codec;
pub mod composition;
#[allow(unsafe_code)]
pub mod ffi;
mod handle;
pub mod platform_input;

pub use composition::*;
pub use handle::*;
pub use platform_input::*;
