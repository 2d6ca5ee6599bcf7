//! The session at the desk over the unchanged Rust: the same text as over the crate, with other imports.

use comparison::platform_input::*;
use comparison::{
    CompositionLimits, CompositionPointerId, CompositionRegistry, GenerationalHandle,
    InputDelivery, SessionHandle, SurfaceDescriptor, SurfaceGeometry, SurfaceHandle,
    SurfaceInputPolicy, SurfaceKind, ViewHandle, WindowHandle,
};

include!("../../nibcobalt/tests/desk/session.rs");

#[test]
fn the_rust_writes_the_same_session() {
    assert_eq!(session(), include_str!("../../../crates/desk/stdout"));
}
