//! The names, fields, derives and signatures of the source, written once and compiled over both sides.

mod source {
    use comparison::platform_input::*;
    use comparison::*;

    include!("signatures/names.rs");
}

mod port {
    use nibcobalt::composition::*;
    use nibcobalt::platform_input::*;
    use nibcobalt::{GenerationalHandle, SessionHandle, SurfaceHandle, ViewHandle, WindowHandle};

    include!("signatures/names.rs");
}

#[test]
fn defaults_constants_and_small_functions_are_the_same() {
    assert_eq!(source::values(), port::values());
}

#[test]
fn rectangles_contain_the_same_points() {
    assert_eq!(source::contained(), port::contained());
    assert!(port::contained().contains(&true) && port::contained().contains(&false));
}

#[test]
fn signatures_are_the_same() {
    source::functions();
    port::functions();
}
