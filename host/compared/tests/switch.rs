//! The worked example of docs/HOSTING.md: a host before and after it has gone over to the crate.

mod before {
    use comparison::platform_input::{PlatformInputError, PlatformInputRouter};
    use comparison::{CompositionError, CompositionLimits, CompositionRegistry, SessionHandle};

    pub fn start(session: SessionHandle) -> Result<CompositionRegistry, CompositionError> {
        CompositionRegistry::new(session, 1, CompositionLimits::default())
    }

    pub fn is_for_the_driver(refusal: PlatformInputError) -> bool {
        use PlatformInputError::*;
        match refusal {
            InvalidDevice | InvalidSequence | InvalidTimestamp | InvalidPointer
            | InvalidPressure => true,
            InvalidTilt | InvalidTextSelection | InvalidShortcut => true,
            InvalidWindow | Capacity | Composition(_) => false,
        }
    }

    pub fn end_of_day(router: &mut PlatformInputRouter) {
        router.clear();
    }
}

mod after {
    use nibcobalt::composition::{CompositionError, CompositionLimits, CompositionRegistry};
    use nibcobalt::platform_input::{
        PlatformInputError, PlatformInputRouter, SynthesizedInputRelease,
    };
    use nibcobalt::SessionHandle;

    pub fn start(session: SessionHandle) -> Result<CompositionRegistry, CompositionError> {
        CompositionRegistry::new(session, 1, CompositionLimits::PORT)
    }

    pub fn is_for_the_driver(refusal: PlatformInputError) -> bool {
        use PlatformInputError::*;
        match refusal {
            InvalidDevice | InvalidSequence | InvalidTimestamp | InvalidPointer
            | InvalidPressure => true,
            InvalidTilt | InvalidTextSelection | InvalidShortcut => true,
            InvalidWindow | Capacity | Composition(_) | PortLimit | Damaged => false,
        }
    }

    pub fn end_of_day(router: &mut PlatformInputRouter) -> Vec<SynthesizedInputRelease> {
        router.release_all()
    }
}

#[test]
fn both_hosts_start_and_end() {
    let session = comparison::SessionHandle { index: 0, generation: 1 };
    assert!(before::start(session).is_ok());
    assert!(before::is_for_the_driver(comparison::platform_input::PlatformInputError::InvalidTilt));
    before::end_of_day(&mut comparison::platform_input::PlatformInputRouter::new(128).unwrap());
    let session = nibcobalt::SessionHandle { index: 0, generation: 1 };
    assert!(after::start(session).is_ok());
    assert!(!after::is_for_the_driver(nibcobalt::PlatformInputError::PortLimit));
    let mut router = nibcobalt::PlatformInputRouter::new(128).unwrap();
    assert!(after::end_of_day(&mut router).is_empty());
}
