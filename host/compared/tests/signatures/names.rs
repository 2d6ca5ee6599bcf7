// What a host can name. Only the imports before this text differ.

use std::fmt::Debug;

type Registry = CompositionRegistry;
type Router = PlatformInputRouter;
type Answered<T> = Result<T, CompositionError>;
type Captures = Vec<(CompositionPointerId, SurfaceHandle)>;

pub fn functions() {
    let _: fn(SessionHandle, u64, CompositionLimits) -> Answered<Registry> = Registry::new;
    let _: fn(&Registry) -> SessionHandle = Registry::session;
    let _: fn(&Registry) -> u64 = Registry::session_epoch;
    let _: fn(&Registry) -> u64 = Registry::revision;
    let _: fn(&Registry) -> usize = Registry::live_window_count;
    let _: fn(&Registry) -> usize = Registry::live_view_count;
    let _: fn(&Registry) -> usize = Registry::live_surface_count;
    let _: fn(&Registry, ViewHandle) -> Answered<WindowHandle> = Registry::view_window;
    let _: fn(&Registry, ViewHandle) -> Answered<ViewMetrics> = Registry::view_metrics;
    let _: fn(&Registry, ViewHandle) -> Answered<ViewInputState> = Registry::view_input_state;
    let _: fn(&Registry, ViewHandle) -> Answered<Captures> = Registry::view_pointer_captures;
    let _: fn(&Registry, SurfaceHandle) -> Answered<SurfaceDescriptor> =
        Registry::surface_descriptor;
    let _: fn(&Registry, ViewHandle) -> Answered<Vec<SurfaceLayer>> = Registry::view_layers;
    let _: fn(&Registry, ViewHandle, i32, i32) -> Answered<Vec<SurfaceHandle>> =
        Registry::hit_test_stack;
    fn traces(registry: &Registry) -> Vec<&CompositionTrace> {
        registry.traces().collect()
    }
    let _ = traces;
    let _: fn(&mut Registry) -> Answered<WindowHandle> = Registry::create_window;
    let _: fn(&mut Registry, WindowHandle) -> Answered<()> = Registry::close_window;
    let _: fn(&mut Registry, WindowHandle) -> Answered<ViewHandle> = Registry::create_view;
    let _: fn(&mut Registry, ViewHandle, ViewMetricsUpdate, u64) -> Answered<ViewMetrics> =
        Registry::update_view_metrics;
    let _: fn(&mut Registry, ViewHandle) -> Answered<()> = Registry::close_view;
    let _: fn(&mut Registry, SurfaceDescriptor) -> Answered<SurfaceHandle> =
        Registry::attach_surface;
    let _: fn(&mut Registry, SurfaceHandle, SurfaceGeometry, u64) -> Answered<u64> =
        Registry::update_surface_geometry;
    let _: fn(&mut Registry, SurfaceHandle, SurfaceInputPolicy, u64) -> Answered<u64> =
        Registry::update_surface_input_policy;
    let _: fn(&mut Registry, SurfaceHandle, u64, u64) -> Answered<u64> =
        Registry::set_surface_system_shortcuts;
    let _: fn(
        &mut Registry,
        SurfaceHandle,
        Option<SurfaceShortcutRegistration>,
        u64,
    ) -> Answered<u64> = Registry::register_surface_system_shortcuts;
    let _: fn(
        &mut Registry,
        SurfaceHandle,
        Vec<SurfaceShortcutRegistration>,
        u64,
    ) -> Answered<u64> = Registry::register_surface_system_shortcut_set;
    let _: fn(&mut Registry, ViewHandle, Option<SurfaceHandle>, u64) -> Answered<u64> =
        Registry::set_focus;
    let _: [fn(&mut Registry, SurfaceHandle, u64) -> Answered<u64>; 4] = [
        Registry::capture_pointer,
        Registry::release_pointer,
        Registry::begin_ime,
        Registry::end_ime,
    ];
    let _: [fn(&mut Registry, CompositionPointerId, SurfaceHandle, u64) -> Answered<u64>; 2] =
        [Registry::capture_pointer_for, Registry::release_pointer_for];
    let _: fn(&mut Registry, u64, u32) -> Answered<Captures> =
        Registry::release_device_pointer_captures;
    let _: fn(&mut Registry, ViewHandle, u64) -> Answered<ViewInputReleaseReport> =
        Registry::suspend_view_input;
    let _: fn(&mut Registry, ViewHandle, ArbitrationEvent) -> Answered<ArbitrationResult> =
        Registry::arbitrate;
    let _: fn(&mut Registry, SurfaceHandle) -> Answered<SurfaceCloseReport> =
        Registry::close_surface;
    let _: fn(&mut Registry) -> Answered<CompositionShutdownReport> = Registry::shutdown;
    let _: fn(usize) -> Result<Router, PlatformInputError> = Router::new;
    let _: fn(
        &mut Router,
        &mut Registry,
        PlatformInputEvent,
    ) -> Result<PlatformInputRoutingReport, PlatformInputError> = Router::route;
    let _: fn(&mut Router, SurfaceHandle) -> Vec<SynthesizedInputRelease> = Router::release_surface;
    let _: fn(&mut Router) -> Vec<SynthesizedInputRelease> = Router::release_all;
    let _: fn(&Router) -> usize = Router::active_binding_count;
    derives();
    let _ = (fields, cases);
}

fn copied<T: Clone + Copy + Debug + Eq>() {}
fn cloned<T: Clone + Debug + Eq>() {}
fn ordered<T: Clone + Copy + Debug + Eq + Ord>() {}
fn sent<T: Send>() {}

fn derives() {
    fn hashed<T: Clone + Copy + Debug + Eq + Ord + std::hash::Hash>() {}
    hashed::<GenerationalHandle>();
    ordered::<CompositionPointerId>();
    ordered::<InputDeviceId>();
    copied::<CompositionLimits>();
    copied::<SurfaceKind>();
    copied::<SurfaceInputPolicy>();
    copied::<ShortcutScope>();
    copied::<SurfaceShortcutRegistration>();
    copied::<SurfaceRect>();
    copied::<SurfaceTransform>();
    copied::<SurfaceGeometry>();
    copied::<SurfaceDescriptor>();
    copied::<ViewVisibility>();
    copied::<ViewInsets>();
    copied::<ViewMetrics>();
    copied::<ViewMetricsUpdate>();
    copied::<SurfaceLayer>();
    copied::<InputDelivery>();
    copied::<SurfaceRelease>();
    copied::<ViewInputState>();
    copied::<ViewInputReleaseReport>();
    copied::<CompositionError>();
    copied::<InputDeviceKind>();
    copied::<InputModifiers>();
    copied::<KeyPhase>();
    copied::<PointerPhase>();
    copied::<WheelUnit>();
    copied::<CompositionPhase>();
    copied::<GamepadMapping>();
    copied::<GamepadButton>();
    copied::<PlatformInputError>();
    cloned::<ArbitrationEvent>();
    cloned::<ArbitrationResult>();
    cloned::<SurfaceCloseReport>();
    cloned::<CompositionShutdownReport>();
    cloned::<CompositionTrace>();
    cloned::<PlatformInputHeader>();
    cloned::<PlatformInputPayload>();
    cloned::<PlatformInputEvent>();
    cloned::<SynthesizedInputRelease>();
    cloned::<PlatformInputRoutingReport>();
    sent::<CompositionRegistry>();
    sent::<PlatformInputRouter>();
}

/// Every struct of an answer, with all its fields.
fn fields(
    delivery: InputDelivery,
    result: ArbitrationResult,
    closed: SurfaceCloseReport,
    state: ViewInputState,
    released: ViewInputReleaseReport,
    shut: CompositionShutdownReport,
    trace: CompositionTrace,
    layer: SurfaceLayer,
    report: PlatformInputRoutingReport,
) {
    let InputDelivery { surface: _, observed: _ } = delivery;
    let ArbitrationResult { revision: _, deliveries: _, consumed_by: _ } = result;
    let SurfaceCloseReport { surface: _, releases: _, restored_focus: _, revision: _ } = closed;
    let ViewInputState { focused: _, pointer_capture: _, ime: _ } = state;
    let ViewInputReleaseReport { view: _, released: _, revision: _ } = released;
    let CompositionShutdownReport {
        closed_surfaces: _,
        closed_views: _,
        closed_windows: _,
        final_revision: _,
    } = shut;
    let CompositionTrace { revision: _, view: _, event: _, deliveries: _, consumed_by: _ } = trace;
    let SurfaceLayer { surface: _, descriptor: _ } = layer;
    let PlatformInputRoutingReport {
        event: _,
        arbitration: _,
        synthesized_releases: _,
        view_release: _,
        composition_revision: _,
    } = report;
}

/// Every case of the enums of an answer. The error enums have two more on one side, so they are matched with a rest.
fn cases(
    release: SurfaceRelease,
    synthesized: SynthesizedInputRelease,
    refused: CompositionError,
    not_routed: PlatformInputError,
) {
    match release {
        SurfaceRelease::Focus | SurfaceRelease::PointerCapture | SurfaceRelease::ImeComposition => {
        }
    }
    match synthesized {
        SynthesizedInputRelease::PointerCancel { pointer: _, surface: _ }
        | SynthesizedInputRelease::KeyUp { device: _, physical_key: _, surface: _ }
        | SynthesizedInputRelease::GamepadDisconnected { device: _, surface: _ } => {}
    }
    #[allow(unreachable_patterns)]
    match refused {
        CompositionError::InvalidConfig
        | CompositionError::InvalidOwner
        | CompositionError::Capacity
        | CompositionError::PerViewCapacity
        | CompositionError::InvalidWindow
        | CompositionError::StaleWindow
        | CompositionError::WindowInUse
        | CompositionError::InvalidView
        | CompositionError::StaleView
        | CompositionError::ViewInUse
        | CompositionError::InvalidSurface
        | CompositionError::StaleSurface
        | CompositionError::InvalidGeometry
        | CompositionError::InvalidMetrics
        | CompositionError::InvalidSurfaceState
        | CompositionError::StaleSurfaceGeneration
        | CompositionError::WrongView
        | CompositionError::NotInteractive
        | CompositionError::TextUnsupported
        | CompositionError::RevisionConflict
        | CompositionError::RevisionExhausted
        | CompositionError::GenerationExhausted => {}
        _ => {}
    }
    #[allow(unreachable_patterns)]
    match not_routed {
        PlatformInputError::InvalidDevice
        | PlatformInputError::InvalidSequence
        | PlatformInputError::InvalidTimestamp
        | PlatformInputError::InvalidPointer
        | PlatformInputError::InvalidPressure
        | PlatformInputError::InvalidTilt
        | PlatformInputError::InvalidTextSelection
        | PlatformInputError::InvalidShortcut
        | PlatformInputError::InvalidWindow
        | PlatformInputError::Capacity
        | PlatformInputError::Composition(_) => {}
        _ => {}
    }
}

pub fn values() -> String {
    let pointer = |device, device_generation, contact| CompositionPointerId {
        device,
        device_generation,
        contact,
    };
    let pointers = [pointer(0, 1, 0), pointer(1, 0, 0), pointer(1, 1, u32::MAX), pointer(1, 1, 0)];
    let device = |value, generation| InputDeviceId { value, generation };
    let devices = [device(0, 1), device(1, 0), device(1, 1)];
    let handle = |index, generation| GenerationalHandle { index, generation };
    let handles = [handle(0, 0), handle(u32::MAX, 1), handle(0, 1), GenerationalHandle::INVALID];
    let button = GamepadButton { value_q15: 1, pressed: true, touched: false };
    format!(
        "{:?} {:?} {:?} {:?} {:?} {:?} {:?} {:?} {:?} {button:?}",
        CompositionLimits::default(),
        SurfaceTransform::default(),
        SurfaceGeometry::default(),
        ViewMetrics::default(),
        InputModifiers::default(),
        CompositionPointerId::PRIMARY,
        pointers.map(CompositionPointerId::is_valid),
        devices.map(InputDeviceId::is_valid),
        handles.map(|handle| (handle, handle.is_valid())),
    )
}

/// Points at and beside the edges of rectangles, at both ends of the range.
pub fn contained() -> Vec<bool> {
    let places = [i32::MIN, i32::MIN + 1, -501, -500, -1, 0, 1, 499, 500, i32::MAX - 1, i32::MAX];
    let sides = [0, 1, 2, 500, 1000, i32::MAX as u32, u32::MAX];
    let mut all = Vec::new();
    for (x_milli, y_milli) in [(-500, -500), (i32::MIN, 0), (0, i32::MAX), (-1, 1)] {
        for width_milli in sides {
            for height_milli in sides {
                let rect = SurfaceRect { x_milli, y_milli, width_milli, height_milli };
                for x in places {
                    all.extend(places.map(|y| rect.contains(x, y)));
                }
            }
        }
    }
    all
}
