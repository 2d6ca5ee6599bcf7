//! The registry. RULES.md has the rules of each call and the order of its refusals.

use std::cell::{OnceCell, RefCell};

use super::*;
use crate::codec::{calls, Answer, Form, Lent, Reader};
use crate::ffi::{Counter, Start};
use crate::{SessionHandle, SurfaceHandle, ViewHandle, WindowHandle};

/// The windows, views and surfaces of a session. It may go to another thread, but two threads cannot share it, since
/// reads lend its memory too:
///
/// ```compile_fail
/// fn shared<T: Sync>() {}
/// shared::<nibcobalt::CompositionRegistry>();
/// ```
pub struct CompositionRegistry {
    session: SessionHandle,
    session_epoch: u64,
    revision: u64,
    lent: RefCell<Lent>,
    /// The traces, once they were asked for; every call that can alter them empties this.
    traces: OnceCell<Vec<CompositionTrace>>,
}

const COUNTS_ARE_READ: &str = "the counts and traces of a registry can be read";

/// The part of a start that a registry does not have.
const SOME_BINDINGS: u64 = 1;

impl CompositionRegistry {
    /// An empty registry of revision 0. Limits above [`CompositionLimits::PORT`] are
    /// [`CompositionError::PortLimit`].
    pub fn new(
        session: SessionHandle,
        session_epoch: u64,
        limits: CompositionLimits,
    ) -> Result<Self, CompositionError> {
        Self::new_at(session, session_epoch, limits, 0, 1)
    }

    /// Not in the source: an empty registry with a given first revision and a given generation of slots that are used
    /// first. A generation of 0 is [`CompositionError::InvalidConfig`].
    pub fn new_at(
        session: SessionHandle,
        session_epoch: u64,
        limits: CompositionLimits,
        first_revision: u64,
        first_generation: u32,
    ) -> Result<Self, CompositionError> {
        let start = Start {
            session,
            session_epoch,
            max_windows: limits.max_windows as u64,
            max_views: limits.max_views as u64,
            max_surfaces: limits.max_surfaces as u64,
            max_surfaces_per_view: limits.max_surfaces_per_view as u64,
            max_trace_entries: limits.max_trace_entries as u64,
            first_revision,
            first_generation,
            max_active_bindings: SOME_BINDINGS,
        };
        let lent = Lent::start(&start).map_err(CompositionError::of)?;
        Ok(Self {
            session,
            session_epoch,
            revision: first_revision,
            lent: RefCell::new(lent),
            traces: OnceCell::new(),
        })
    }

    /// The session that owns the registry.
    pub const fn session(&self) -> SessionHandle {
        self.session
    }

    /// The session's epoch.
    pub const fn session_epoch(&self) -> u64 {
        self.session_epoch
    }

    /// The revision, which rises by 1 with each change.
    pub const fn revision(&self) -> u64 {
        self.revision
    }

    /// How many windows are open.
    pub fn live_window_count(&self) -> usize {
        self.counts()[0]
    }

    /// How many views are open.
    pub fn live_view_count(&self) -> usize {
        self.counts()[1]
    }

    /// How many surfaces are open.
    pub fn live_surface_count(&self) -> usize {
        self.counts()[2]
    }

    /// The window of a view.
    pub fn view_window(&self, view: ViewHandle) -> Result<WindowHandle, CompositionError> {
        self.read(calls::view_window(view), |answer| answer.handle())
    }

    /// The metrics of a view.
    pub fn view_metrics(&self, view: ViewHandle) -> Result<ViewMetrics, CompositionError> {
        self.read(calls::view_metrics(view), |mut answer| answer.more.metrics())
    }

    /// Which surfaces hold a view's input.
    pub fn view_input_state(&self, view: ViewHandle) -> Result<ViewInputState, CompositionError> {
        self.read(calls::view_input_state(view), |mut answer| answer.more.input_state())
    }

    /// The captured pointers of a view with their surfaces, by pointer.
    pub fn view_pointer_captures(
        &self,
        view: ViewHandle,
    ) -> Result<Vec<(CompositionPointerId, SurfaceHandle)>, CompositionError> {
        let captures = calls::view_pointer_captures(view);
        self.read(captures, |mut answer| answer.more.list(Reader::capture))
    }

    /// What a surface was attached with, as it was altered since.
    pub fn surface_descriptor(
        &self,
        surface: SurfaceHandle,
    ) -> Result<SurfaceDescriptor, CompositionError> {
        self.read(calls::surface_descriptor(surface), |mut answer| answer.more.descriptor())
    }

    /// The surfaces of a view, from the lowest.
    pub fn view_layers(&self, view: ViewHandle) -> Result<Vec<SurfaceLayer>, CompositionError> {
        self.read(calls::view_layers(view), |mut answer| answer.more.list(Reader::layer))
    }

    /// The surfaces under a point of a view, topmost first.
    pub fn hit_test_stack(
        &self,
        view: ViewHandle,
        x_milli: i32,
        y_milli: i32,
    ) -> Result<Vec<SurfaceHandle>, CompositionError> {
        let test = calls::hit_test_stack(view, x_milli, y_milli);
        self.read(test, |mut answer| answer.more.list(Reader::handle))
    }

    /// The last arbitrations, oldest first.
    pub fn traces(&self) -> impl Iterator<Item = &CompositionTrace> {
        let traces = self.traces.get_or_init(|| {
            let read = self.read(calls::traces(), |mut answer| answer.more.list(Reader::trace));
            read.expect(COUNTS_ARE_READ)
        });
        traces.iter()
    }

    /// Opens a window.
    pub fn create_window(&mut self) -> Result<WindowHandle, CompositionError> {
        self.change(calls::create_window(), |answer| answer.handle())
    }

    /// Closes a window that has no views.
    pub fn close_window(&mut self, window: WindowHandle) -> Result<(), CompositionError> {
        self.change(calls::close_window(window), |_| ())
    }

    /// Opens a view of a window.
    pub fn create_view(&mut self, window: WindowHandle) -> Result<ViewHandle, CompositionError> {
        self.change(calls::create_view(window), |answer| answer.handle())
    }

    /// Gives a view new metrics, where the expected revision is that of its metrics.
    pub fn update_view_metrics(
        &mut self,
        view: ViewHandle,
        update: ViewMetricsUpdate,
        expected_metrics_revision: u64,
    ) -> Result<ViewMetrics, CompositionError> {
        let call = calls::update_view_metrics(view, update, expected_metrics_revision);
        self.change(call, |mut answer| answer.more.metrics())
    }

    /// Closes a view that has no surfaces.
    pub fn close_view(&mut self, view: ViewHandle) -> Result<(), CompositionError> {
        self.change(calls::close_view(view), |_| ())
    }

    /// Attaches a surface to its view.
    pub fn attach_surface(
        &mut self,
        descriptor: SurfaceDescriptor,
    ) -> Result<SurfaceHandle, CompositionError> {
        self.change(calls::attach_surface(descriptor), |answer| answer.handle())
    }

    /// Moves a surface and answers the revision.
    pub fn update_surface_geometry(
        &mut self,
        surface: SurfaceHandle,
        geometry: SurfaceGeometry,
        expected_revision: u64,
    ) -> Result<u64, CompositionError> {
        self.revise(calls::update_surface_geometry(surface, geometry, expected_revision))
    }

    /// Gives a surface another policy and answers the revision. Nothing else is altered.
    pub fn update_surface_input_policy(
        &mut self,
        surface: SurfaceHandle,
        input: SurfaceInputPolicy,
        expected_revision: u64,
    ) -> Result<u64, CompositionError> {
        self.revise(calls::update_surface_input_policy(surface, input, expected_revision))
    }

    /// Registers a surface for system shortcuts of its own view with priority 0, or for none where the mask is 0, and
    /// answers the revision.
    pub fn set_surface_system_shortcuts(
        &mut self,
        surface: SurfaceHandle,
        class_mask: u64,
        expected_revision: u64,
    ) -> Result<u64, CompositionError> {
        self.revise(calls::set_surface_system_shortcuts(surface, class_mask, expected_revision))
    }

    /// Registers a surface for one kind of system shortcuts, or for none, and answers the revision.
    pub fn register_surface_system_shortcuts(
        &mut self,
        surface: SurfaceHandle,
        registration: Option<SurfaceShortcutRegistration>,
        expected_revision: u64,
    ) -> Result<u64, CompositionError> {
        let call =
            calls::register_surface_system_shortcuts(surface, registration, expected_revision);
        self.revise(call)
    }

    /// Replaces all registrations of a surface, at most 64 and 256 in all, and answers the revision.
    pub fn register_surface_system_shortcut_set(
        &mut self,
        surface: SurfaceHandle,
        registrations: Vec<SurfaceShortcutRegistration>,
        expected_revision: u64,
    ) -> Result<u64, CompositionError> {
        let call = calls::register_surface_system_shortcut_set(surface, expected_revision);
        self.change_by(
            |lent| lent.make_with_registrations(call, &registrations),
            |answer| answer.revision,
        )
    }

    /// Gives a surface, or none, the focus of its view and answers the revision.
    pub fn set_focus(
        &mut self,
        view: ViewHandle,
        surface: Option<SurfaceHandle>,
        expected_revision: u64,
    ) -> Result<u64, CompositionError> {
        self.revise(calls::set_focus(view, surface, expected_revision))
    }

    /// Gives a surface its view's single capture and answers the revision.
    pub fn capture_pointer(
        &mut self,
        surface: SurfaceHandle,
        expected_revision: u64,
    ) -> Result<u64, CompositionError> {
        self.revise(calls::capture_pointer(surface, expected_revision))
    }

    /// Gives a surface a pointer, at most 32 in a view, and answers the revision.
    pub fn capture_pointer_for(
        &mut self,
        pointer: CompositionPointerId,
        surface: SurfaceHandle,
        expected_revision: u64,
    ) -> Result<u64, CompositionError> {
        self.revise(calls::capture_pointer_for(pointer, surface, expected_revision))
    }

    /// Takes its view's single capture from a surface and answers the revision.
    pub fn release_pointer(
        &mut self,
        surface: SurfaceHandle,
        expected_revision: u64,
    ) -> Result<u64, CompositionError> {
        self.revise(calls::release_pointer(surface, expected_revision))
    }

    /// Takes a pointer from a surface and answers the revision.
    pub fn release_pointer_for(
        &mut self,
        pointer: CompositionPointerId,
        surface: SurfaceHandle,
        expected_revision: u64,
    ) -> Result<u64, CompositionError> {
        self.revise(calls::release_pointer_for(pointer, surface, expected_revision))
    }

    /// Drops all captures of a device and lists them. The revision rises if there were any.
    pub fn release_device_pointer_captures(
        &mut self,
        device: u64,
        device_generation: u32,
    ) -> Result<Vec<(CompositionPointerId, SurfaceHandle)>, CompositionError> {
        let call = calls::release_device_pointer_captures(device, device_generation);
        self.change(call, |answer| answer.captures)
    }

    /// Lets the focused surface compose text and answers the revision.
    pub fn begin_ime(
        &mut self,
        surface: SurfaceHandle,
        expected_revision: u64,
    ) -> Result<u64, CompositionError> {
        self.revise(calls::begin_ime(surface, expected_revision))
    }

    /// Ends a surface's composition of text and answers the revision.
    pub fn end_ime(
        &mut self,
        surface: SurfaceHandle,
        expected_revision: u64,
    ) -> Result<u64, CompositionError> {
        self.revise(calls::end_ime(surface, expected_revision))
    }

    /// Drops the focus, the captures and the composition of a view.
    pub fn suspend_view_input(
        &mut self,
        view: ViewHandle,
        expected_revision: u64,
    ) -> Result<ViewInputReleaseReport, CompositionError> {
        let call = calls::suspend_view_input(view, expected_revision);
        self.change(call, |mut answer| ViewInputReleaseReport {
            view: answer.handle(),
            released: answer.more.input_state(),
            revision: answer.revision,
        })
    }

    /// Tells which surfaces get an event, and remembers it as a trace.
    pub fn arbitrate(
        &mut self,
        view: ViewHandle,
        event: ArbitrationEvent,
    ) -> Result<ArbitrationResult, CompositionError> {
        let call = calls::arbitrate(view, &event);
        let hits: &[SurfaceHandle] = match &event {
            ArbitrationEvent::PointerStack { hits }
            | ArbitrationEvent::PointerStackFor { hits, .. } => hits,
            _ => &[],
        };
        self.change_by(|lent| lent.make_with_hits(call, hits), |answer| answer.arbitration())
    }

    /// Closes a surface. Its presses stay open in the router until they are released there.
    pub fn close_surface(
        &mut self,
        surface: SurfaceHandle,
    ) -> Result<SurfaceCloseReport, CompositionError> {
        self.change(calls::close_surface(surface), |mut answer| {
            answer.more.closed(answer.handle(), answer.revision)
        })
    }

    /// Closes all surfaces, views and windows.
    pub fn shutdown(&mut self) -> Result<CompositionShutdownReport, CompositionError> {
        self.change(calls::shutdown(), |mut answer| CompositionShutdownReport {
            closed_surfaces: answer.more.list(Reader::closed_of_shutdown),
            closed_views: answer.more.list(Reader::handle),
            closed_windows: answer.more.list(Reader::handle),
            final_revision: answer.revision,
        })
    }

    /// Not in the source: the memory that the library works on. The function cannot use the registry itself.
    pub fn with_memory<T>(&self, look: impl FnOnce(&Counter) -> T) -> T {
        look(&self.lent.borrow().counter)
    }

    /// The memory, for a router that puts its own part into it.
    pub(crate) fn memory_mut(&mut self) -> &mut Counter {
        &mut self.lent.get_mut().counter
    }

    /// Takes note of a routed event, which may have altered the registry.
    pub(crate) fn routed(&mut self, revision: u64) {
        self.revision = revision;
        self.traces.take();
    }

    fn counts(&self) -> [usize; 3] {
        let read = self.read(calls::counts(), |mut answer| {
            // The session, the epoch and the revision stand before the counts.
            answer.more.pass(4);
            [answer.more.count(), answer.more.count(), answer.more.count()]
        });
        read.expect(COUNTS_ARE_READ)
    }

    /// Makes a call that alters nothing.
    fn read<T>(&self, call: Form, take: impl FnOnce(Answer) -> T) -> Result<T, CompositionError> {
        self.lent.borrow_mut().make(call).of_registry().map(take)
    }

    /// Makes a call that alters the registry.
    fn change<T>(
        &mut self,
        call: Form,
        take: impl FnOnce(Answer) -> T,
    ) -> Result<T, CompositionError> {
        self.change_by(|lent| lent.make(call), take)
    }

    /// Makes a call that alters the registry and answers its revision.
    fn revise(&mut self, call: Form) -> Result<u64, CompositionError> {
        self.change(call, |answer| answer.revision)
    }

    fn change_by<T>(
        &mut self,
        make: impl FnOnce(&mut Lent) -> Answer,
        take: impl FnOnce(Answer) -> T,
    ) -> Result<T, CompositionError> {
        self.traces.take();
        let answer = make(self.lent.get_mut());
        self.revision = answer.revision;
        answer.of_registry().map(take)
    }
}
