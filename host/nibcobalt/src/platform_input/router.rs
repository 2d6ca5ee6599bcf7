//! The router. RULES.md has the rules of each call and the order of its refusals.

use std::cell::RefCell;

use super::*;
use crate::codec::{calls, events, expect_form, Answer, Lent};
use crate::codec::{ROUTED_ARBITRATED, ROUTED_DISCONNECTED, ROUTED_VIEW_RELEASED};
use crate::ffi::{self, Counter, RouteMessage, Start};
use crate::ViewInputReleaseReport;
use crate::{CompositionLimits, CompositionRegistry, SessionHandle, SurfaceHandle};

/// The open presses of all devices, and which surface took each. It may go to another thread, but two threads cannot
/// share it.
///
/// ```compile_fail
/// fn shared<T: Sync>() {}
/// shared::<nibcobalt::PlatformInputRouter>();
/// ```
pub struct PlatformInputRouter {
    /// The router stands in a counter of its own; while an event is routed, in the registry's.
    lent: RefCell<Lent>,
}

const ROUTER_IS_SOUND: &str = "a router that only calls have altered is not damaged";

/// The registry beside a router, which no call reads.
const SOME_REGISTRY: Start = Start {
    session: SessionHandle { index: 0, generation: 1 },
    session_epoch: 1,
    max_windows: CompositionLimits::PORT.max_windows as u64,
    max_views: CompositionLimits::PORT.max_views as u64,
    max_surfaces: CompositionLimits::PORT.max_surfaces as u64,
    max_surfaces_per_view: CompositionLimits::PORT.max_surfaces_per_view as u64,
    max_trace_entries: CompositionLimits::PORT.max_trace_entries as u64,
    first_revision: 0,
    first_generation: 1,
    max_active_bindings: 1,
};

impl PlatformInputRouter {
    /// Not in the source: the greatest limit that a start accepts here. A greater one is
    /// [`PlatformInputError::PortLimit`].
    pub const MOST_ACTIVE_BINDINGS: usize = 128;

    /// A router without open presses, which may have so many of them.
    pub fn new(max_active_bindings: usize) -> Result<Self, PlatformInputError> {
        let start = Start { max_active_bindings: max_active_bindings as u64, ..SOME_REGISTRY };
        let lent = Lent::start(&start).map_err(PlatformInputError::of)?;
        Ok(Self { lent: RefCell::new(lent) })
    }

    /// Routes an event: checks it, finds the surfaces that get it, opens or ends its press, and lists the presses that
    /// a disconnect or a view's loss ends.
    pub fn route(
        &mut self,
        composition: &mut CompositionRegistry,
        event: PlatformInputEvent,
    ) -> Result<PlatformInputRoutingReport, PlatformInputError> {
        let mut message = RouteMessage { call: events::route(&event).numbers };
        let own = self.lent.get_mut();
        let memory = composition.memory_mut();
        own.counter.swap_routers(memory);
        let status = ffi::route(memory, &mut message, &mut own.buffer);
        own.counter.swap_routers(memory);
        expect_form(status);
        let answer = Answer::read(own.buffer.answer());
        composition.routed(answer.revision);
        answer.of_router().map(|answer| report(event, answer))
    }

    /// Ends the presses of a surface and lists them.
    pub fn release_surface(&mut self, surface: SurfaceHandle) -> Vec<SynthesizedInputRelease> {
        let answer = self.lent.get_mut().make(calls::release_surface(surface));
        answer.of_router().expect(ROUTER_IS_SOUND).releases
    }

    /// Ends all presses and lists them surface by surface; sequences and the time are forgotten.
    pub fn release_all(&mut self) -> Vec<SynthesizedInputRelease> {
        let answer = self.lent.get_mut().make(calls::release_all());
        answer.of_router().expect(ROUTER_IS_SOUND).releases
    }

    /// How many presses are open.
    pub fn active_binding_count(&self) -> usize {
        let mut lent = self.lent.borrow_mut();
        let answer = lent.make(calls::active_binding_count());
        answer.of_router().expect(ROUTER_IS_SOUND).more.count()
    }

    /// Not in the source: the memory that the library works on, of which the router's part is the router. The function
    /// cannot use the router itself.
    pub fn with_memory<T>(&self, look: impl FnOnce(&Counter) -> T) -> T {
        look(&self.lent.borrow().counter)
    }
}

/// What came of an accepted event.
fn report(event: PlatformInputEvent, mut answer: Answer) -> PlatformInputRoutingReport {
    let composition_revision = answer.revision;
    let synthesized_releases = std::mem::take(&mut answer.releases);
    let (arbitration, view_release) = match answer.more.number() {
        ROUTED_DISCONNECTED => (None, None),
        ROUTED_ARBITRATED => (Some(answer.arbitration()), None),
        ROUTED_VIEW_RELEASED => {
            let view = answer.handle();
            let released = answer.more.input_state();
            let revision = composition_revision;
            (None, Some(ViewInputReleaseReport { view, released, revision }))
        }
        other => panic!("{other} is no kind of a routed event"),
    };
    PlatformInputRoutingReport {
        event,
        arbitration,
        synthesized_releases,
        view_release,
        composition_revision,
    }
}
