//! One registry and one router, and what each call does to them.

use crate::answer::{composition_number, router_number, write_line, Answer};
use crate::composition::access;
use crate::dump::{self, Digest, DumpColumn, Numbers};
use crate::limits;
use crate::platform_input::access as router_access;
use crate::platform_input::{PlatformInputEvent, PlatformInputRouter};
use crate::script::{is_skipped, parse, Call};
use crate::*;

/// The state that a script works on.
pub struct Session {
    pub registry: CompositionRegistry,
    pub router: PlatformInputRouter,
    first_generation: u32,
    digest: bool,
    calls: u64,
}

impl Default for Session {
    fn default() -> Self {
        Self::new()
    }
}

type Outcome = Result<Answer, u32>;

/// The answer of a call that has nothing to show but that it was accepted.
fn plain<T>(result: Result<T, CompositionError>) -> Outcome {
    result.map(|_| Answer::accepted()).map_err(composition_number)
}

impl Session {
    /// The state before the first `new` and `router` lines.
    pub fn new() -> Self {
        let owner = SessionHandle { index: 0, generation: 1 };
        let (registry, first_generation) =
            limits::start(owner, 1, limits::START_LIMITS, None).expect("a valid start");
        let router = limits::start_router(limits::BINDINGS).expect("a valid start");
        Self { registry, router, first_generation, digest: false, calls: 0 }
    }

    /// Runs one line and adds its answer line, if it has one.
    pub fn answer_line(&mut self, line: &[u8], out: &mut String) -> Option<Answer> {
        let answer = self.apply(line)?;
        let digests = self.digest.then(|| self.digests());
        write_line(out, self.calls, self.registry.revision(), &answer, digests);
        Some(answer)
    }

    /// Runs one line without writing; none for a line that is skipped.
    pub fn apply(&mut self, line: &[u8]) -> Option<Answer> {
        if is_skipped(line) {
            return None;
        }
        self.calls += 1;
        Some(match parse(line) {
            Some(call) => self.run(call).unwrap_or_else(Answer::refused),
            None => Answer::no_call(),
        })
    }

    fn digests(&self) -> (u64, u64) {
        let mut registry = Digest::new();
        access::dump(&self.registry, self.first_generation, &mut registry);
        let mut router = Digest::new();
        router_access::dump(&self.router, &mut router);
        (registry.value(), router.value())
    }

    fn run(&mut self, call: Call) -> Outcome {
        match call {
            Call::Digest(on) => {
                self.digest = on;
                Ok(Answer::accepted())
            }
            Call::New { session, epoch, limits, first } => {
                (self.registry, self.first_generation) =
                    limits::start(session, epoch, limits, first)?;
                Ok(Answer::accepted())
            }
            Call::Router(limit) => {
                self.router = limits::start_router(limit)?;
                Ok(Answer::accepted())
            }
            Call::Route(event) => self.route(event),
            Call::ReleaseSurface(surface) => {
                Ok(Answer::accepted().with_releases(self.router.release_surface(surface)))
            }
            Call::ReleaseAll => Ok(Answer::accepted().with_releases(self.router.release_all())),
            call @ (Call::ViewWindow(_)
            | Call::ViewMetrics(_)
            | Call::ViewInputState(_)
            | Call::ViewPointerCaptures(_)
            | Call::SurfaceDescriptor(_)
            | Call::ViewLayers(_)
            | Call::HitTestStack(..)
            | Call::InversePoint(..)
            | Call::Traces
            | Call::Counts
            | Call::ActiveBindingCount
            | Call::State
            | Call::RouterState) => self.read(call),
            call => self.change(call),
        }
    }

    /// The calls that change the registry.
    fn change(&mut self, call: Call) -> Outcome {
        let first = self.first_generation;
        let registry = &mut self.registry;
        match call {
            Call::CreateWindow => limits::create(registry, first, |r| r.create_window())
                .map(|handle| Answer::accepted().with_handle(handle)),
            Call::CloseWindow(window) => plain(registry.close_window(window)),
            Call::CreateView(window) => limits::create(registry, first, |r| r.create_view(window))
                .map(|handle| Answer::accepted().with_handle(handle)),
            Call::UpdateViewMetrics(view, update, revision) => registry
                .update_view_metrics(view, update, revision)
                .map(|metrics| Answer::accepted().with_more(|out| dump::metrics(out, &metrics)))
                .map_err(composition_number),
            Call::CloseView(view) => plain(registry.close_view(view)),
            Call::AttachSurface(descriptor) => {
                limits::create(registry, first, |r| r.attach_surface(descriptor))
                    .map(|handle| Answer::accepted().with_handle(handle))
            }
            Call::UpdateSurfaceGeometry(surface, geometry, revision) => {
                plain(registry.update_surface_geometry(surface, geometry, revision))
            }
            Call::UpdateSurfaceInputPolicy(surface, policy, revision) => {
                plain(registry.update_surface_input_policy(surface, policy, revision))
            }
            Call::RegisterShortcuts(surface, list, revision) => {
                limits::registrations(registry, surface, &list, revision)?;
                plain(registry.register_surface_system_shortcut_set(surface, list, revision))
            }
            Call::SetFocus(view, surface, revision) => {
                plain(registry.set_focus(view, surface, revision))
            }
            Call::CapturePointer(surface, revision) => {
                limits::capture(registry, CompositionPointerId::PRIMARY, surface, revision)?;
                plain(registry.capture_pointer(surface, revision))
            }
            Call::CapturePointerFor(pointer, surface, revision) => {
                limits::capture(registry, pointer, surface, revision)?;
                plain(registry.capture_pointer_for(pointer, surface, revision))
            }
            Call::ReleasePointer(surface, revision) => {
                plain(registry.release_pointer(surface, revision))
            }
            Call::ReleasePointerFor(pointer, surface, revision) => {
                plain(registry.release_pointer_for(pointer, surface, revision))
            }
            Call::ReleaseDevicePointerCaptures(device, generation) => registry
                .release_device_pointer_captures(device, generation)
                .map(|list| Answer::accepted().with_captures(list))
                .map_err(composition_number),
            Call::BeginIme(surface, revision) => plain(registry.begin_ime(surface, revision)),
            Call::EndIme(surface, revision) => plain(registry.end_ime(surface, revision)),
            Call::SuspendViewInput(view, revision) => registry
                .suspend_view_input(view, revision)
                .map(|report| {
                    Answer::accepted()
                        .with_handle(report.view)
                        .with_more(|out| dump::input_state(out, &report.released))
                })
                .map_err(composition_number),
            Call::Arbitrate(view, event) => {
                limits::hits(registry, view, &event)?;
                let result = registry.arbitrate(view, event).map_err(composition_number)?;
                assert_eq!(result.revision, registry.revision());
                Ok(Answer::accepted().with_arbitration(result))
            }
            Call::CloseSurface(surface) => registry
                .close_surface(surface)
                .map(|report| {
                    Answer::accepted()
                        .with_handle(report.surface)
                        .with_more(|out| dump::close_report(out, &report))
                })
                .map_err(composition_number),
            Call::Shutdown => self.shutdown(),
            _ => unreachable!("no call that changes the registry"),
        }
    }

    fn shutdown(&mut self) -> Outcome {
        let report = self.registry.shutdown().map_err(composition_number)?;
        assert_eq!(report.final_revision, self.registry.revision());
        Ok(Answer::accepted().with_more(|out| {
            dump::count(out, report.closed_surfaces.len());
            for closed in &report.closed_surfaces {
                dump::handle(out, closed.surface);
                dump::close_report(out, closed);
                out.number(closed.revision);
            }
            for list in [&report.closed_views, &report.closed_windows] {
                dump::count(out, list.len());
                list.iter().for_each(|handle| dump::handle(out, *handle));
            }
        }))
    }

    fn route(&mut self, event: PlatformInputEvent) -> Outcome {
        limits::devices(&self.router, &self.registry, &event)?;
        let report = self.router.route(&mut self.registry, event).map_err(router_number)?;
        assert_eq!(report.composition_revision, self.registry.revision());
        let answer = Answer::accepted().with_releases(report.synthesized_releases);
        Ok(match (report.arbitration, report.view_release) {
            (None, None) => answer.with_more(|out| out.number(0)),
            (Some(result), None) => answer.with_arbitration(result).with_more(|out| out.number(1)),
            (None, Some(loss)) => answer.with_handle(loss.view).with_more(|out| {
                out.number(2);
                dump::input_state(out, &loss.released);
            }),
            (Some(_), Some(_)) => panic!("a report with both an arbitration and a view's loss"),
        })
    }

    /// The calls that change nothing.
    fn read(&self, call: Call) -> Outcome {
        let registry = &self.registry;
        let answer = Answer::accepted();
        let answered = match call {
            Call::ViewWindow(view) => registry.view_window(view).map(|w| answer.with_handle(w)),
            Call::ViewMetrics(view) => registry
                .view_metrics(view)
                .map(|metrics| answer.with_more(|out| dump::metrics(out, &metrics))),
            Call::ViewInputState(view) => registry
                .view_input_state(view)
                .map(|state| answer.with_more(|out| dump::input_state(out, &state))),
            Call::ViewPointerCaptures(view) => registry.view_pointer_captures(view).map(|list| {
                answer.with_more(|out| {
                    dump::count(out, list.len());
                    for (pointer, surface) in list {
                        dump::pointer(out, pointer);
                        dump::handle(out, surface);
                    }
                })
            }),
            Call::SurfaceDescriptor(surface) => registry
                .surface_descriptor(surface)
                .map(|descriptor| answer.with_more(|out| dump::descriptor(out, &descriptor))),
            Call::ViewLayers(view) => registry.view_layers(view).map(|layers| {
                answer.with_more(|out| {
                    dump::count(out, layers.len());
                    for layer in layers {
                        dump::handle(out, layer.surface);
                        dump::descriptor(out, &layer.descriptor);
                    }
                })
            }),
            Call::HitTestStack(view, x, y, length) => {
                limits::buffer(registry, view, length)?;
                registry.hit_test_stack(view, x, y).map(|hits| {
                    answer.with_more(|out| {
                        dump::count(out, hits.len());
                        hits.iter().for_each(|hit| dump::handle(out, *hit));
                    })
                })
            }
            Call::InversePoint(transform, x, y) => Ok(answer.with_more(|out| {
                let local = access::inverse_point(transform, x, y);
                dump::flag(out, local.is_some());
                let (x, y) = local.unwrap_or((0, 0));
                out.signed(i64::from(x));
                out.signed(i64::from(y));
            })),
            Call::Traces => Ok(answer.with_more(|out| {
                let traces = registry.traces().collect::<Vec<_>>();
                dump::count(out, traces.len());
                traces.iter().for_each(|trace| dump::trace(out, trace));
            })),
            Call::Counts => Ok(answer.with_more(|out| {
                dump::handle(out, registry.session());
                out.number(registry.session_epoch());
                out.number(registry.revision());
                dump::count(out, registry.live_window_count());
                dump::count(out, registry.live_view_count());
                dump::count(out, registry.live_surface_count());
            })),
            Call::ActiveBindingCount => {
                Ok(answer.with_more(|out| dump::count(out, self.router.active_binding_count())))
            }
            Call::State => {
                let mut dump = DumpColumn::default();
                access::dump(registry, self.first_generation, &mut dump);
                Ok(Answer { more: Some(dump.0), ..answer })
            }
            Call::RouterState => {
                let mut dump = DumpColumn::default();
                router_access::dump(&self.router, &mut dump);
                Ok(Answer { more: Some(dump.0), ..answer })
            }
            _ => unreachable!("no call that only reads"),
        };
        answered.map_err(composition_number)
    }
}

/// Runs a whole script and answers the whole output.
pub fn run_script(script: &[u8]) -> String {
    let mut session = Session::new();
    let mut out = String::new();
    for line in lines(script) {
        session.answer_line(line, &mut out);
    }
    out
}

/// The lines of a script, without their line feeds; the last may lack its own.
pub fn lines(script: &[u8]) -> impl Iterator<Item = &[u8]> {
    let whole = script.strip_suffix(b"\n").unwrap_or(script);
    let none = script.is_empty();
    whole.split(|byte| *byte == b'\n').filter(move |_| !none)
}
