//! The calls of a script, each on both sides.

use comparison::composition::access;
use comparison::limits;
use comparison::platform_input as rust_input;
use comparison::script as rust_script;

use nibcobalt::ffi::Counter;

use crate::raw::Raw;
use crate::script as port_script;
use crate::shown::{self, Shown};
use crate::state::{self, State};
use crate::{memory, CompositionLimits, CompositionRegistry, PlatformInputRouter, SessionHandle};

use port_script::Call as Port;
use rust_script::Call as Rust;

/// Where both sides differ.
#[derive(Debug)]
pub struct Difference {
    pub line: String,
    pub what: String,
}

/// A registry and a router on each side.
pub struct Both {
    pub rust: comparison::CompositionRegistry,
    pub rust_router: rust_input::PlatformInputRouter,
    first_generation: u32,
    pub port: CompositionRegistry,
    pub port_router: PlatformInputRouter,
    raw: Raw,
    states: [State; 2],
}

/// Answers both sides: `pair!(both, method, (arguments), (arguments))`.
macro_rules! pair {
    ($both:ident, $method:ident, ($($rust:expr),*), ($($port:expr),*)) => {
        [shown::result($both.rust.$method($($rust),*)), shown::result($both.port.$method($($port),*))]
    };
}

/// The Rust's answer where the port's limit is not passed.
fn limited<F: FnOnce() -> Shown>(limit: Result<(), u32>, answer: F) -> Shown {
    match limit {
        Ok(()) => answer(),
        Err(number) => {
            assert_eq!(number, limits::PORT_LIMIT);
            shown::port_limit()
        }
    }
}

fn usize_limits(limits: [u64; 5]) -> CompositionLimits {
    let [windows, views, surfaces, per_view, traces] = limits.map(|limit| limit as usize);
    CompositionLimits {
        max_windows: windows,
        max_views: views,
        max_surfaces: surfaces,
        max_surfaces_per_view: per_view,
        max_trace_entries: traces,
    }
}

impl Default for Both {
    /// The state before the first `new` and `router` lines of a script.
    fn default() -> Self {
        let owner = comparison::SessionHandle { index: 0, generation: 1 };
        let (rust, first_generation) =
            limits::start(owner, 1, limits::START_LIMITS, None).expect("a start");
        let session = SessionHandle { index: 0, generation: 1 };
        Self {
            rust,
            rust_router: limits::start_router(limits::BINDINGS).expect("a start"),
            first_generation,
            port: CompositionRegistry::new(session, 1, CompositionLimits::PORT).expect("a start"),
            port_router: PlatformInputRouter::new(128).expect("a start"),
            raw: Raw::default(),
            states: Default::default(),
        }
    }
}

impl Both {
    /// Runs one line on both sides and compares answers and states; answers the number, none for a line that is no
    /// call.
    pub fn run(&mut self, line: &[u8]) -> Result<Option<u64>, Difference> {
        let number = match (rust_script::parse(line), port_script::parse(line)) {
            (Some(rust), Some(port)) => {
                let by_call = matches!(rust, Rust::Route(_)).then(|| self.route_by_call(line));
                let [rust, port] = self.answers(rust, port);
                self.compare_route(line, by_call, rust.number)?;
                if rust != port {
                    return Err(self.difference(line, format!("Rust {rust:?}, port {port:?}")));
                }
                Some(rust.number)
            }
            (None, None) => None,
            _ => panic!("one reader takes a line that the other does not"),
        };
        self.compare_states(line).map(|()| number)
    }

    /// Routes by the function for any call on a copy, and answers the refusal's number and the state afterwards.
    fn route_by_call(&mut self, line: &[u8]) -> (u64, State) {
        let (_, numbers) = rust_script::split(line).expect("a call");
        let mut counter = self.port.with_memory(Counter::clone);
        let mut router = self.port_router.with_memory(Counter::clone);
        counter.swap_routers(&mut router);
        let number = self.raw.route(&mut counter, &numbers);
        let mut state = State::default();
        let fields = memory::fields(&counter);
        state::of_memory(fields, fields, &mut state);
        (number, state)
    }

    /// The function for `route` and that for any call do the same.
    fn compare_route(
        &mut self,
        line: &[u8],
        by_call: Option<(u64, State)>,
        number: u64,
    ) -> Result<(), Difference> {
        match by_call {
            Some(by_call) if by_call != (number, self.states()[1].clone()) => {
                Err(self.difference(line, format!("by the function for any call: {by_call:?}")))
            }
            _ => Ok(()),
        }
    }

    fn difference(&self, line: &[u8], what: String) -> Difference {
        Difference { line: String::from_utf8_lossy(line).into_owned(), what }
    }

    /// The numbers of both states: the Rust's, then the port's.
    pub fn states(&mut self) -> &[State; 2] {
        let [rust, port] = &mut self.states;
        state::of_rust(&self.rust, self.first_generation, &self.rust_router, rust);
        self.port.with_memory(|registry| {
            self.port_router.with_memory(|router| {
                state::of_memory(memory::fields(registry), memory::fields(router), port);
            });
        });
        &self.states
    }

    pub fn compare_states(&mut self, line: &[u8]) -> Result<(), Difference> {
        let [rust, port] = self.states();
        if rust != port {
            let zipped = rust.0.iter().zip(&port.0);
            let place = zipped.take_while(|(rust, port)| rust == port).count();
            let what = format!("the states differ from number {place} on: {rust:?} {port:?}");
            return Err(self.difference(line, what));
        }
        let kept = (self.port.revision(), self.port.session_epoch());
        if kept != (self.rust.revision(), self.rust.session_epoch()) {
            return Err(self.difference(line, format!("the crate keeps {kept:?}")));
        }
        Ok(())
    }

    fn answers(&mut self, rust: Rust, port: Port) -> [Shown; 2] {
        match (rust, port) {
            (Rust::Digest(_) | Rust::State | Rust::RouterState, _) => {
                [shown::value(()), shown::value(())]
            }
            (Rust::New { .. } | Rust::Router(_), port) => self.start(port),
            (Rust::Route(a), Port::Route(b)) => {
                let limit = limits::devices(&self.rust_router, &self.rust, &a);
                let rust =
                    limited(limit, || shown::result(self.rust_router.route(&mut self.rust, a)));
                [rust, shown::result(self.port_router.route(&mut self.port, b))]
            }
            (Rust::ReleaseSurface(a), Port::ReleaseSurface(b)) => [
                shown::value(self.rust_router.release_surface(a)),
                shown::value(self.port_router.release_surface(b)),
            ],
            (Rust::ReleaseAll, Port::ReleaseAll) => [
                shown::value(self.rust_router.release_all()),
                shown::value(self.port_router.release_all()),
            ],
            (Rust::ActiveBindingCount, Port::ActiveBindingCount) => [
                shown::value(self.rust_router.active_binding_count()),
                shown::value(self.port_router.active_binding_count()),
            ],
            (rust @ (Rust::RegisterShortcuts(..) | Rust::CapturePointer(..)), port)
            | (rust @ (Rust::CapturePointerFor(..) | Rust::Arbitrate(..)), port) => {
                self.limited_changes(rust, port)
            }
            (
                rust @ (Rust::ViewWindow(_) | Rust::ViewMetrics(_) | Rust::ViewInputState(_)),
                port,
            )
            | (rust @ (Rust::ViewPointerCaptures(_) | Rust::SurfaceDescriptor(_)), port)
            | (rust @ (Rust::ViewLayers(_) | Rust::Traces | Rust::Counts), port)
            | (rust @ (Rust::HitTestStack(..) | Rust::InversePoint(..)), port) => {
                self.reads(rust, port)
            }
            (rust, port) => self.changes(rust, port),
        }
    }

    /// An accepted start replaces its own of the two on both sides.
    fn start(&mut self, call: Port) -> [Shown; 2] {
        match call {
            Port::New { session, epoch, limits, first } => {
                let owner = comparison::SessionHandle {
                    index: session.index,
                    generation: session.generation,
                };
                let rust = limits::start(owner, epoch, limits, first).map(|(registry, first)| {
                    (self.rust, self.first_generation) = (registry, first);
                });
                let limits = usize_limits(limits);
                let port = match first {
                    None => CompositionRegistry::new(session, epoch, limits),
                    Some((revision, generation)) => {
                        CompositionRegistry::new_at(session, epoch, limits, revision, generation)
                    }
                };
                let port = port.map(|registry| self.port = registry);
                [
                    shown::numbered(rust.map_err(u64::from)),
                    shown::numbered(port.map_err(|refusal| refusal.number())),
                ]
            }
            Port::Router(limit) => {
                let rust = limits::start_router(limit).map(|router| self.rust_router = router);
                let port = PlatformInputRouter::new(limit as usize)
                    .map(|router| self.port_router = router);
                [
                    shown::numbered(rust.map_err(u64::from)),
                    shown::numbered(port.map_err(|refusal| refusal.number())),
                ]
            }
            _ => unreachable!("no start"),
        }
    }

    /// The calls that make a slot; the first generation is added to the Rust.
    fn created(
        &mut self,
        rust: impl FnOnce(
            &mut comparison::CompositionRegistry,
        )
            -> Result<comparison::GenerationalHandle, comparison::CompositionError>,
        port: Result<crate::GenerationalHandle, crate::CompositionError>,
    ) -> [Shown; 2] {
        let rust = limits::create(&mut self.rust, self.first_generation, rust);
        [
            shown::numbered(rust.map_err(u64::from)),
            shown::numbered(port.map_err(|refusal| refusal.number())),
        ]
    }

    fn changes(&mut self, rust: Rust, port: Port) -> [Shown; 2] {
        match (rust, port) {
            (Rust::CreateWindow, Port::CreateWindow) => {
                let port = self.port.create_window();
                self.created(|rust| rust.create_window(), port)
            }
            (Rust::CreateView(a), Port::CreateView(b)) => {
                let port = self.port.create_view(b);
                self.created(|rust| rust.create_view(a), port)
            }
            (Rust::AttachSurface(a), Port::AttachSurface(b)) => {
                let port = self.port.attach_surface(b);
                self.created(|rust| rust.attach_surface(a), port)
            }
            (Rust::CloseWindow(a), Port::CloseWindow(b)) => pair!(self, close_window, (a), (b)),
            (Rust::UpdateViewMetrics(a, b, c), Port::UpdateViewMetrics(d, e, f)) => {
                pair!(self, update_view_metrics, (a, b, c), (d, e, f))
            }
            (Rust::CloseView(a), Port::CloseView(b)) => pair!(self, close_view, (a), (b)),
            (Rust::UpdateSurfaceGeometry(a, b, c), Port::UpdateSurfaceGeometry(d, e, f)) => {
                pair!(self, update_surface_geometry, (a, b, c), (d, e, f))
            }
            (Rust::UpdateSurfaceInputPolicy(a, b, c), Port::UpdateSurfaceInputPolicy(d, e, f)) => {
                pair!(self, update_surface_input_policy, (a, b, c), (d, e, f))
            }
            (Rust::SetFocus(a, b, c), Port::SetFocus(d, e, f)) => {
                pair!(self, set_focus, (a, b, c), (d, e, f))
            }
            (Rust::ReleasePointer(a, b), Port::ReleasePointer(c, d)) => {
                pair!(self, release_pointer, (a, b), (c, d))
            }
            (Rust::ReleasePointerFor(a, b, c), Port::ReleasePointerFor(d, e, f)) => {
                pair!(self, release_pointer_for, (a, b, c), (d, e, f))
            }
            (
                Rust::ReleaseDevicePointerCaptures(a, b),
                Port::ReleaseDevicePointerCaptures(c, d),
            ) => pair!(self, release_device_pointer_captures, (a, b), (c, d)),
            (Rust::BeginIme(a, b), Port::BeginIme(c, d)) => pair!(self, begin_ime, (a, b), (c, d)),
            (Rust::EndIme(a, b), Port::EndIme(c, d)) => pair!(self, end_ime, (a, b), (c, d)),
            (Rust::SuspendViewInput(a, b), Port::SuspendViewInput(c, d)) => {
                pair!(self, suspend_view_input, (a, b), (c, d))
            }
            (Rust::CloseSurface(a), Port::CloseSurface(b)) => pair!(self, close_surface, (a), (b)),
            (Rust::Shutdown, Port::Shutdown) => pair!(self, shutdown, (), ()),
            _ => unreachable!("both readers read the same call"),
        }
    }

    /// The calls with a limit that the source does not have.
    fn limited_changes(&mut self, rust: Rust, port: Port) -> [Shown; 2] {
        match (rust, port) {
            (Rust::RegisterShortcuts(a, b, c), Port::RegisterShortcuts(d, e, f)) => {
                let limit = limits::registrations(&self.rust, a, &b, c);
                self.register(limit, (a, b, c), (d, e, f))
            }
            (Rust::CapturePointer(a, b), Port::CapturePointer(c, d)) => {
                let primary = comparison::CompositionPointerId::PRIMARY;
                let limit = limits::capture(&self.rust, primary, a, b);
                let rust = limited(limit, || shown::result(self.rust.capture_pointer(a, b)));
                [rust, shown::result(self.port.capture_pointer(c, d))]
            }
            (Rust::CapturePointerFor(a, b, c), Port::CapturePointerFor(d, e, f)) => {
                let limit = limits::capture(&self.rust, a, b, c);
                let rust = limited(limit, || shown::result(self.rust.capture_pointer_for(a, b, c)));
                [rust, shown::result(self.port.capture_pointer_for(d, e, f))]
            }
            (Rust::Arbitrate(a, b), Port::Arbitrate(c, d)) => {
                let limit = limits::hits(&self.rust, a, &b);
                let rust = limited(limit, || shown::result(self.rust.arbitrate(a, b)));
                [rust, shown::result(self.port.arbitrate(c, d))]
            }
            _ => unreachable!("both readers read the same call"),
        }
    }

    /// A list of none or one is also handed to the two functions that take one.
    fn register(
        &mut self,
        limit: Result<(), u32>,
        (a, b, c): (comparison::SurfaceHandle, Vec<comparison::SurfaceShortcutRegistration>, u64),
        (d, e, f): (crate::SurfaceHandle, Vec<crate::SurfaceShortcutRegistration>, u64),
    ) -> [Shown; 2] {
        let rust = &mut self.rust;
        let port = &mut self.port;
        let plain = b.iter().all(|one| {
            one.scope == comparison::ShortcutScope::View && one.priority == 0 && one.class_mask != 0
        });
        let third = c.wrapping_add(d.index.into()) % 3;
        if b.len() < 2 && plain && third == 0 {
            let mask = |masks: Option<u64>| masks.unwrap_or(0);
            let (b, e) = (
                mask(b.first().map(|one| one.class_mask)),
                mask(e.first().map(|one| one.class_mask)),
            );
            return [
                limited(limit, || shown::result(rust.set_surface_system_shortcuts(a, b, c))),
                shown::result(port.set_surface_system_shortcuts(d, e, f)),
            ];
        }
        if b.len() < 2 && third == 1 {
            let (b, e) = (b.first().copied(), e.first().copied());
            return [
                limited(limit, || shown::result(rust.register_surface_system_shortcuts(a, b, c))),
                shown::result(port.register_surface_system_shortcuts(d, e, f)),
            ];
        }
        [
            limited(limit, || shown::result(rust.register_surface_system_shortcut_set(a, b, c))),
            shown::result(port.register_surface_system_shortcut_set(d, e, f)),
        ]
    }

    fn reads(&mut self, rust: Rust, port: Port) -> [Shown; 2] {
        match (rust, port) {
            (Rust::ViewWindow(a), Port::ViewWindow(b)) => pair!(self, view_window, (a), (b)),
            (Rust::ViewMetrics(a), Port::ViewMetrics(b)) => pair!(self, view_metrics, (a), (b)),
            (Rust::ViewInputState(a), Port::ViewInputState(b)) => {
                pair!(self, view_input_state, (a), (b))
            }
            (Rust::ViewPointerCaptures(a), Port::ViewPointerCaptures(b)) => {
                pair!(self, view_pointer_captures, (a), (b))
            }
            (Rust::SurfaceDescriptor(a), Port::SurfaceDescriptor(b)) => {
                pair!(self, surface_descriptor, (a), (b))
            }
            (Rust::ViewLayers(a), Port::ViewLayers(b)) => pair!(self, view_layers, (a), (b)),
            (Rust::Traces, Port::Traces) => [
                shown::value(self.rust.traces().collect::<Vec<_>>()),
                shown::value(self.port.traces().collect::<Vec<_>>()),
            ],
            (Rust::Counts, Port::Counts) => {
                let (rust, port) = (&self.rust, &self.port);
                let counts = [
                    [rust.live_window_count(), rust.live_view_count(), rust.live_surface_count()],
                    [port.live_window_count(), port.live_view_count(), port.live_surface_count()],
                ];
                [
                    shown::value((rust.session(), rust.session_epoch(), counts[0])),
                    shown::value((port.session(), port.session_epoch(), counts[1])),
                ]
            }
            (Rust::HitTestStack(a, x, y, length), Port::HitTestStack(b, ..)) => {
                self.hit_test(a, b, (x, y), length)
            }
            (Rust::InversePoint(a, x, y), Port::InversePoint(b, ..)) => [
                shown::value(access::inverse_point(a, x, y)),
                shown::value(self.raw.inverse_point(b, x, y)),
            ],
            _ => unreachable!("both readers read the same call"),
        }
    }

    /// The crate's function has a long buffer; the line's own length is tried by numbers beside it.
    fn hit_test(
        &mut self,
        a: comparison::ViewHandle,
        b: crate::ViewHandle,
        (x, y): (i32, i32),
        length: u64,
    ) -> [Shown; 2] {
        let hits = self.rust.hit_test_stack(a, x, y);
        let count = hits.as_ref().map_or(0, |hits| hits.len() as u64);
        let raw = self.port.with_memory(|memory| self.raw.hit_test(memory, b, (x, y), length));
        let short = limits::buffer(&self.rust, a, length);
        let [rust, port] = [shown::result(hits), shown::result(self.port.hit_test_stack(b, x, y))];
        let expected = match short {
            Err(number) => (number.into(), 0),
            Ok(()) => (rust.number, count),
        };
        let text = |shown: &Shown, raw: (u64, u64)| format!("{} {raw:?}", shown.text);
        [
            Shown { number: expected.0, text: text(&rust, expected) },
            Shown { number: raw.0, text: text(&port, raw) },
        ]
    }
}
