//! The library's three functions and the memory that they take. All unsafe code of the crate stands here.
//!
//! Hosts need this module only if they write calls as numbers themselves; docs/HOSTING.md has the forms. Its functions
//! are safe: a message may hold any numbers, and the memory of a counter is only written by the library.

use crate::GenerationalHandle;

/// The number of the library's interface, `NIBCOBALT_ABI` of the C header, which says when it rises.
pub const ABI: u64 = 2;

/// The status of a message whose numbers are malformed. Nothing is changed then.
pub const MALFORMED: u64 = 1000;
/// The status of a buffer with less than [`ANSWER_BYTES`]. Nothing is changed then.
pub const SHORT_BUFFER: u64 = 1001;

/// The bytes of stack that [`start`] needs in the library.
pub const STACK_START_COUNTER: usize = 717_488;
/// The bytes of stack that [`call`] needs in the library.
pub const STACK_CALL: usize = 1_566_992;
/// The bytes of stack that [`route`] needs in the library.
pub const STACK_ROUTE: usize = 1_321_792;

/// The words of a counter's memory that are its registry.
pub const REGISTRY_WORDS: usize = 5188;
/// The words of a counter's memory that are its router, behind the registry.
pub const ROUTER_WORDS: usize = 612;
/// The numbers of a call.
pub const CALL_NUMBERS: usize = 32;
/// The hits that stand beside a call, at most.
pub const HITS: usize = 16;
/// The registrations that stand beside a call, at most.
pub const REGISTRATIONS: usize = 64;
/// The bytes that a buffer for answers must have. Every answer fits: it is proved of the library.
pub const ANSWER_BYTES: usize = 36_864;

/// The memory of a counter: a registry and a router. It holds zeros, or what the library has written. Two counters
/// cannot be compared: the bytes between their fields are not kept. What the calls read of them can be.
#[derive(Clone, Debug)]
#[repr(C, align(8))]
pub struct Counter {
    registry: [u64; REGISTRY_WORDS],
    router: [u64; ROUTER_WORDS],
}

impl Counter {
    /// Memory of zeros, for a first start. Until then every call that can refuse answers 42.
    pub fn zeroed() -> Box<Self> {
        Box::new(Self { registry: [0; REGISTRY_WORDS], router: [0; ROUTER_WORDS] })
    }

    /// The registry's words. Bytes between its fields mean nothing.
    pub fn registry(&self) -> &[u64; REGISTRY_WORDS] {
        &self.registry
    }

    /// The router's words. Bytes between its fields mean nothing.
    pub fn router(&self) -> &[u64; ROUTER_WORDS] {
        &self.router
    }

    /// Exchanges the routers of two counters.
    pub fn swap_routers(&mut self, other: &mut Self) {
        self.router.swap_with_slice(&mut other.router);
    }
}

/// What a counter is started with.
#[derive(Clone, Copy, Debug, Eq, PartialEq)]
#[repr(C)]
pub struct Start {
    /// The session that owns the registry.
    pub session: GenerationalHandle,
    /// The session's epoch, not 0.
    pub session_epoch: u64,
    /// The most windows, 1 to 8.
    pub max_windows: u64,
    /// The most views, 1 to 16.
    pub max_views: u64,
    /// The most surfaces, 1 to 64.
    pub max_surfaces: u64,
    /// The most surfaces of one view, 1 to 16.
    pub max_surfaces_per_view: u64,
    /// The most traces, 1 to 32.
    pub max_trace_entries: u64,
    /// The registry's first revision; the source's is 0.
    pub first_revision: u64,
    /// The generation of a slot that is used first, not 0; the source's is 1.
    pub first_generation: u32,
    /// The most open presses of the router, 1 to 128.
    pub max_active_bindings: u64,
}

/// The hits beside a call: zeros behind the first `len`.
#[derive(Clone, Copy, Debug, Eq, PartialEq)]
#[repr(C)]
pub struct Hits {
    /// The hits, in the order of the host.
    pub items: [GenerationalHandle; HITS],
    /// How many were handed in; more than 16 is refused 41.
    pub len: u64,
}

/// A registration as numbers.
#[derive(Clone, Copy, Debug, Default, Eq, PartialEq)]
#[repr(C)]
pub struct Registration {
    /// The classes, one bit each.
    pub class_mask: u64,
    /// The scope's place in the declared order.
    pub scope: u64,
    /// The priority's 16 bits.
    pub priority: u64,
}

/// The registrations beside a call: zeros behind the first `len`.
#[derive(Clone, Copy, Debug, Eq, PartialEq)]
#[repr(C)]
pub struct Registrations {
    /// How many were handed in; more than 64 is refused 3.
    pub len: u64,
    /// The registrations, in the order of the host.
    pub items: [Registration; REGISTRATIONS],
}

/// Any call as numbers, and the lists beside it.
#[derive(Clone, Copy, Debug, Eq, PartialEq)]
#[repr(C)]
pub struct Message {
    /// The call's number, its fields, and zeros.
    pub call: [u64; CALL_NUMBERS],
    /// The hits, beside an event that has a stack of hits.
    pub hits: Hits,
    /// The registrations, beside call 17.
    pub registrations: Registrations,
}

/// Call 23 (route) as numbers.
#[derive(Clone, Copy, Debug, Eq, PartialEq)]
#[repr(C)]
pub struct RouteMessage {
    /// The call's number, its fields, and zeros.
    pub call: [u64; CALL_NUMBERS],
}

impl Message {
    /// A message of zeros, which is call 0 (create window).
    pub fn zeroed() -> Self {
        let nobody = GenerationalHandle { index: 0, generation: 0 };
        Self {
            call: [0; CALL_NUMBERS],
            hits: Hits { items: [nobody; HITS], len: 0 },
            registrations: Registrations {
                len: 0,
                items: [Registration::default(); REGISTRATIONS],
            },
        }
    }
}

/// A buffer for answers, lent to the library with each call.
#[derive(Clone, Debug, Eq, PartialEq)]
pub struct Buffer {
    bytes: Vec<u8>,
    answered: usize,
}

impl Buffer {
    /// A buffer of so many bytes. One with less than [`ANSWER_BYTES`] is refused [`SHORT_BUFFER`].
    pub fn of(bytes: usize) -> Self {
        Self { bytes: vec![0; bytes], answered: 0 }
    }

    /// The answer to the last call that was one, as numbers of eight bytes.
    pub fn answer(&self) -> &[u8] {
        &self.bytes[..self.answered]
    }

    fn answered(&mut self, status: Status) -> u64 {
        if status.number == 0 {
            self.answered = status.length.min(self.bytes.len());
        }
        status.number
    }
}

impl Default for Buffer {
    fn default() -> Self {
        Self::of(ANSWER_BYTES)
    }
}

#[repr(C)]
struct Status {
    number: u64,
    length: usize,
}

// The layout of the C header.
const _: () = assert!(size_of::<Counter>() == 46_400);
const _: () = assert!(size_of::<Start>() == 80);
const _: () = assert!(size_of::<Message>() == 1_936);
const _: () = assert!(size_of::<RouteMessage>() == 256);
const _: () = assert!(size_of::<Status>() == 16);

extern "C" {
    fn nibcobalt_start_counter(counter: *mut Counter, start: *mut Start) -> Status;
    fn nibcobalt_call(
        counter: *mut Counter,
        message: *mut Message,
        answer: *mut u8,
        length: usize,
    ) -> Status;
    fn nibcobalt_route(
        counter: *mut Counter,
        message: *mut RouteMessage,
        answer: *mut u8,
        length: usize,
    ) -> Status;
}

/// Starts the registry and the router afresh. Answers 0, or the first refusal's number with nothing changed.
pub fn start(counter: &mut Counter, start: &Start) -> u64 {
    let mut start = *start;
    // SAFETY: both references are exclusive, and the library reads and writes no more than these structs. Each flag in
    // the memory of a counter is 0 or 1, since it holds zeros or what the library has written.
    unsafe { nibcobalt_start_counter(counter, &mut start).number }
}

/// Makes any call. Answers 0 with the answer in the buffer, or [`MALFORMED`] or [`SHORT_BUFFER`] with nothing changed.
pub fn call(counter: &mut Counter, message: &mut Message, buffer: &mut Buffer) -> u64 {
    let (answer, length) = (buffer.bytes.as_mut_ptr(), buffer.bytes.len());
    // SAFETY: as in `start`; every number of a message may be any number, and the buffer has so many bytes.
    buffer.answered(unsafe { nibcobalt_call(counter, message, answer, length) })
}

/// Makes call 23 (route). Answers as [`call`] does.
pub fn route(counter: &mut Counter, message: &mut RouteMessage, buffer: &mut Buffer) -> u64 {
    let (answer, length) = (buffer.bytes.as_mut_ptr(), buffer.bytes.len());
    // SAFETY: as in `call`.
    buffer.answered(unsafe { nibcobalt_route(counter, message, answer, length) })
}
