//! The writer: the answer to one call, and its line.

use std::fmt::Write;

use crate::composition::{
    ArbitrationResult, CompositionError, CompositionPointerId, InputDelivery,
};
use crate::dump::Column;
use crate::platform_input::{PlatformInputError, SynthesizedInputRelease};
use crate::GenerationalHandle;

/// Columns 2 and 4 to 8 of one answer line.
#[derive(Default)]
pub struct Answer {
    /// The refusal's number, 0 if accepted; none for a line that is no call.
    pub number: Option<u32>,
    pub consumer: Option<GenerationalHandle>,
    pub deliveries: Vec<InputDelivery>,
    pub releases: Vec<SynthesizedInputRelease>,
    pub handle: Option<GenerationalHandle>,
    pub more: Option<Column>,
}

impl Answer {
    pub fn accepted() -> Self {
        Self { number: Some(0), ..Self::default() }
    }

    pub fn refused(number: u32) -> Self {
        Self { number: Some(number), ..Self::default() }
    }

    pub fn no_call() -> Self {
        Self::default()
    }

    pub fn with_handle(mut self, handle: GenerationalHandle) -> Self {
        self.handle = Some(handle);
        self
    }

    pub fn with_more(mut self, write: impl FnOnce(&mut Column)) -> Self {
        let mut column = Column::default();
        write(&mut column);
        self.more = Some(column);
        self
    }

    pub fn with_releases(mut self, releases: Vec<SynthesizedInputRelease>) -> Self {
        self.releases = releases;
        self
    }

    /// Captures that the registry dropped are listed as pointer releases.
    pub fn with_captures(self, list: Vec<(CompositionPointerId, GenerationalHandle)>) -> Self {
        let cancel =
            |(pointer, surface)| SynthesizedInputRelease::PointerCancel { pointer, surface };
        self.with_releases(list.into_iter().map(cancel).collect())
    }

    pub fn with_arbitration(mut self, result: ArbitrationResult) -> Self {
        self.consumer = result.consumed_by;
        self.deliveries = result.deliveries;
        self
    }
}

/// REFUSALS.md's numbers 1 to 22 are the declared order.
pub fn composition_number(error: CompositionError) -> u32 {
    error as u32 + 1
}

/// REFUSALS.md's numbers 31 to 40; a composition refusal keeps its own.
pub fn router_number(error: PlatformInputError) -> u32 {
    match error {
        PlatformInputError::InvalidDevice => 31,
        PlatformInputError::InvalidSequence => 32,
        PlatformInputError::InvalidTimestamp => 33,
        PlatformInputError::InvalidPointer => 34,
        PlatformInputError::InvalidPressure => 35,
        PlatformInputError::InvalidTilt => 36,
        PlatformInputError::InvalidTextSelection => 37,
        PlatformInputError::InvalidShortcut => 38,
        PlatformInputError::InvalidWindow => 39,
        PlatformInputError::Capacity => 40,
        PlatformInputError::Composition(error) => composition_number(error),
    }
}

/// Writes one answer line with its line feed.
pub fn write_line(
    out: &mut String,
    call: u64,
    revision: u64,
    answer: &Answer,
    digests: Option<(u64, u64)>,
) {
    let _ = write!(out, "{call} ");
    match answer.number {
        Some(number) => drop(write!(out, "{number}")),
        None => out.push('?'),
    }
    let _ = write!(out, " {revision} ");
    write_optional(out, answer.consumer);
    out.push(' ');
    write_list(out, &answer.deliveries, |out, delivery| {
        write_handle(out, delivery.surface);
        if delivery.observed {
            out.push('o');
        }
    });
    out.push(' ');
    write_list(out, &answer.releases, write_release);
    out.push(' ');
    write_optional(out, answer.handle);
    out.push(' ');
    out.push_str(answer.more.as_ref().map_or("-", |column| &column.0));
    if let Some((registry, router)) = digests {
        let _ = write!(out, " {registry} {router}");
    }
    out.push('\n');
}

fn write_handle(out: &mut String, handle: GenerationalHandle) {
    let _ = write!(out, "{}.{}", handle.index, handle.generation);
}

fn write_optional(out: &mut String, handle: Option<GenerationalHandle>) {
    match handle {
        Some(handle) => write_handle(out, handle),
        None => out.push('-'),
    }
}

fn write_list<T>(out: &mut String, list: &[T], write: impl Fn(&mut String, &T)) {
    if list.is_empty() {
        out.push('-');
    }
    for (place, item) in list.iter().enumerate() {
        if place > 0 {
            out.push(',');
        }
        write(out, item);
    }
}

fn write_release(out: &mut String, release: &SynthesizedInputRelease) {
    let surface = match release {
        SynthesizedInputRelease::PointerCancel { pointer: p, surface } => {
            let _ = write!(out, "P{}.{}.{}", p.device, p.device_generation, p.contact);
            surface
        }
        SynthesizedInputRelease::KeyUp { device, physical_key, surface } => {
            let _ = write!(out, "K{}.{}.{physical_key}", device.value, device.generation);
            surface
        }
        SynthesizedInputRelease::GamepadDisconnected { device, surface } => {
            let _ = write!(out, "G{}.{}", device.value, device.generation);
            surface
        }
    };
    out.push('@');
    write_handle(out, *surface);
}
