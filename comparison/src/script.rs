//! The reader: bytes to lines, and a line to a call. A line that is no call gives nothing.

use std::io::{self, BufRead};

use crate::fields::{Fields, POLICIES};
use crate::platform_input::PlatformInputEvent;
use crate::*;

/// A line without its line feed is at most this long.
pub const LONGEST_LINE: usize = 4_096;
/// A line holds at most this many numbers.
pub const MOST_NUMBERS: usize = 256;

type Handle = GenerationalHandle;
type Pointer = CompositionPointerId;

/// One call with its arguments. `u64` at the end of many is the expected revision.
pub enum Call {
    Digest(bool),
    New { session: Handle, epoch: u64, limits: [u64; 5], first: Option<(u64, u32)> },
    Router(u64),
    CreateWindow,
    CloseWindow(Handle),
    CreateView(Handle),
    UpdateViewMetrics(Handle, ViewMetricsUpdate, u64),
    CloseView(Handle),
    AttachSurface(SurfaceDescriptor),
    UpdateSurfaceGeometry(Handle, SurfaceGeometry, u64),
    UpdateSurfaceInputPolicy(Handle, SurfaceInputPolicy, u64),
    RegisterShortcuts(Handle, Vec<SurfaceShortcutRegistration>, u64),
    SetFocus(Handle, Option<Handle>, u64),
    CapturePointer(Handle, u64),
    CapturePointerFor(Pointer, Handle, u64),
    ReleasePointer(Handle, u64),
    ReleasePointerFor(Pointer, Handle, u64),
    ReleaseDevicePointerCaptures(u64, u32),
    BeginIme(Handle, u64),
    EndIme(Handle, u64),
    SuspendViewInput(Handle, u64),
    Arbitrate(Handle, ArbitrationEvent),
    CloseSurface(Handle),
    Shutdown,
    HitTestStack(Handle, i32, i32, u64),
    InversePoint(SurfaceTransform, i32, i32),
    Route(PlatformInputEvent),
    ReleaseSurface(Handle),
    ReleaseAll,
    ViewWindow(Handle),
    ViewMetrics(Handle),
    ViewInputState(Handle),
    ViewPointerCaptures(Handle),
    SurfaceDescriptor(Handle),
    ViewLayers(Handle),
    Traces,
    Counts,
    ActiveBindingCount,
    State,
    RouterState,
}

/// Reads the next line into `line`, without its line feed; false at the end of the input.
/// Of a line that is too long only its first 4,097 bytes are kept.
pub fn read_line<R: BufRead>(input: &mut R, line: &mut Vec<u8>) -> io::Result<bool> {
    line.clear();
    let mut begun = false;
    loop {
        let bytes = input.fill_buf()?;
        if bytes.is_empty() {
            return Ok(begun);
        }
        begun = true;
        let end = bytes.iter().position(|byte| *byte == b'\n');
        let part = &bytes[..end.unwrap_or(bytes.len())];
        let room = (LONGEST_LINE + 1).saturating_sub(line.len());
        line.extend_from_slice(&part[..part.len().min(room)]);
        let used = part.len() + usize::from(end.is_some());
        input.consume(used);
        if end.is_some() {
            return Ok(true);
        }
    }
}

/// An empty line and a comment give no answer line.
pub fn is_skipped(line: &[u8]) -> bool {
    line.first().is_none_or(|byte| *byte == b'#')
}

/// The verb and the numbers of a line, where the line is written as the format says.
pub fn split(line: &[u8]) -> Option<(&str, Vec<i128>)> {
    if line.len() > LONGEST_LINE {
        return None;
    }
    let mut parts = line.split(|byte| *byte == b' ');
    let verb = parts.next()?;
    if verb.is_empty() || !verb.iter().all(|byte| byte.is_ascii_lowercase() || *byte == b'_') {
        return None;
    }
    let numbers = parts.map(number).collect::<Option<Vec<_>>>()?;
    if numbers.len() > MOST_NUMBERS {
        return None;
    }
    Some((std::str::from_utf8(verb).ok()?, numbers))
}

/// A decimal number: no leading zeros, no `+`, `-` only before a negative one.
fn number(bytes: &[u8]) -> Option<i128> {
    let (negative, digits) = match bytes {
        [b'-', rest @ ..] => (true, rest),
        _ => (false, bytes),
    };
    if digits.is_empty() || digits.len() > 20 || !digits.iter().all(u8::is_ascii_digit) {
        return None;
    }
    if digits[0] == b'0' && (digits.len() > 1 || negative) {
        return None;
    }
    let size = digits.iter().fold(0_i128, |size, digit| size * 10 + i128::from(digit - b'0'));
    Some(if negative { -size } else { size })
}

/// The call that a line is.
pub fn parse(line: &[u8]) -> Option<Call> {
    let (verb, numbers) = split(line)?;
    let mut fields = Fields { numbers: &numbers };
    let f = &mut fields;
    let call = match verb {
        "digest" => Call::Digest(f.flag()?),
        "new" => f.start(false)?,
        "new_at" => f.start(true)?,
        "router" => Call::Router(f.take()?),
        "create_window" => Call::CreateWindow,
        "close_window" => Call::CloseWindow(f.handle()?),
        "create_view" => Call::CreateView(f.handle()?),
        "update_view_metrics" => Call::UpdateViewMetrics(f.handle()?, f.metrics()?, f.take()?),
        "close_view" => Call::CloseView(f.handle()?),
        "attach_surface" => Call::AttachSurface(f.descriptor()?),
        "update_surface_geometry" => {
            Call::UpdateSurfaceGeometry(f.handle()?, f.geometry()?, f.take()?)
        }
        "update_surface_input_policy" => {
            Call::UpdateSurfaceInputPolicy(f.handle()?, f.choice(&POLICIES)?, f.take()?)
        }
        "register_surface_system_shortcut_set" => f.registrations()?,
        "set_focus" => Call::SetFocus(f.handle()?, f.optional()?, f.take()?),
        "capture_pointer" => Call::CapturePointer(f.handle()?, f.take()?),
        "capture_pointer_for" => Call::CapturePointerFor(f.pointer()?, f.handle()?, f.take()?),
        "release_pointer" => Call::ReleasePointer(f.handle()?, f.take()?),
        "release_pointer_for" => Call::ReleasePointerFor(f.pointer()?, f.handle()?, f.take()?),
        "release_device_pointer_captures" => {
            Call::ReleaseDevicePointerCaptures(f.take()?, f.take()?)
        }
        "begin_ime" => Call::BeginIme(f.handle()?, f.take()?),
        "end_ime" => Call::EndIme(f.handle()?, f.take()?),
        "suspend_view_input" => Call::SuspendViewInput(f.handle()?, f.take()?),
        "arbitrate" => Call::Arbitrate(f.handle()?, f.arbitration()?),
        "close_surface" => Call::CloseSurface(f.handle()?),
        "shutdown" => Call::Shutdown,
        "hit_test_stack" => Call::HitTestStack(f.handle()?, f.take()?, f.take()?, f.take()?),
        "inverse_point" => Call::InversePoint(f.transform()?, f.take()?, f.take()?),
        "route" => Call::Route(f.event()?),
        "release_surface" => Call::ReleaseSurface(f.handle()?),
        "release_all" => Call::ReleaseAll,
        "view_window" => Call::ViewWindow(f.handle()?),
        "view_metrics" => Call::ViewMetrics(f.handle()?),
        "view_input_state" => Call::ViewInputState(f.handle()?),
        "view_pointer_captures" => Call::ViewPointerCaptures(f.handle()?),
        "surface_descriptor" => Call::SurfaceDescriptor(f.handle()?),
        "view_layers" => Call::ViewLayers(f.handle()?),
        "traces" => Call::Traces,
        "counts" => Call::Counts,
        "active_binding_count" => Call::ActiveBindingCount,
        "state" => Call::State,
        "router_state" => Call::RouterState,
        _ => return None,
    };
    fields.numbers.is_empty().then_some(call)
}
