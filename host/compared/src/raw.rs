//! Calls made as numbers: the two that have no function of the same form in the crate, and `route` as any call.

use nibcobalt::ffi::{self, Buffer, Counter, Message, Start};
use nibcobalt::{SessionHandle, SurfaceTransform, ViewHandle};

const SOME_START: Start = Start {
    session: SessionHandle { index: 0, generation: 1 },
    session_epoch: 1,
    max_windows: 1,
    max_views: 1,
    max_surfaces: 1,
    max_surfaces_per_view: 1,
    max_trace_entries: 1,
    first_revision: 0,
    first_generation: 1,
    max_active_bindings: 1,
};

pub struct Raw {
    counter: Box<Counter>,
    message: Message,
    buffer: Buffer,
}

impl Default for Raw {
    fn default() -> Self {
        let mut counter = Counter::zeroed();
        assert_eq!(ffi::start(&mut counter, &SOME_START), 0);
        Self { counter, message: Message::zeroed(), buffer: Buffer::default() }
    }
}

fn bits(number: i32) -> u64 {
    u64::from(number as u32)
}

/// The answer's numbers: the first, and those behind the front part, which is 11 numbers where all its lists are empty.
fn numbers(buffer: &Buffer) -> (u64, Vec<u64>) {
    let bytes = buffer.answer().chunks_exact(8);
    let all: Vec<u64> =
        bytes.map(|chunk| u64::from_le_bytes(chunk.try_into().expect("eight bytes"))).collect();
    assert!(all[0] == 0 || all.len() == 11, "a refusal shows nothing");
    (all[0], all[11..].to_vec())
}

/// A line has the modifiers as bits of one number, signed numbers with their sign, and a button also where none has
/// changed.
fn route_numbers(line: &[i128]) -> Vec<u64> {
    const MODIFIERS: usize = 10;
    const KIND: usize = 11;
    let mut all = vec![23];
    all.extend(line[..MODIFIERS].iter().map(|number| *number as u64));
    all.extend((0..6).map(|bit| (line[MODIFIERS] >> bit & 1) as u64));
    let is_pointer = line[KIND] == 0;
    for (place, number) in line[KIND..].iter().enumerate() {
        let is_tilt = is_pointer && matches!(place, 8 | 9);
        let no_button = is_pointer && place == 12 && line[KIND + 11] == 0;
        all.push(match number {
            _ if no_button => 0,
            ..0 if is_tilt => (*number as i16 as u16).into(),
            ..0 => (*number as i32 as u32).into(),
            _ => *number as u64,
        });
    }
    all
}

impl Raw {
    fn call(&mut self, call: &[u64]) {
        self.message.call = [0; 32];
        self.message.call[..call.len()].copy_from_slice(call);
    }

    /// Call 36, which the source keeps private.
    pub fn inverse_point(&mut self, t: SurfaceTransform, x: i32, y: i32) -> Option<(i32, i32)> {
        let signed = [t.m11_q16, t.m12_q16, t.m21_q16, t.m22_q16];
        let [m11, m12, m21, m22] = signed.map(bits);
        let (dx, dy) = (bits(t.translate_x_milli), bits(t.translate_y_milli));
        self.call(&[36, m11, m12, m21, m22, dx, dy, bits(x), bits(y)]);
        assert_eq!(ffi::call(&mut self.counter, &mut self.message, &mut self.buffer), 0);
        let (number, shown) = numbers(&self.buffer);
        assert_eq!(number, 0);
        let lowered = |number: u64| (number as i64 - (1 << 31)) as i32;
        (shown[0] == 1).then(|| (lowered(shown[1]), lowered(shown[2])))
    }

    /// Call 23 by the function for any call, its numbers taken from the script's line. Answers the refusal's number.
    pub fn route(&mut self, counter: &mut Counter, line: &[i128]) -> u64 {
        self.call(&route_numbers(line));
        assert_eq!(ffi::call(counter, &mut self.message, &mut self.buffer), 0);
        numbers(&self.buffer).0
    }

    /// Call 35 with a length of the buffer, which the crate always has: the refusal's number and how many hits there
    /// are.
    pub fn hit_test(
        &mut self,
        memory: &Counter,
        view: ViewHandle,
        (x, y): (i32, i32),
        length: u64,
    ) -> (u64, u64) {
        let (index, generation) = (view.index.into(), view.generation.into());
        self.call(&[35, index, generation, bits(x), bits(y), length]);
        let mut counter = memory.clone();
        assert_eq!(ffi::call(&mut counter, &mut self.message, &mut self.buffer), 0);
        let (number, shown) = numbers(&self.buffer);
        (number, shown.first().copied().unwrap_or(0))
    }
}
