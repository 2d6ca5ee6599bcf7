//! The choice of arguments: mostly what exists, at times what does not.

use super::{Fault, Maker, Mode, Profile};
use crate::composition::access;
use crate::platform_input::InputDeviceId;
use crate::{CompositionPointerId, GenerationalHandle, SurfaceDescriptor, SurfaceInputPolicy};

type Handle = GenerationalHandle;

pub fn takes_input(descriptor: &SurfaceDescriptor) -> bool {
    matches!(descriptor.input, SurfaceInputPolicy::Interactive | SurfaceInputPolicy::Exclusive)
}

impl Maker {
    /// Whether the next argument of a faulty line goes wrong.
    pub fn wrong(&mut self) -> bool {
        match &mut self.fault {
            Fault::Nowhere => false,
            Fault::Counting(count) => {
                *count += 1;
                false
            }
            Fault::After(0) => {
                self.fault = Fault::Done(self.rng.percent(30));
                true
            }
            Fault::After(left) => {
                *left -= 1;
                false
            }
            Fault::Done(more) => *more && self.rng.percent(50),
        }
    }

    /// One of the handles, or in a faulty line one that is stale, unused or invalid.
    pub fn handle_of(&mut self, good: &[Handle], live: &[Handle]) -> Option<Handle> {
        if !self.wrong() {
            return self.rng.pick_some(good);
        }
        let near = self.rng.pick_some(live).unwrap_or(Handle { index: 0, generation: 1 });
        let Handle { index, generation } = near;
        Some(match self.rng.below(8) {
            0 | 1 => near,
            2 => Handle { index, generation: generation.wrapping_add(1) },
            3 => Handle { index, generation: generation.wrapping_sub(1) },
            4 => Handle { index: index.wrapping_add(live.len() as u32), generation },
            5 => Handle { index, generation: 0 },
            6 => Handle { index: u32::MAX, generation: 1 },
            _ => {
                Handle { index: self.rng.below(6) as u32, generation: 1 + self.rng.below(4) as u32 }
            }
        })
    }

    pub fn window(&mut self) -> Option<Handle> {
        let live = access::windows(&self.session.registry);
        self.handle_of(&live, &live)
    }

    pub fn view(&mut self) -> Option<Handle> {
        let live = access::views(&self.session.registry);
        self.handle_of(&live, &live)
    }

    /// A view in which `wanted` holds of its number of layers.
    pub fn view_where(&mut self, wanted: impl Fn(usize) -> bool) -> Option<Handle> {
        let live = access::views(&self.session.registry);
        let registry = &self.session.registry;
        let fits =
            |view: &&Handle| registry.view_layers(**view).is_ok_and(|layers| wanted(layers.len()));
        let good = live.iter().filter(fits).copied().collect::<Vec<_>>();
        self.handle_of(&good, &live)
    }

    /// A live panel of which `wanted` holds.
    pub fn panel_where(
        &mut self,
        wanted: impl Fn(Handle, &SurfaceDescriptor) -> bool,
    ) -> Option<Handle> {
        let live = access::surfaces(&self.session.registry);
        let registry = &self.session.registry;
        let fits = |panel: &&Handle| {
            registry
                .surface_descriptor(**panel)
                .is_ok_and(|descriptor| wanted(**panel, &descriptor))
        };
        let good = live.iter().filter(fits).copied().collect::<Vec<_>>();
        // A panel that outlives its view, which only a generation at its end can leave behind.
        let alone = |panel: &&Handle| {
            let descriptor = registry.surface_descriptor(**panel);
            descriptor.is_ok_and(|descriptor| registry.view_window(descriptor.view).is_err())
        };
        let left = live.iter().filter(alone).copied().collect::<Vec<_>>();
        if !left.is_empty() && self.rng.percent(40) {
            return self.handle_of(&left, &live);
        }
        self.handle_of(&good, &live)
    }

    pub fn panel(&mut self) -> Option<Handle> {
        self.panel_where(|_, _| true)
    }

    /// A live panel; often one that has the focus, a capture or a composition.
    pub fn panel_holding(&mut self) -> Option<Handle> {
        let registry = &self.session.registry;
        let mut holding = Vec::new();
        for view in access::views(registry) {
            if let Ok(state) = registry.view_input_state(view) {
                holding.extend([state.focused, state.ime, state.ime].into_iter().flatten());
            }
            let captures = registry.view_pointer_captures(view).unwrap_or_default();
            holding.extend(captures.into_iter().map(|(_, panel)| panel));
        }
        if self.rng.percent(70) {
            return self.panel();
        }
        self.panel_where(|panel, _| holding.contains(&panel))
    }

    /// The expected revision, or a wrong one.
    pub fn revision(&mut self) -> u64 {
        let revision = self.session.registry.revision();
        self.around(revision)
    }

    /// The number itself, or in a faulty line another one.
    pub fn around(&mut self, number: u64) -> u64 {
        if !self.wrong() {
            return number;
        }
        match self.rng.below(5) {
            0 | 1 => number.wrapping_add(1),
            2 | 3 => number.wrapping_sub(1),
            _ => {
                let other = self.rng.next();
                self.rng.pick(&[0, u64::MAX, other])
            }
        }
    }

    /// A device of a small pool; device 1.1 is the one of PRIMARY.
    pub fn device(&mut self) -> InputDeviceId {
        if self.wrong() {
            let zero = self.rng.pick(&[(0, 1), (1, 0), (0, 0)]);
            return InputDeviceId { value: zero.0, generation: zero.1 };
        }
        if matches!(self.mode, Mode::Devices | Mode::Bindings) && self.rng.percent(70) {
            let most = if self.mode == Mode::Devices { 45 } else { 24 };
            let value = 1 + self.rng.below(most);
            let generation = 1 + self.rng.below(2) as u32 * u32::from(value == 7);
            return InputDeviceId { value, generation };
        }
        let (value, generation) =
            self.rng.pick(&[(1, 1), (1, 1), (1, 1), (7, 1), (7, 2), (9, 1), (u64::MAX, u32::MAX)]);
        InputDeviceId { value, generation }
    }

    pub fn contact(&mut self) -> u32 {
        if self.wrong() {
            return u32::MAX;
        }
        if matches!(self.mode, Mode::Captures | Mode::Bindings) {
            return 1 + self.rng.below(40) as u32;
        }
        self.rng.pick(&[0, 0, 0, 1, 2, 9, u32::MAX - 1])
    }

    pub fn pointer(&mut self) -> CompositionPointerId {
        if !self.faulty && self.mode == Mode::Plain && self.rng.percent(30) {
            return CompositionPointerId::PRIMARY;
        }
        let device = self.device();
        CompositionPointerId {
            device: device.value,
            device_generation: device.generation,
            contact: self.contact(),
        }
    }

    /// A mask of few bits, so that registrations and events meet.
    pub fn mask(&mut self) -> u64 {
        if self.wrong() {
            return 0;
        }
        self.some_mask()
    }

    pub fn some_mask(&mut self) -> u64 {
        if self.rng.percent(50) {
            return self.rng.pick(&[1, 3]);
        }
        self.rng.pick(&[1, 2, 4, 3, 6, 8, 12, 1 << 63, (1 << 63) | 1, u64::MAX])
    }

    pub fn z_order(&mut self) -> i32 {
        if self.profile == Profile::Normal || self.rng.percent(80) {
            return self.rng.range(-2, 3) as i32;
        }
        self.rng.pick(&[i32::MIN, i32::MIN + 1, i32::MAX, i32::MAX - 1])
    }

    /// Limits of a start that is accepted, in the order of the fields.
    pub fn start_limits(&mut self) -> [u64; 5] {
        let port = crate::limits::START_LIMITS;
        if self.mode == Mode::Small {
            return [1, 2, 3, 2, 1].map(|least| least + self.rng.below(3));
        }
        if self.mode == Mode::Plain && self.rng.percent(25) {
            let mut limits = port;
            for limit in &mut limits {
                *limit = limit.div_ceil(2) + self.rng.below(*limit / 2 + 1);
            }
            return limits;
        }
        port
    }
}
