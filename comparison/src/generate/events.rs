//! The lines of `route` and `arbitrate`.

use super::{h, Maker, Mode, Profile};
use crate::calls::Session;
use crate::composition::access;
use crate::platform_input::access as router_access;
use crate::platform_input::InputDeviceId;
use crate::{CompositionPointerId, GenerationalHandle};

impl Maker {
    pub fn arbitrate(&mut self) -> Option<String> {
        let view = self.view()?;
        let kind = if self.rng.percent(12) { 10 } else { self.rng.below(11) };
        let pointer = self.pointer();
        let panels = access::surfaces(&self.session.registry);
        let own = self.session.registry.view_layers(view).unwrap_or_default();
        let own = own.iter().map(|layer| layer.surface).collect::<Vec<_>>();
        let target = match self.rng.below(6) {
            0 => None,
            1 => self.handle_of(&panels, &panels),
            _ => self.rng.pick_some(&own),
        };
        let mask = if self.rng.percent(5) { 0 } else { self.mask() };
        let mut hits = Vec::new();
        if matches!(kind, 1 | 3) {
            let most = if self.wrong() { 20 } else { 4 };
            let full = self.profile == Profile::Limits && self.rng.percent(10);
            let count = if full { 15 + self.rng.below(4) } else { self.rng.below(most + 1) };
            for _ in 0..count {
                let from = if self.rng.percent(60) { &own } else { &panels };
                let panel = self.handle_of(from, &panels);
                hits.push(panel.unwrap_or(GenerationalHandle { index: 3, generation: 1 }));
            }
        }
        // What the kind does not have is 0, in wild scripts anything.
        let loose = self.profile == Profile::Wild && self.rng.percent(30);
        let pointer = match kind {
            2 | 3 => k(pointer),
            _ if loose => k(pointer),
            _ => "0 0 0".to_string(),
        };
        let target = match (kind, target) {
            (0 | 2 | 5 | 7, target) => optional(target),
            (_, Some(target)) if loose => format!("{} {}", self.rng.below(2), h(target)),
            _ => optional(None),
        };
        let mask = if kind == 10 || loose { mask } else { 0 };
        let list = hits.iter().map(|hit| format!(" {}", h(*hit))).collect::<String>();
        Some(format!("arbitrate {} {kind} {pointer} {target} {mask} {}{list}", h(view), hits.len()))
    }

    pub fn route(&mut self) -> Option<String> {
        let (device, payload) = self.payload();
        let by_focus = payload.starts_with(['2', '4', '5', '6']);
        let view = if by_focus { self.focused_view()? } else { self.view()? };
        let registry = &self.session.registry;
        let window = registry.view_window(view).unwrap_or(GenerationalHandle::INVALID);
        let metrics = registry.view_metrics(view).map_or(0, |metrics| metrics.revision);
        let router = &self.session.router;
        let last = router_access::last_sequence(router, device).unwrap_or(0);
        let time = router_access::last_time(router);
        let windows = access::windows(&self.session.registry);
        let window = self.handle_of(&[window], &windows)?;
        let metrics = self.around(metrics);
        let sequence = if self.wrong() {
            self.rng.pick(&[0, last, last.saturating_sub(1)])
        } else {
            let step = 1 + self.rng.below(3);
            last.saturating_add(step)
        };
        let time = if self.wrong() {
            time.saturating_sub(1 + self.rng.below(3))
        } else {
            time.saturating_add(self.rng.below(4))
        };
        let (sequence, time) = self.far(sequence, time);
        let kind = self.rng.below(5);
        let modifiers = self.rng.pick(&[0, 0, 0, 1, 2, 63]);
        let InputDeviceId { value, generation } = device;
        Some(format!(
            "route {sequence} {time} {metrics} {} {} {value} {generation} {kind} {modifiers} {payload}",
            h(window),
            h(view)
        ))
    }

    /// A view; often one in which a panel has the focus.
    fn focused_view(&mut self) -> Option<GenerationalHandle> {
        let registry = &self.session.registry;
        let has_focus = |view: &GenerationalHandle| {
            registry.view_input_state(*view).is_ok_and(|state| state.focused.is_some())
        };
        let live = access::views(registry);
        let focused = live.iter().copied().filter(has_focus).collect::<Vec<_>>();
        let often = self.rng.percent(70) && !focused.is_empty();
        self.handle_of(if often { &focused } else { &live }, &live)
    }

    /// A line of `route` with nothing wrong in its header.
    pub fn event_line(
        &self,
        view: GenerationalHandle,
        device: InputDeviceId,
        payload: &str,
    ) -> Option<String> {
        let Session { registry, router, .. } = &self.session;
        let (window, metrics) =
            (registry.view_window(view).ok()?, registry.view_metrics(view).ok()?);
        let sequence = 1 + router_access::last_sequence(router, device).unwrap_or(0);
        let (time, revision) = (router_access::last_time(router), metrics.revision);
        let InputDeviceId { value, generation } = device;
        Some(format!(
            "route {sequence} {time} {revision} {} {} {value} {generation} 1 0 {payload}",
            h(window),
            h(view)
        ))
    }

    /// At times the last sequence or time there is.
    fn far(&mut self, sequence: u64, time: u64) -> (u64, u64) {
        if !matches!(self.profile, Profile::Wild | Profile::Ends) || !self.rng.percent(1) {
            return (sequence, time);
        }
        if self.rng.percent(50) {
            (u64::MAX, time)
        } else {
            (sequence, u64::MAX)
        }
    }

    /// The payload kind with its fields, and the device that sends it.
    fn payload(&mut self) -> (InputDeviceId, String) {
        let weights = match (self.profile, self.mode) {
            (Profile::Geometry, _) => [70, 15, 3, 3, 2, 2, 2, 1, 1, 1],
            (_, Mode::Bindings) => [60, 1, 50, 2, 1, 1, 15, 0, 0, 0],
            (_, Mode::Devices) => [40, 5, 20, 8, 4, 4, 10, 1, 1, 1],
            _ => [44, 5, 20, 8, 4, 5, 9, 3, 3, 4],
        };
        let device = self.device();
        match self.rng.weighted(&weights) {
            0 => self.pointer_payload(device),
            1 => {
                let (x, y) = self.point();
                let (contact, unit) = (self.contact(), self.rng.below(3));
                let (dx, dy) = (self.rng.range(-9, 9), self.edge());
                (device, format!("1 {contact} {x} {y} {dx} {dy} {unit}"))
            }
            2 => self.key_payload(device),
            3 => {
                let (mask, system) = (self.mask(), u8::from(self.rng.percent(75)));
                (device, format!("3 {mask} {system}"))
            }
            4 => (device, format!("4 {}", self.length())),
            5 => {
                let (phase, length) = (self.rng.below(4), self.length());
                let start = self.rng.below(length + 1);
                let end = start + self.rng.below(length - start + 1);
                let (start, end) = match self.wrong() {
                    true if self.rng.percent(50) => (end + 1, end),
                    true => (start, length + 1),
                    false => (start, end),
                };
                (device, format!("5 {phase} {length} {start} {end}"))
            }
            6 => {
                let open = router_access::gamepads(&self.session.router);
                let connected = self.mode == Mode::Bindings || self.rng.percent(55);
                let device = match self.rng.pick_some(&open) {
                    Some(open) if !connected && self.rng.percent(80) => open,
                    _ if self.rng.percent(50) => self.pressing_device(device),
                    _ => device,
                };
                (device, format!("6 {} {}", u8::from(connected), self.rng.below(2)))
            }
            7 => (device, format!("7 {}", u8::from(self.rng.percent(40)))),
            8 => (device, format!("8 {}", u8::from(self.rng.percent(40)))),
            _ => (self.pressing_device(device), "9".to_string()),
        }
    }

    /// Often a device that has an open press, one with a key and a gamepad first; else the one given.
    fn pressing_device(&mut self, device: InputDeviceId) -> InputDeviceId {
        let router = &self.session.router;
        let of_pointer = |pointer: CompositionPointerId| InputDeviceId {
            value: pointer.device,
            generation: pointer.device_generation,
        };
        let pointers = router_access::pointers(router).into_iter().map(of_pointer);
        let keys = router_access::keys(router).into_iter().map(|(device, _)| device);
        let (pointers, keys) = (pointers.collect::<Vec<_>>(), keys.collect::<Vec<_>>());
        let mut gamepads = router_access::gamepads(router);
        if gamepads.iter().any(|gamepad| keys.contains(gamepad)) {
            gamepads.retain(|gamepad| keys.contains(gamepad));
        }
        let kinds = [pointers, keys, gamepads];
        let kind = self.rng.below(3) as usize;
        match self.rng.pick_some(&kinds[kind]) {
            Some(open) if !self.faulty && self.rng.percent(60) => open,
            _ => device,
        }
    }

    fn length(&mut self) -> u64 {
        self.rng.pick(&[0, 1, 3, 3, 7, 100, 65_535])
    }

    fn pointer_payload(&mut self, device: InputDeviceId) -> (InputDeviceId, String) {
        let phases = match self.mode {
            Mode::Bindings => [60, 20, 3, 1],
            Mode::Small => [55, 10, 15, 5],
            _ => [40, 20, 30, 9],
        };
        let phase = self.rng.weighted(&phases);
        let mut device = device;
        let mut contact = self.contact();
        let open = router_access::pointers(&self.session.router);
        if let Some(open) = self.rng.pick_some(&open) {
            if phase != 0 && !self.faulty && self.rng.percent(75) {
                device = InputDeviceId { value: open.device, generation: open.device_generation };
                contact = open.contact;
            }
        }
        let (x, y) = self.point();
        let (dx, dy) = (self.rng.range(-9, 9), self.rng.range(-9, 9));
        let pressure = if self.wrong() {
            self.rng.pick(&[32_769, 65_535])
        } else {
            self.rng.pick(&[0, 16_384, 32_768])
        };
        let tilt =
            |wrong: bool, any: i64| if wrong { [-91, 91, -32_768][any as usize % 3] } else { any };
        let (wrong_x, any_x) = (self.wrong(), self.rng.range(-90, 90).abs());
        let (wrong_y, any_y) = (self.wrong(), self.rng.pick(&[-90, 0, 45, 90]));
        let (tilt_x, tilt_y) = (tilt(wrong_x, any_x), tilt(wrong_y, i64::abs(any_y)));
        let tilt_y = if wrong_y { tilt_y } else { any_y };
        let buttons = self.rng.pick(&[0_u32, 1, 3, u32::MAX]);
        let button = match self.rng.below(3) {
            0 => "0 0".to_string(),
            1 => "1 0".to_string(),
            _ => format!("1 {}", self.rng.below(256)),
        };
        let text = format!(
            "0 {contact} {phase} {x} {y} {dx} {dy} {pressure} {tilt_x} {tilt_y} {buttons} {button}"
        );
        (device, text)
    }

    fn key_payload(&mut self, device: InputDeviceId) -> (InputDeviceId, String) {
        let filling = self.mode == Mode::Bindings;
        let phase = u8::from(self.rng.percent(if filling { 4 } else { 45 }));
        let mut device = device;
        let mut key = match filling {
            true => self.rng.below(50) as u32,
            false => self.rng.pick(&[0, 4, 5, 30, 65, u32::MAX]),
        };
        let open = router_access::keys(&self.session.router);
        if let Some(open) = self.rng.pick_some(&open) {
            if phase == 1 && self.rng.percent(75) {
                (device, key) = open;
            }
        }
        let repeat = u8::from(self.rng.percent(20));
        (device, format!("2 {phase} {key} {repeat}"))
    }
}

/// K: a pointer.
pub fn k(pointer: CompositionPointerId) -> String {
    format!("{} {} {}", pointer.device, pointer.device_generation, pointer.contact)
}

/// O: an optional handle.
pub fn optional(handle: Option<GenerationalHandle>) -> String {
    handle.map_or("0 0 0".to_string(), |handle| format!("1 {}", h(handle)))
}
