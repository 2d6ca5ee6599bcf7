//! One line for each verb. None where nothing sensible can be asked at this state.

use super::events::{k, optional};
use super::pick::takes_input;
use super::{h, Maker, Mode, Profile};
use crate::composition::access;
use crate::platform_input::access as router_access;
use crate::CompositionPointerId;

impl Maker {
    pub fn line(&mut self, verb: &str) -> Option<String> {
        let fields = match verb {
            "digest" => u8::from(self.rng.percent(70)).to_string(),
            "new" => self.start_fields(),
            "new_at" => self.added_start_fields(),
            "router" => self.router_limit().to_string(),
            "create_window" => self.create_window()?,
            "close_window" => self.close_window()?,
            "create_view" => self.create_view()?,
            "update_view_metrics" => self.metrics()?,
            "close_view" => h(self.view_where(|layers| layers == 0)?),
            "attach_surface" => self.attach()?,
            "update_surface_geometry" => {
                format!("{} {} {}", h(self.panel()?), self.geometry(), self.revision())
            }
            "update_surface_input_policy" => {
                format!("{} {} {}", h(self.panel()?), self.rng.below(4), self.revision())
            }
            "register_surface_system_shortcut_set" => self.registrations()?,
            "set_focus" => self.focus()?,
            "capture_pointer" => {
                format!("{} {}", h(self.panel_where(|_, d| takes_input(d))?), self.revision())
            }
            "capture_pointer_for" => self.capture_pointer_for()?,
            "release_pointer" => self.release_pointer()?,
            "release_pointer_for" => self.release_pointer_for()?,
            "release_device_pointer_captures" => {
                let device = self.device();
                format!("{} {}", device.value, device.generation)
            }
            "begin_ime" | "end_ime" => self.ime(verb == "begin_ime")?,
            "suspend_view_input" => format!("{} {}", h(self.view()?), self.revision()),
            "arbitrate" => return self.arbitrate(),
            "close_surface" => h(self.panel_holding()?),
            "shutdown" => {
                let empty = self.session.registry.live_window_count() == 0;
                (!empty || self.rng.percent(5)).then(String::new)?
            }
            "hit_test_stack" => {
                let view = self.view()?;
                let (x, y) = self.point();
                let long = self.rng.pick(&[32, 32, 33, 64, 1000, u64::MAX]);
                let length = if self.wrong() { self.rng.pick(&[0, 1, 16, 31]) } else { long };
                format!("{} {x} {y} {length}", h(view))
            }
            "inverse_point" => self.inverse_point(),
            "route" => return self.route(),
            // A live panel may be released too; its presses end.
            "release_surface" => h(self.panel()?),
            "view_window"
            | "view_metrics"
            | "view_input_state"
            | "view_pointer_captures"
            | "view_layers" => h(self.view()?),
            "surface_descriptor" => h(self.panel()?),
            _ => String::new(),
        };
        let space = if fields.is_empty() { "" } else { " " };
        Some(format!("{verb}{space}{fields}"))
    }

    /// The fields of `new`; a line that is meant to be refused has one thing wrong.
    fn start_fields(&mut self) -> String {
        let mut limits = self.start_limits();
        let mut session = (self.rng.below(3), 1 + self.rng.below(2));
        let mut epoch = 1 + self.rng.below(3);
        let refused = self.calls > 3 && (self.mode == Mode::Starts || self.faulty);
        if refused && self.rng.percent(70) {
            let place = self.rng.below(5) as usize;
            match self.rng.below(9) {
                0 => session.1 = 0,
                1 => session.0 = u64::from(u32::MAX),
                2 => epoch = 0,
                3 | 4 => limits[place] = 0,
                5 | 6 => limits[place] += 1 + self.rng.below(70),
                7 => limits[place] = u64::from(u32::MAX) + self.rng.below(2),
                _ => limits[place] = u64::MAX,
            }
            if self.rng.percent(20) {
                limits[self.rng.below(5) as usize] = self.rng.pick(&[0, 65, 1 << 32]);
            }
        }
        let [windows, views, panels, per_view, traces] = limits;
        format!(
            "{} {} {epoch} {windows} {views} {panels} {per_view} {traces}",
            session.0, session.1
        )
    }

    fn added_start_fields(&mut self) -> String {
        let start = self.start_fields();
        let last_revision = u64::MAX;
        let (mut revision, mut generation) = match (self.profile, self.rng.below(10)) {
            (Profile::Ends, 0..=4) => (last_revision - self.rng.below(90), 1),
            (Profile::Ends, 5..=7) => (self.rng.below(3), u32::MAX - self.rng.below(4) as u32),
            (Profile::Ends, _) => {
                (last_revision - self.rng.below(150), u32::MAX - self.rng.below(4) as u32)
            }
            _ => (self.rng.below(1000), 1 + self.rng.below(9) as u32),
        };
        let late = self.calls > 3;
        if late && self.wrong() {
            generation = 0;
        }
        if late && self.wrong() {
            revision = last_revision;
        }
        format!("{start} {revision} {generation}")
    }

    fn router_limit(&mut self) -> u64 {
        let refused = self.calls > 3 && (self.mode == Mode::Starts || self.faulty);
        if refused && self.rng.percent(60) {
            return self.rng.pick(&[0, 129, 130, u64::MAX, 1 << 32]);
        }
        match self.mode {
            Mode::Small => 1 + self.rng.below(5),
            Mode::Plain if self.rng.percent(20) => 8 + self.rng.below(100),
            _ => 128,
        }
    }

    /// A full table is asked for more only in some lines.
    fn if_room(&mut self, room: bool) -> Option<()> {
        let often = if self.profile == Profile::Limits { 35 } else { 4 };
        (room || self.faulty || self.rng.percent(often)).then_some(())
    }

    fn create_window(&mut self) -> Option<String> {
        let registry = &self.session.registry;
        let room = registry.live_window_count() < access::limits(registry).max_windows;
        self.if_room(room)?;
        Some(String::new())
    }

    fn close_window(&mut self) -> Option<String> {
        let registry = &self.session.registry;
        let live = access::windows(registry);
        let used = access::views(registry)
            .into_iter()
            .filter_map(|view| registry.view_window(view).ok())
            .collect::<Vec<_>>();
        let good = live.iter().filter(|window| !used.contains(window)).copied().collect::<Vec<_>>();
        self.handle_of(&good, &live).map(h)
    }

    fn create_view(&mut self) -> Option<String> {
        let registry = &self.session.registry;
        let room = registry.live_view_count() < access::limits(registry).max_views;
        self.if_room(room)?;
        self.window().map(h)
    }

    fn metrics(&mut self) -> Option<String> {
        let view = self.view()?;
        let revision = self.session.registry.view_metrics(view).map_or(1, |m| m.revision);
        let revision = self.around(revision);
        let (x, y) = (self.edge(), self.edge());
        let any = self.rng.next() as u32 | 1;
        let width = self.rng.pick(&[0, 1, 1000, 1000, u32::MAX, any]);
        let height = self.rng.pick(&[0, 1, 1000, 1000, u32::MAX, any]);
        let flat = width == 0 || height == 0;
        let (mut framebuffer_x, mut framebuffer_y) = if flat { (0, 0) } else { (1 + any / 2, 800) };
        let mut scale = self.rng.pick(&[65_536, 131_072, 1, u32::MAX]);
        let mut split = |side: u32| {
            let one = self.rng.pick(&[0, 0, side / 2, side]);
            (one, self.rng.pick(&[0, side - one]))
        };
        let (mut left, mut right) = split(width);
        let (mut top, mut bottom) = split(height);
        if self.wrong() {
            match self.rng.below(7) {
                // Sums that leave 32 bits.
                5 => (left, right) = (u32::MAX, 1 + self.rng.below(9) as u32),
                6 => (top, bottom) = (u32::MAX - 3, 4),
                0 => scale = 0,
                1 => left = left.wrapping_add(width - left).wrapping_add(1),
                2 => top = u32::MAX,
                3 => framebuffer_x = u32::from(flat),
                _ => framebuffer_y = u32::from(flat),
            }
        }
        Some(format!(
            "{} {x} {y} {width} {height} {framebuffer_x} {framebuffer_y} {scale} \
             {top} {right} {bottom} {left} {} {revision}",
            h(view),
            self.rng.below(3)
        ))
    }

    fn attach(&mut self) -> Option<String> {
        let registry = &self.session.registry;
        let limits = access::limits(registry);
        let room = registry.live_surface_count() < limits.max_surfaces;
        self.if_room(room)?;
        let most = limits.max_surfaces_per_view;
        let any = self.profile == Profile::Limits && self.rng.percent(50);
        let view = self.view_where(|layers| any || layers < most)?;
        let policy = self.rng.weighted(&[15, 20, 50, 15]);
        let text = u8::from(self.rng.percent(60));
        Some(format!(
            "{} {} {} {policy} {text} {}",
            h(view),
            self.rng.below(3),
            self.z_order(),
            self.geometry()
        ))
    }

    fn registrations(&mut self) -> Option<String> {
        let panel = self.panel_where(|_, descriptor| takes_input(descriptor))?;
        let revision = self.revision();
        let too_many = self.wrong();
        let count = match self.mode {
            _ if too_many => 64 + self.rng.below(7),
            Mode::Registrations => self.rng.pick(&[64, 64, 63, 60, 32, 5, 0]),
            _ => self.rng.below(5),
        };
        let room = access::registrations_besides(&self.session.registry, panel) + count as usize;
        if self.mode == Mode::Plain && room > 256 {
            return None;
        }
        let mut line = format!("{} {revision} {count}", h(panel));
        let zero = if self.wrong() { self.rng.below(count + 1) } else { count };
        // Registrations that are alike, so that the view, the z order and the handle decide between them.
        let alike = self.rng.percent(35).then(|| 1 + self.rng.below(2));
        for place in 0..count {
            let priority = self.rng.pick(&[0, 0, 0, 0, 0, 1, -1, i16::MIN, i16::MAX]);
            let mask = if place == zero { 0 } else { self.some_mask() };
            line += &match alike {
                Some(scope) => format!(" {} {scope} 0", mask.min(1)),
                None => format!(" {mask} {} {priority}", self.rng.below(3)),
            };
        }
        Some(line)
    }

    fn focus(&mut self) -> Option<String> {
        if self.rng.percent(12) {
            return Some(format!("{} 0 0 0 {}", h(self.view()?), self.revision()));
        }
        let refused = self.wrong();
        let panel = self.panel_where(|_, descriptor| takes_input(descriptor) != refused)?;
        let own = self.session.registry.surface_descriptor(panel).map(|d| d.view);
        let live = access::views(&self.session.registry);
        let view = match own {
            Ok(view) => self.handle_of(&[view], &live)?,
            _ => self.view()?,
        };
        Some(format!("{} {} {}", h(view), optional(Some(panel)), self.revision()))
    }

    /// Some pointer, or that of an open press: then often for the panel of that press.
    fn capture_pointer_for(&mut self) -> Option<String> {
        let presses = router_access::pointer_presses(&self.session.router);
        let mut panel = self.panel_where(|_, descriptor| takes_input(descriptor))?;
        let mut pointer = self.pointer();
        if let (Some(press), false) = (self.rng.pick_some(&presses), self.faulty) {
            if self.rng.percent(40) {
                pointer = press.0;
                panel = if self.rng.percent(70) { press.1 } else { panel };
            }
        }
        Some(format!("{} {} {}", k(pointer), h(panel), self.revision()))
    }

    fn release_pointer(&mut self) -> Option<String> {
        let registry = &self.session.registry;
        let captures = access::views(registry)
            .into_iter()
            .filter_map(|view| registry.view_input_state(view).ok()?.pointer_capture)
            .collect::<Vec<_>>();
        let panel = self.panel_where(|panel, _| captures.contains(&panel))?;
        Some(format!("{} {}", h(panel), self.revision()))
    }

    fn release_pointer_for(&mut self) -> Option<String> {
        let registry = &self.session.registry;
        let captures = access::views(registry)
            .into_iter()
            .flat_map(|view| registry.view_pointer_captures(view).unwrap_or_default())
            .collect::<Vec<_>>();
        let live = access::surfaces(registry);
        if self.profile == Profile::Ends && self.rng.percent(40) {
            let panel = self.panel()?;
            return Some(format!("{} {} {}", k(self.pointer()), h(panel), self.revision()));
        }
        let (pointer, panel) = self.rng.pick_some(&captures)?;
        let panel = self.handle_of(&[panel], &live)?;
        let pointer = match self.wrong() {
            true if self.rng.percent(30) => CompositionPointerId::PRIMARY,
            true => self.pointer(),
            false => pointer,
        };
        Some(format!("{} {} {}", k(pointer), h(panel), self.revision()))
    }

    fn ime(&mut self, begin: bool) -> Option<String> {
        let registry = &self.session.registry;
        let owners = access::views(registry)
            .into_iter()
            .filter_map(|view| registry.view_input_state(view).ok())
            .filter_map(|state| if begin { state.focused } else { state.ime })
            .collect::<Vec<_>>();
        let panel =
            self.panel_where(|panel, d| owners.contains(&panel) && (d.accepts_text || !begin))?;
        Some(format!("{} {}", h(panel), self.revision()))
    }

    fn inverse_point(&mut self) -> String {
        let mut matrix = self.matrix();
        if self.wrong() {
            matrix = [self.edge(), 0, 0, 0];
        }
        let [m11, m12, m21, m22] = matrix;
        let (tx, ty) = if self.rng.percent(70) { (0, 0) } else { (self.edge(), self.edge()) };
        let transform = [m11, m12, m21, m22, tx, ty];
        let (x, y) = match self.rng.below(12) {
            0..=2 => self.cancelling(transform),
            3..=5 => self.half(transform),
            6 | 7 => return self.brink(),
            _ => (self.edge(), self.edge()),
        };
        format!("{m11} {m12} {m21} {m22} {tx} {ty} {x} {y}")
    }
}
