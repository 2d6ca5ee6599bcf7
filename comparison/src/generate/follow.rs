//! What stands at once behind some calls.

use super::{h, Maker, Profile};
use crate::composition::access;
use crate::GenerationalHandle;

impl Maker {
    /// Writes what the call, answered so, is followed by.
    pub fn follow(&mut self, verb: &str, line: &str, answer: Option<u32>) {
        match (verb, answer) {
            ("close_surface", Some(0)) => self.release_after_close(line),
            ("close_surface", Some(22)) => self.close_emptied_view(line),
            ("create_window" | "create_view" | "attach_surface", Some(0)) => self.shut_down_old(),
            // Without digests only for a call or two.
            ("digest", _) if line == "digest 0" => {
                if self.may("counts") {
                    self.emit(b"counts");
                }
                self.emit(b"digest 1");
            }
            _ => {}
        }
    }

    /// An accepted close is followed at once by the panel's release or the release of all.
    fn release_after_close(&mut self, close: &str) {
        let often = match self.profile {
            Profile::Normal => 100,
            Profile::Wild => 50,
            _ => 70,
        };
        if !self.rng.percent(often) {
            return;
        }
        let panel = close.strip_prefix("close_surface ").unwrap_or("0 1");
        let all = self.may("release_all") && (self.rng.percent(12) || !self.may("release_surface"));
        if all {
            self.emit(b"release_all");
        } else if self.may("release_surface") {
            self.emit(format!("release_surface {panel}").as_bytes());
        }
    }

    /// After a close refused 22 the panel's view may be closed while the panel lives on, at times with a Window
    /// registration that a system shortcut of another view then meets.
    fn close_emptied_view(&mut self, close: &str) {
        let panel = close.strip_prefix("close_surface ").unwrap_or("0 1");
        let verb = "register_surface_system_shortcut_set";
        let register = self.may(verb) && self.rng.percent(40);
        if register {
            let revision = self.session.registry.revision();
            self.emit(format!("{verb} {panel} {revision} 1 1 1 0").as_bytes());
        }
        if !self.may("close_view") || !self.rng.percent(50) {
            return;
        }
        if let Some(line) = self.line("close_view") {
            self.emit(line.as_bytes());
        }
        if let (true, Some(view)) = (register && self.may("arbitrate"), self.view()) {
            self.emit(format!("arbitrate {} 10 0 0 0 0 0 0 1 0", h(view)).as_bytes());
        }
    }

    /// Where slots of one kind alone have the last generation, a shutdown is refused for them alone.
    fn shut_down_old(&mut self) {
        let registry = &self.session.registry;
        let kinds =
            [access::windows(registry), access::views(registry), access::surfaces(registry)];
        let is_old = |list: &Vec<GenerationalHandle>| list.iter().any(|h| h.generation == u32::MAX);
        let old = kinds.iter().filter(|list| is_old(list)).count();
        let may = self.profile == Profile::Ends && self.may("shutdown");
        if old == 1 && may && self.rng.percent(40) {
            self.emit(b"shutdown");
        }
    }
}
