//! Writes scripts. A model of what exists, the driver's own library run beside, keeps most calls valid.

mod events;
mod fill;
mod follow;
mod geometry;
mod mutate;
mod pick;
mod rng;
mod verbs;

use crate::calls::Session;
use crate::GenerationalHandle;
use rng::Rng;

#[derive(Clone, Copy, Debug, Eq, PartialEq)]
pub enum Profile {
    /// No shutdown, each accepted close followed by its release, no revision or generation at its end.
    Normal,
    /// Anything, also lines that are no calls.
    Wild,
    /// Small configured limits and the port limits; tables are filled.
    Limits,
    /// Extreme matrices, rectangles and points.
    Geometry,
    /// Revisions and generations near their last values.
    Ends,
}

impl Profile {
    pub const ALL: [Self; 5] = [Self::Normal, Self::Wild, Self::Limits, Self::Geometry, Self::Ends];

    pub fn name(self) -> &'static str {
        match self {
            Self::Normal => "normal",
            Self::Wild => "wild",
            Self::Limits => "limits",
            Self::Geometry => "geometry",
            Self::Ends => "ends",
        }
    }

    pub fn named(name: &str) -> Option<Self> {
        Self::ALL.into_iter().find(|profile| profile.name() == name)
    }
}

/// What a script of the profile `limits` fills, or whose generations one of `ends` wears out. `Small` has small limits.
#[derive(Clone, Copy, Debug, Eq, PartialEq)]
enum Mode {
    Plain,
    Small,
    Captures,
    Devices,
    Registrations,
    Panels,
    Bindings,
    Starts,
    OldWindows,
    OldViews,
    OldPanels,
}

/// Each verb and how often it stands in the profiles normal, wild, limits, geometry, ends.
const WEIGHTS: [(&str, [u64; 5]); 41] = [
    ("digest", [0, 1, 0, 0, 0]),
    ("new", [0, 1, 1, 1, 1]),
    ("new_at", [0, 1, 1, 1, 4]),
    ("router", [0, 1, 2, 1, 1]),
    ("create_window", [3, 4, 8, 2, 8]),
    ("close_window", [2, 3, 4, 1, 8]),
    ("create_view", [5, 5, 10, 3, 10]),
    ("update_view_metrics", [5, 5, 2, 2, 3]),
    ("close_view", [2, 3, 5, 1, 10]),
    ("attach_surface", [12, 12, 25, 10, 24]),
    ("update_surface_geometry", [4, 4, 1, 14, 2]),
    ("update_surface_input_policy", [5, 5, 2, 2, 3]),
    ("register_surface_system_shortcut_set", [8, 8, 12, 1, 6]),
    ("set_focus", [14, 12, 4, 3, 10]),
    ("capture_pointer", [5, 5, 5, 1, 5]),
    ("capture_pointer_for", [8, 8, 16, 3, 8]),
    ("release_pointer", [3, 4, 2, 1, 3]),
    ("release_pointer_for", [4, 5, 2, 1, 3]),
    ("release_device_pointer_captures", [2, 2, 1, 1, 2]),
    ("begin_ime", [8, 8, 1, 1, 10]),
    ("end_ime", [3, 3, 1, 1, 4]),
    ("suspend_view_input", [2, 2, 1, 1, 2]),
    ("arbitrate", [14, 14, 10, 4, 10]),
    ("close_surface", [7, 7, 8, 4, 22]),
    ("shutdown", [0, 1, 1, 1, 5]),
    ("hit_test_stack", [4, 4, 2, 25, 1]),
    ("inverse_point", [2, 2, 1, 25, 1]),
    ("route", [70, 55, 60, 35, 35]),
    ("release_surface", [2, 4, 2, 1, 3]),
    ("release_all", [1, 2, 1, 1, 1]),
    ("view_window", [1, 1, 1, 1, 1]),
    ("view_metrics", [1, 1, 1, 1, 1]),
    ("view_input_state", [1, 1, 1, 1, 1]),
    ("view_pointer_captures", [1, 1, 1, 1, 1]),
    ("surface_descriptor", [1, 1, 1, 1, 1]),
    ("view_layers", [1, 1, 1, 1, 1]),
    ("traces", [1, 1, 1, 1, 1]),
    ("counts", [1, 1, 1, 1, 1]),
    ("active_binding_count", [1, 1, 1, 1, 1]),
    ("state", [1, 1, 1, 1, 1]),
    ("router_state", [1, 1, 1, 1, 1]),
];

/// All verbs of the format.
pub fn all_verbs() -> Vec<&'static str> {
    WEIGHTS.iter().map(|(verb, _)| *verb).collect()
}

/// One script being written, and the state that it has led to.
struct Maker {
    rng: Rng,
    session: Session,
    profile: Profile,
    mode: Mode,
    allowed: Vec<&'static str>,
    script: Vec<u8>,
    calls: usize,
    /// About so many calls the script is to have.
    most: usize,
    /// The line being made is to have a wrong argument.
    faulty: bool,
    fault: Fault,
}

/// Where a faulty line goes wrong. Its arguments are counted first, then one of them is chosen.
#[derive(Clone, Copy)]
enum Fault {
    Nowhere,
    Counting(u64),
    After(u64),
    /// The chosen one has gone wrong; others may too.
    Done(bool),
}

/// A script of about `calls` calls, using only the verbs named.
pub fn script(seed: u64, calls: usize, profile: Profile, verbs: &[&'static str]) -> Vec<u8> {
    let mut rng = Rng::new(seed.wrapping_mul(0x1_0000_0001).wrapping_add(profile as u64));
    let modes = [
        Mode::Small,
        Mode::Small,
        Mode::Captures,
        Mode::Devices,
        Mode::Registrations,
        Mode::Panels,
        Mode::Bindings,
        Mode::Starts,
    ];
    let old = [Mode::Plain, Mode::OldWindows, Mode::OldViews, Mode::OldPanels];
    let mode = match profile {
        Profile::Limits => rng.pick(&modes),
        Profile::Ends => rng.pick(&old),
        Profile::Normal if rng.percent(15) => Mode::Small,
        _ => Mode::Plain,
    };
    let mut maker = Maker {
        rng,
        session: Session::new(),
        profile,
        mode,
        allowed: verbs.to_vec(),
        script: Vec::new(),
        calls: 0,
        most: calls,
        faulty: false,
        fault: Fault::Nowhere,
    };
    maker.start();
    maker.furnish();
    if profile == Profile::Limits && maker.rng.percent(50) {
        maker.fill();
    }
    while maker.calls < calls {
        maker.step();
    }
    maker.script
}

impl Maker {
    fn may(&self, verb: &str) -> bool {
        self.allowed.contains(&verb)
    }

    /// Writes a line and runs it on the model; answers the number, none where no call was made.
    fn emit(&mut self, line: &[u8]) -> Option<u32> {
        self.script.extend_from_slice(line);
        self.script.push(b'\n');
        let answer = self.session.apply(line);
        self.calls += usize::from(answer.is_some());
        answer.and_then(|answer| answer.number)
    }

    /// The first lines: digests on, then the two starts.
    fn start(&mut self) {
        if self.may("digest") {
            self.emit(b"digest 1");
        }
        let ends = self.profile == Profile::Ends;
        let added = self.may("new_at") && (ends || !self.may("new") || self.rng.percent(15));
        for verb in [if added { "new_at" } else { "new" }, "router"] {
            if let (true, Some(line)) = (self.may(verb), self.line(verb)) {
                self.emit(line.as_bytes());
            }
        }
    }

    /// A few windows, views and panels, so that the calls that follow find something.
    fn furnish(&mut self) {
        let (windows, views) = (1 + self.rng.below(2), 1 + self.rng.below(3));
        let panels = 2 + self.rng.below(5);
        let most = [("create_window", windows), ("create_view", views), ("attach_surface", panels)];
        for (verb, count) in most {
            for _ in 0..count {
                if let (true, Some(line)) = (self.may(verb), self.line(verb)) {
                    self.emit(line.as_bytes());
                }
            }
        }
    }

    /// One more call, with what must follow it.
    fn step(&mut self) {
        let errors = match self.profile {
            Profile::Normal => 16,
            Profile::Wild => 30,
            _ => 12,
        };
        self.faulty = self.rng.percent(errors);
        let weights = self.weights();
        for turn in 0..40 {
            let place = self.rng.weighted(&weights);
            if weights[place] == 0 {
                break;
            }
            let verb = match self.missing() {
                Some(verb) if turn == 0 && self.rng.percent(60) => verb,
                _ => WEIGHTS[place].0,
            };
            if let Some(line) = self.line_or_faulty(verb) {
                self.faulty = false;
                return self.step_with(verb, line);
            }
        }
        // A comment stands for the call that could not be found, so that the loop ends.
        self.calls += 1;
        self.faulty = false;
        self.emit(b"# nothing to do");
    }

    /// What creates the kind of thing that there is none of.
    fn missing(&self) -> Option<&'static str> {
        let registry = &self.session.registry;
        let live = [
            ("create_window", registry.live_window_count()),
            ("create_view", registry.live_view_count()),
            ("attach_surface", registry.live_surface_count()),
        ];
        live.into_iter().find(|(verb, count)| *count == 0 && self.may(verb)).map(|(verb, _)| verb)
    }

    /// A line for the verb; a faulty one has one argument that may be wrong, seldom more.
    fn line_or_faulty(&mut self, verb: &str) -> Option<String> {
        if !self.faulty {
            return self.line(verb);
        }
        let before = self.rng.clone();
        self.fault = Fault::Counting(0);
        let line = self.line(verb);
        let Fault::Counting(count) = self.fault else { unreachable!("only counted") };
        self.fault = Fault::Nowhere;
        if count == 0 {
            return line;
        }
        // The same line once more, but wrong at the chosen argument.
        let chosen = self.rng.below(count);
        let after = std::mem::replace(&mut self.rng, before);
        self.fault = Fault::After(chosen);
        let line = self.line(verb);
        self.rng = after;
        self.fault = Fault::Nowhere;
        line
    }

    fn step_with(&mut self, verb: &str, line: String) {
        if self.profile == Profile::Wild && self.rng.percent(4) {
            let line = mutate::mutated(&mut self.rng, line.as_bytes());
            self.emit(&line);
            return;
        }
        let answer = self.emit(line.as_bytes());
        self.follow(verb, &line, answer);
    }

    fn weights(&self) -> Vec<u64> {
        let release = self.may("release_surface") || self.may("release_all");
        WEIGHTS
            .iter()
            .map(|(verb, weights)| {
                let normal = self.profile == Profile::Normal;
                let unreleased = *verb == "close_surface" && self.may("route") && !release;
                if !self.may(verb) || (normal && unreleased) {
                    return 0;
                }
                weights[self.profile as usize] * self.mode_factor(verb)
            })
            .collect()
    }

    fn mode_factor(&self, verb: &str) -> u64 {
        let often = match self.mode {
            Mode::Plain | Mode::Small => &[][..],
            Mode::Captures => &["capture_pointer_for"],
            Mode::Devices | Mode::Bindings => &["route"],
            Mode::Registrations => &["register_surface_system_shortcut_set"],
            Mode::Panels => &["attach_surface", "create_view"],
            Mode::Starts => &["new", "new_at", "router"],
            Mode::OldWindows => &["create_window", "close_window"],
            Mode::OldViews => &["create_view", "close_view"],
            Mode::OldPanels => &["attach_surface", "close_surface"],
        };
        match (self.mode, verb) {
            (Mode::OldWindows | Mode::OldViews | Mode::OldPanels, _) => {
                1 + 2 * u64::from(often.contains(&verb) || verb == "shutdown")
            }
            _ if often.contains(&verb) => 12,
            (Mode::Starts, _) => 1,
            // A table that is to fill is not emptied often.
            (_, "new" | "new_at" | "router" | "release_all" | "shutdown") if !often.is_empty() => 0,
            (Mode::Captures, "suspend_view_input" | "release_device_pointer_captures") => 0,
            (Mode::Captures | Mode::Panels, "close_surface") => 0,
            _ => 1,
        }
    }
}

/// A handle as two numbers.
fn h(handle: GenerationalHandle) -> String {
    format!("{} {}", handle.index, handle.generation)
}
