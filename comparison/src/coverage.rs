//! What scripts reach: which answers each verb gives, and which kinds of lists stand in the answers.

mod lists;
mod reachable;

use std::collections::BTreeMap;
use std::fmt::Write;

use crate::calls::{lines, Session};
use crate::script::{parse, split};

pub use lists::{kinds, Kind};
pub use reachable::pairs;

/// How often each pair of a label and an answer, and each kind of list, occurs. A label is a verb, or
/// `route` or `arbitrate` with its kind.
#[derive(Default)]
pub struct Coverage {
    calls: u64,
    no_calls: u64,
    pairs: BTreeMap<(String, u32), u64>,
    lists: BTreeMap<Kind, u64>,
}

/// Where the kind stands among the numbers of a line.
fn kind_place(verb: &str) -> Option<usize> {
    match verb {
        "route" => Some(11),
        "arbitrate" => Some(2),
        _ => None,
    }
}

impl Coverage {
    /// Runs a script on the driver and adds what it reaches.
    pub fn add(&mut self, script: &[u8]) {
        let mut session = Session::new();
        for line in lines(script) {
            self.add_line(&mut session, line);
        }
    }

    fn add_line(&mut self, session: &mut Session, line: &[u8]) {
        let call = parse(line);
        let left_out = call.as_ref().and_then(|call| lists::capture_left_out(session, call));
        let Some(answer) = session.apply(line) else {
            return;
        };
        self.calls += 1;
        let (Some(call), Some(number), Some((verb, numbers))) = (call, answer.number, split(line))
        else {
            self.no_calls += 1;
            return;
        };
        *self.pairs.entry((verb.to_string(), number)).or_default() += 1;
        if let Some(place) = kind_place(verb) {
            *self.pairs.entry((format!("{verb} {}", numbers[place]), number)).or_default() += 1;
        }
        if number != 0 {
            return;
        }
        let mut found = left_out.into_iter().collect();
        lists::of_answer(session, &call, &answer, &mut found);
        for kind in found {
            *self.lists.entry(kind).or_default() += 1;
        }
    }

    pub fn calls(&self) -> u64 {
        self.calls
    }

    /// The reachable pairs that do not occur.
    pub fn missing_pairs(&self) -> Vec<(String, u32)> {
        pairs().into_iter().filter(|pair| !self.pairs.contains_key(pair)).collect()
    }

    /// The kinds of lists that do not occur.
    pub fn missing_lists(&self) -> Vec<Kind> {
        kinds().into_iter().filter(|kind| !self.lists.contains_key(kind)).collect()
    }

    /// Answers that the table says no call gives.
    pub fn unexpected(&self) -> Vec<(String, u32)> {
        let known = pairs();
        self.pairs.keys().filter(|pair| !known.contains(pair)).cloned().collect()
    }

    /// All counts, one line for each label and one for each kind of list, and what is missing.
    pub fn report(&self) -> String {
        let mut out = format!("{} calls, {} of them no calls\n", self.calls, self.no_calls);
        let mut last = "";
        for ((label, number), count) in &self.pairs {
            if label != last {
                let _ = write!(out, "{}{label}:", if last.is_empty() { "" } else { "\n" });
                last = label;
            }
            let _ = write!(out, " {number}x{count}");
        }
        out.push('\n');
        for kind in kinds() {
            let count = self.lists.get(&kind).unwrap_or(&0);
            let _ = writeln!(out, "{}, {}: {count}", kind.0, kind.1);
        }
        for (label, number) in self.missing_pairs() {
            let _ = writeln!(out, "missing: {label} answered {number}");
        }
        for (label, number) in self.unexpected() {
            let _ = writeln!(out, "not in the table: {label} answered {number}");
        }
        for (name, kind) in self.missing_lists() {
            let _ = writeln!(out, "missing: {name}, {kind}");
        }
        out
    }
}
