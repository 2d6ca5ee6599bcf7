//! Keeps the numbers of a script meaningful while lines are dropped from it: a handle still names what
//! its line made, and a revision that was the current one is so again.

use std::collections::BTreeMap;

use crate::calls::{lines, Session};
use crate::script::split;
use crate::GenerationalHandle;

#[derive(Clone, Copy, Eq, Ord, PartialEq, PartialOrd)]
enum Kind {
    Window,
    View,
    Panel,
}

/// What a number (for a handle: two numbers) of a line stands for.
#[derive(Clone, Copy)]
enum Source {
    /// The handle that the line of this number was answered with.
    Made(usize),
    /// The registry's revision.
    Revision,
    /// The metrics revision of the view that stands at this place.
    Metrics(usize),
}

/// One line, and the places of its numbers that are brought up to date.
#[derive(Clone)]
pub struct Line {
    number: usize,
    pub text: Vec<u8>,
    links: Vec<(usize, Source)>,
}

/// Where the handles of a line stand.
fn handles(verb: &str, numbers: &[i128]) -> Vec<(usize, Kind)> {
    use Kind::*;
    match verb {
        "close_window" | "create_view" => vec![(0, Window)],
        "update_view_metrics"
        | "close_view"
        | "attach_surface"
        | "suspend_view_input"
        | "hit_test_stack"
        | "view_window"
        | "view_metrics"
        | "view_input_state"
        | "view_pointer_captures"
        | "view_layers" => vec![(0, View)],
        "update_surface_geometry"
        | "update_surface_input_policy"
        | "register_surface_system_shortcut_set"
        | "capture_pointer"
        | "release_pointer"
        | "begin_ime"
        | "end_ime"
        | "close_surface"
        | "release_surface"
        | "surface_descriptor" => vec![(0, Panel)],
        "capture_pointer_for" | "release_pointer_for" => vec![(3, Panel)],
        "set_focus" => vec![(0, View), (3, Panel)],
        "route" => vec![(3, Window), (5, View)],
        "arbitrate" => {
            let hits = (11..numbers.len()).step_by(2).map(|place| (place, Panel));
            [(0, View), (7, Panel)].into_iter().chain(hits).collect()
        }
        _ => Vec::new(),
    }
}

/// Where the expected revision of a line stands.
fn revision(verb: &str, numbers: &[i128]) -> Option<(usize, Source)> {
    let last = numbers.len().checked_sub(1)?;
    match verb {
        "register_surface_system_shortcut_set" => Some((2, Source::Revision)),
        "update_surface_geometry"
        | "update_surface_input_policy"
        | "set_focus"
        | "capture_pointer"
        | "capture_pointer_for"
        | "release_pointer"
        | "release_pointer_for"
        | "begin_ime"
        | "end_ime"
        | "suspend_view_input" => Some((last, Source::Revision)),
        "update_view_metrics" => Some((last, Source::Metrics(0))),
        "route" => Some((2, Source::Metrics(5))),
        _ => None,
    }
}

fn maker(verb: &str) -> Option<Kind> {
    match verb {
        "create_window" => Some(Kind::Window),
        "create_view" => Some(Kind::View),
        "attach_surface" => Some(Kind::Panel),
        _ => None,
    }
}

fn handle_at(numbers: &[i128], place: usize) -> Option<GenerationalHandle> {
    Some(GenerationalHandle {
        index: u32::try_from(*numbers.get(place)?).ok()?,
        generation: u32::try_from(*numbers.get(place + 1)?).ok()?,
    })
}

/// The revision that the source names in this state.
fn current(session: &Session, numbers: &[i128], source: Source) -> Option<i128> {
    match source {
        Source::Made(_) => None,
        Source::Revision => Some(i128::from(session.registry.revision())),
        Source::Metrics(view) => {
            let metrics = session.registry.view_metrics(handle_at(numbers, view)?).ok()?;
            Some(i128::from(metrics.revision))
        }
    }
}

/// The lines of a script. A revision is linked only where it was the current one.
pub fn linked(script: &[u8]) -> Vec<Line> {
    let mut session = Session::new();
    let mut makers = BTreeMap::new();
    let mut list = Vec::new();
    for (number, text) in lines(script).enumerate() {
        let mut links = Vec::new();
        let (verb, numbers) = split(text).unwrap_or(("", Vec::new()));
        for (place, kind) in handles(verb, &numbers) {
            let made = handle_at(&numbers, place).and_then(|handle| makers.get(&(kind, handle)));
            links.extend(made.map(|line| (place, Source::Made(*line))));
        }
        if let Some((place, source)) = revision(verb, &numbers) {
            let now = current(&session, &numbers, source);
            if now.is_some() && now == numbers.get(place).copied() {
                links.push((place, source));
            }
        }
        let answer = session.apply(text);
        let handle = answer.and_then(|answer| answer.handle);
        if let (Some(kind), Some(handle)) = (maker(verb), handle) {
            makers.insert((kind, handle), number);
        }
        list.push(Line { number, text: text.to_vec(), links });
    }
    list
}

/// The script of these lines, with the linked numbers brought up to date.
pub fn joined(list: &[Line]) -> Vec<u8> {
    let mut session = Session::new();
    let mut made = BTreeMap::new();
    let mut script = Vec::new();
    for line in list {
        let mut text = line.text.clone();
        if let Some((verb, mut numbers)) = split(&line.text).filter(|_| !line.links.is_empty()) {
            for (place, source) in &line.links {
                match source {
                    Source::Made(maker) => {
                        let handle: Option<&GenerationalHandle> = made.get(maker);
                        if let Some(handle) = handle {
                            numbers[*place] = i128::from(handle.index);
                            numbers[place + 1] = i128::from(handle.generation);
                        }
                    }
                    source => {
                        if let Some(now) = current(&session, &numbers, *source) {
                            numbers[*place] = now;
                        }
                    }
                }
            }
            let fields = numbers.iter().map(|number| format!(" {number}")).collect::<String>();
            text = format!("{verb}{fields}").into_bytes();
        }
        if let Some(handle) = session.apply(&text).and_then(|answer| answer.handle) {
            made.insert(line.number, handle);
        }
        script.extend_from_slice(&text);
        script.push(b'\n');
    }
    script
}

/// The registry's revision before the last of these lines.
pub fn last_revision(list: &[Line]) -> u64 {
    let mut session = Session::new();
    for line in lines(&joined(&list[..list.len().saturating_sub(1)])) {
        session.apply(line);
    }
    session.registry.revision()
}

/// The lines with the last added start's first revision raised, so that fewer lines lead as far.
pub fn started_later(list: &[Line], by: u64) -> Option<Vec<Line>> {
    const FIRST_REVISION: usize = 8;
    let place = list.iter().rposition(|line| line.text.starts_with(b"new_at "))?;
    let (verb, mut numbers) = split(&list[place].text)?;
    let first = numbers.get_mut(FIRST_REVISION)?;
    *first = (*first + i128::from(by)).min(i128::from(u64::MAX));
    let text = numbers.iter().fold(verb.to_string(), |text, number| format!("{text} {number}"));
    let mut later = list.to_vec();
    later[place].text = text.into_bytes();
    Some(later)
}
