//! Makes a script with a difference short: lines are dropped while a difference remains.

use crate::calls::{lines, run_script};
use crate::compare::Port;
use crate::link::{joined, last_revision, linked, started_later, Line};

/// The other program is run at most this often for one script.
const MOST_RUNS: usize = 3_000;

/// The place (from 0) of the first answer line that differs or stands on one side only.
pub fn first_difference(expected: &[u8], got: &[u8]) -> Option<usize> {
    if expected == got {
        return None;
    }
    let (mut left, mut right) = (lines(expected), lines(got));
    let mut place = 0;
    loop {
        match (left.next(), right.next()) {
            (Some(one), Some(other)) if one == other => place += 1,
            (None, None) => return Some(place.max(1) - 1),
            _ => return Some(place),
        }
    }
}

struct Shrinker<'a, 'b> {
    port: &'a mut Port<'b>,
    runs: usize,
}

impl Shrinker<'_, '_> {
    /// The lines up to the one whose answer differs, if a difference remains.
    fn still_differs(&mut self, list: &[Line]) -> Option<Vec<Line>> {
        self.runs += 1;
        let script = joined(list);
        let expected = run_script(&script);
        let got = (self.port)(&script);
        let place = first_difference(expected.as_bytes(), &got)?;
        let mut answers = 0;
        let mut end = 0;
        for line in list {
            end += 1;
            answers += usize::from(!crate::script::is_skipped(&line.text));
            if answers > place {
                break;
            }
        }
        Some(list[..end].to_vec())
    }

    /// The same with the added start moved on by the revisions that the dropped lines had taken.
    fn differs_later(&mut self, rest: &[Line], before: &[Line]) -> Option<Vec<Line>> {
        let by = last_revision(before).checked_sub(last_revision(rest)).filter(|by| *by > 0)?;
        self.still_differs(&started_later(rest, by)?)
    }

    fn shortest(&mut self, mut list: Vec<Line>) -> Vec<Line> {
        let mut size = list.len().div_ceil(2).max(1);
        loop {
            let mut from = 0;
            let mut dropped = false;
            while from < list.len() && self.runs < MOST_RUNS {
                let end = (from + size).min(list.len());
                let mut rest = list[..from].to_vec();
                rest.extend_from_slice(&list[end..]);
                match self.still_differs(&rest).or_else(|| self.differs_later(&rest, &list)) {
                    Some(shorter) => {
                        list = shorter;
                        dropped = true;
                    }
                    None => from = end,
                }
            }
            if self.runs >= MOST_RUNS || (size == 1 && !dropped) {
                return list;
            }
            size = if dropped && size == 1 { 1 } else { size.div_ceil(2).max(1) };
        }
    }
}

/// Where the lists in column 8 of two answers part.
fn first_number(driver: &str, port: &str) -> String {
    let list = |line: &str| -> Vec<String> {
        let column = line.split(' ').nth(7).unwrap_or("");
        column.split(',').map(str::to_string).collect()
    };
    let (left, right) = (list(driver), list(port));
    let most = left.len().max(right.len());
    match (0..most).find(|place| left.get(*place) != right.get(*place)) {
        Some(place) if driver != port => {
            let of = |list: &[String]| list.get(place).map_or("nothing".to_string(), String::clone);
            format!("  column 8, number {}: driver {}, port {}\n", place + 1, of(&left), of(&right))
        }
        _ => String::new(),
    }
}

/// The report: the shortest script found, the differing answers, and both states after it.
pub fn shrink(script: &[u8], port: &mut Port) -> String {
    let mut shrinker = Shrinker { port, runs: 0 };
    let whole = linked(script);
    let list = match shrinker.still_differs(&whole) {
        Some(list) => shrinker.shortest(list),
        None => whole,
    };
    let mut text = joined(&list);
    let runs = shrinker.runs;
    let shown = String::from_utf8_lossy(&text).into_owned();
    let expected = run_script(&text);
    let got = port(&text);
    let place = first_difference(expected.as_bytes(), &got);
    text.extend_from_slice(b"state\nrouter_state\n");
    let expected = run_script(&text);
    let got = port(&text);
    let of = |output: &[u8], place: Option<usize>| {
        let line = place.and_then(|place| lines(output).nth(place).map(<[u8]>::to_vec));
        line.map_or("(no line)".to_string(), |line| String::from_utf8_lossy(&line).into_owned())
    };
    let answers = lines(expected.as_bytes()).count();
    let mut out = format!("shortest script found ({} lines, {runs} runs):\n{shown}", list.len());
    let places = [
        ("answer", place),
        ("state", answers.checked_sub(2)),
        ("router_state", answers.checked_sub(1)),
    ];
    for (name, place) in places {
        let (driver, port) = (of(expected.as_bytes(), place), of(&got, place));
        out += &format!("{name}\n  driver: {driver}\n  port:   {port}\n");
        out += &first_number(&driver, &port);
    }
    out
}
