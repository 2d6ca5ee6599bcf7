//! Feeds generated scripts to another program and to the driver, and compares all answer lines.

use std::collections::BTreeMap;
use std::fmt::Write;

use crate::calls::{lines, run_script};
use crate::generate::{all_verbs, script, Profile};
use crate::script::is_skipped;
use crate::shrink::{first_difference, shrink};

/// The other program: a whole script in, its whole output out.
pub type Port<'a> = dyn FnMut(&[u8]) -> Vec<u8> + 'a;

/// What is to be compared.
pub struct Plan {
    pub count: u64,
    pub calls: usize,
    pub seed: u64,
    pub profiles: Vec<Profile>,
    pub verbs: Vec<&'static str>,
}

/// About this many calls go into one run of the other program.
const CALLS_A_RUN: usize = 20_000;

/// Answers by number, `?` for lines that are no calls.
#[derive(Default)]
pub struct Counts {
    scripts: u64,
    calls: u64,
    by_number: BTreeMap<String, u64>,
    by_profile: BTreeMap<&'static str, (u64, u64)>,
    by_verb: BTreeMap<String, (u64, u64)>,
}

struct Script {
    seed: u64,
    profile: Profile,
    text: Vec<u8>,
}

/// The verbs of a list with commas; none if one is unknown.
pub fn verbs_named(names: &str) -> Option<Vec<&'static str>> {
    let all = all_verbs();
    names.split(',').map(|name| all.iter().copied().find(|verb| *verb == name)).collect()
}

/// Compares; the counts, or the report of the first difference.
pub fn compare(plan: &Plan, port: &mut Port) -> Result<Counts, String> {
    let mut counts = Counts::default();
    // Without its starts a script does not begin anew, so each then has a run of its own.
    let has = |verb| plan.verbs.contains(&verb);
    let batched = (has("new") || has("new_at")) && has("router");
    let mut batch = Vec::new();
    let mut calls = 0;
    for turn in 0..plan.count {
        let seed = plan.seed.wrapping_add(turn);
        let profile = plan.profiles[(turn % plan.profiles.len() as u64) as usize];
        let text = script(seed, plan.calls, profile, &plan.verbs);
        calls += plan.calls;
        batch.push(Script { seed, profile, text });
        if !batched || calls >= CALLS_A_RUN || turn + 1 == plan.count {
            run_batch(&batch, port, &mut counts)?;
            batch.clear();
            calls = 0;
        }
    }
    Ok(counts)
}

fn run_batch(batch: &[Script], port: &mut Port, counts: &mut Counts) -> Result<(), String> {
    let whole = batch.iter().flat_map(|script| script.text.iter().copied()).collect::<Vec<_>>();
    let expected = run_script(&whole);
    let got = port(&whole);
    if expected.as_bytes() == got {
        count(batch, &expected, counts);
        return Ok(());
    }
    let place = first_difference(expected.as_bytes(), &got).unwrap_or(0);
    let mut answers = 0;
    for (number, script) in batch.iter().enumerate() {
        answers += lines(&script.text).filter(|line| !is_skipped(line)).count();
        if place < answers || number + 1 == batch.len() {
            let mut failing = script.text.clone();
            let alone = port(&failing);
            if run_script(&failing).as_bytes() == alone {
                // The difference needs what stood before; the scripts up to here go in together.
                failing = batch[..=number].iter().flat_map(|s| s.text.iter().copied()).collect();
            }
            let head =
                format!("difference: seed {}, profile {}\n", script.seed, script.profile.name());
            return Err(head + &shrink(&failing, port));
        }
    }
    Err("a difference after the last script\n".to_string())
}

fn count(batch: &[Script], expected: &str, counts: &mut Counts) {
    let mut answers = expected.lines();
    for script in batch {
        counts.scripts += 1;
        for line in lines(&script.text).filter(|line| !is_skipped(line)) {
            let answer = answers.next().and_then(|answer| answer.split(' ').nth(1)).unwrap_or("?");
            let accepted = u64::from(answer == "0");
            counts.calls += 1;
            *counts.by_number.entry(answer.to_string()).or_default() += 1;
            let verb = match answer {
                "?" => "(no call)".to_string(),
                _ => String::from_utf8_lossy(line).split(' ').next().unwrap_or("").to_string(),
            };
            for (all, good) in [
                counts.by_profile.entry(script.profile.name()).or_default(),
                counts.by_verb.entry(verb).or_default(),
            ] {
                *all += 1;
                *good += accepted;
            }
        }
    }
}

impl Counts {
    pub fn report(&self) -> String {
        let accepted = self.by_number.get("0").copied().unwrap_or(0);
        let mut out = format!(
            "no difference: {} scripts, {} calls, {accepted} accepted\n",
            self.scripts, self.calls
        );
        let mut refused =
            self.by_number.iter().filter(|(number, _)| *number != "0").collect::<Vec<_>>();
        refused.sort_by_key(|(number, _)| number.parse::<u32>().unwrap_or(u32::MAX));
        out += "refused:";
        for (number, count) in refused {
            let _ = write!(out, " {number}: {count}");
        }
        out += "\nprofile or verb: calls, accepted\n";
        let by_profile = self.by_profile.iter().map(|(name, counts)| (name.to_string(), counts));
        let by_verb = self.by_verb.iter().map(|(name, counts)| (name.clone(), counts));
        for (name, (all, good)) in by_profile.chain(by_verb) {
            let _ = writeln!(out, "{name}: {all}, {good} ({}%)", good * 100 / (*all).max(1));
        }
        out
    }
}
