//! Faults put into copies of the Rust, and after how many calls the generated scripts notice them.

use std::fs;
use std::io;
use std::path::Path;

use crate::calls::{lines, run_script};
use crate::compare::Plan;
use crate::generate::script;
use crate::program::run;
use crate::script::is_skipped;
use crate::shrink::first_difference;

/// Where the Rust files stand in their source folder.
const FOLDER: &str = "lang/crates/vo-app-runtime/src";
const FILES: [&str; 2] = ["composition.rs", "platform_input.rs"];

/// One fault: in which file, what it is, which text becomes which.
pub struct Fault {
    pub name: String,
    pub file: String,
    pub what: String,
    from: String,
    to: String,
}

impl Fault {
    /// Reads a fault file: the Rust file's name, a line on what is wrong, `replace` and the text, `with` and the new text.
    pub fn read(name: &str, text: &str) -> Option<Self> {
        let (head, texts) = text.split_once("\n--- replace\n")?;
        let (from, to) = texts.split_once("--- with\n")?;
        let (file, what) = head.split_once('\n')?;
        let known = FILES.contains(&file) && !what.contains('\n') && !from.is_empty() && from != to;
        known.then(|| Self {
            name: name.to_string(),
            file: file.to_string(),
            what: what.to_string(),
            from: from.to_string(),
            to: to.to_string(),
        })
    }

    /// The faulty text of the Rust file; none if the text to replace does not stand in it exactly once.
    pub fn applied(&self, source: &str) -> Option<String> {
        (source.matches(&self.from).count() == 1).then(|| source.replacen(&self.from, &self.to, 1))
    }
}

/// Writes a copy of the Rust sources into a folder, with the fault if there is one.
pub fn write_copy(sources: &Path, copy: &Path, fault: Option<&Fault>) -> io::Result<()> {
    fs::create_dir_all(copy.join(FOLDER))?;
    for file in FILES {
        let mut text = fs::read_to_string(sources.join(FOLDER).join(file))?;
        if let Some(fault) = fault.filter(|fault| fault.file == file) {
            text = fault.applied(&text).ok_or_else(|| {
                let message = format!("{}: its text does not stand once in {file}", fault.name);
                io::Error::other(message)
            })?;
        }
        fs::write(copy.join(FOLDER).join(file), text)?;
    }
    Ok(())
}

/// All faults of a folder, by name.
pub fn all(folder: &Path) -> io::Result<Vec<Fault>> {
    let mut faults = Vec::new();
    for entry in fs::read_dir(folder)? {
        let path = entry?.path();
        let name = path.file_stem().unwrap_or_default().to_string_lossy().into_owned();
        let fault = Fault::read(&name, &fs::read_to_string(&path)?);
        let fault = fault.ok_or_else(|| {
            io::Error::other(format!("{} is not written as a fault", path.display()))
        })?;
        faults.push(fault);
    }
    faults.sort_by(|one, other| one.name.cmp(&other.name));
    Ok(faults)
}

/// Where the first difference from the unchanged Rust stood.
pub struct Noticed {
    pub scripts: u64,
    pub calls: u64,
    pub profile: &'static str,
    pub verb: String,
    /// The faulty program stopped instead of answering.
    pub stopped: bool,
}

/// Runs generated scripts on the faulty program until one of its answers differs.
pub fn notice(plan: &Plan, program: &str) -> Option<Noticed> {
    let mut calls = 0;
    for turn in 0..plan.count {
        let profile = plan.profiles[(turn % plan.profiles.len() as u64) as usize];
        let text = script(plan.seed.wrapping_add(turn), plan.calls, profile, &plan.verbs);
        let expected = run_script(&text);
        let (got, remark) = run(program, &text);
        let mut answered = lines(&text).filter(|line| !is_skipped(line));
        match first_difference(expected.as_bytes(), &got) {
            None => calls += answered.count() as u64,
            Some(place) => {
                let line = answered.nth(place).unwrap_or_default();
                let text = String::from_utf8_lossy(line).into_owned();
                return Some(Noticed {
                    scripts: turn + 1,
                    calls: calls + place as u64 + 1,
                    profile: profile.name(),
                    verb: text.split(' ').next().unwrap_or_default().to_string(),
                    stopped: remark.is_some() && lines(&got).count() <= place,
                });
            }
        }
    }
    None
}
