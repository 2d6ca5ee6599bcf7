//! Puts each fault into a copy of the Rust and tells when the generated scripts notice it:
//! try_faults [SEED] [NAME ..]. Ends with 1 if one is not noticed.

use std::io;
use std::path::{Path, PathBuf};
use std::process::{exit, Command};

use comparison::compare::Plan;
use comparison::faults::{all, notice, write_copy, Fault};
use comparison::generate::{all_verbs, Profile};

/// A fault that this many scripts do not notice is not noticed.
const MOST_SCRIPTS: u64 = 3_000;
const CALLS: usize = 200;
/// So many scripts show no difference on a copy without a fault.
const WITHOUT_FAULT: u64 = 300;

fn main() -> io::Result<()> {
    let package = Path::new(env!("CARGO_MANIFEST_DIR"));
    let mut names = std::env::args().skip(1).collect::<Vec<_>>();
    let seed = names.first().and_then(|word| word.parse().ok());
    names.drain(..usize::from(seed.is_some()));
    let mut faults = all(&package.join("faults"))?;
    faults.retain(|fault| names.is_empty() || names.contains(&fault.name));
    let mut plan = Plan {
        count: WITHOUT_FAULT,
        calls: CALLS,
        seed: seed.unwrap_or(1),
        profiles: Profile::ALL.to_vec(),
        verbs: all_verbs(),
    };
    if notice(&plan, &built_driver(package, None)?.to_string_lossy()).is_some() {
        println!("a copy without a fault differs");
        exit(1);
    }
    plan.count = MOST_SCRIPTS;
    let width = faults.iter().map(|fault| fault.name.len()).max().unwrap_or(0);
    println!("{:width$} scripts   calls verb", "fault");
    let mut unnoticed = 0;
    for fault in &faults {
        let driver = built_driver(package, Some(fault))?;
        let name = &fault.name;
        match notice(&plan, &driver.to_string_lossy()) {
            Some(found) => {
                let stop = if found.stopped { ", where it stopped" } else { "" };
                let (scripts, calls, verb) = (found.scripts, found.calls, found.verb);
                println!("{name:width$} {scripts:7} {calls:7} {verb} ({}{stop})", found.profile);
            }
            None => {
                unnoticed += 1;
                println!("{name:width$} not noticed by {MOST_SCRIPTS} scripts: {}", fault.what);
            }
        }
    }
    println!("{} faults, {} noticed", faults.len(), faults.len() - unnoticed);
    exit(i32::from(unnoticed > 0 || faults.is_empty()));
}

/// Builds the driver from a copy of the Rust, with the fault if there is one.
fn built_driver(package: &Path, fault: Option<&Fault>) -> io::Result<PathBuf> {
    let scratch = package.join("target/faults");
    // A folder of its own for each, so that no build is taken for that of another fault.
    let name = fault.map_or("unchanged", |fault| &fault.name);
    let copy = scratch.join("source").join(name);
    write_copy(Path::new(comparison::SOURCES), &copy, fault)?;
    let built = Command::new("cargo")
        .args(["build", "--quiet", "-j1", "--profile", "fault", "--bin", "driver"])
        .env("VOLANG_SRC", &copy)
        .env("CARGO_TARGET_DIR", scratch.join("build"))
        .env("RUSTFLAGS", "-Awarnings")
        .current_dir(package)
        .status()?;
    if !built.success() {
        return Err(io::Error::other(format!("{name} does not compile")));
    }
    Ok(scratch.join("build/fault/driver"))
}
