//! The recorded list that the gate runs `replay` on, put together from its parts.

use std::fs;
use std::io;
use std::path::{Path, PathBuf};

use crate::generate::{all_verbs, script, Profile};
use crate::no_calls;

/// Where the parts are listed, and where the list and its answers stand, seen from the repository's root.
const PARTS: &str = "comparison/recorded.parts";
pub const STDIN: &str = "crates/replay/stdin";
pub const STDOUT: &str = "crates/replay/stdout";

/// The repository's root.
pub fn root() -> PathBuf {
    Path::new(env!("CARGO_MANIFEST_DIR")).join("..")
}

/// One line of the list of parts, and the lines that it stands for.
fn part(root: &Path, entry: &str) -> io::Result<Vec<u8>> {
    let wrong = || io::Error::other(format!("{PARTS}: no part: {entry}"));
    let (kind, rest) = entry.split_once(' ').unwrap_or((entry, ""));
    match kind {
        "script" => fs::read(root.join(rest)),
        "call" => Ok(format!("{rest}\n").into_bytes()),
        "generate" => {
            let [seed, calls, profile] = rest.split(' ').collect::<Vec<_>>()[..] else {
                return Err(wrong());
            };
            let seed = seed.parse().map_err(|_| wrong())?;
            let calls = calls.parse().map_err(|_| wrong())?;
            let profile = Profile::named(profile).ok_or_else(wrong)?;
            let head =
                format!("# Generated: seed {seed}, {calls} calls, profile {}.\n", profile.name());
            Ok([head.into_bytes(), script(seed, calls, profile, &all_verbs())].concat())
        }
        "no_calls" => {
            let mut text = b"# Lines that are no calls.\n".to_vec();
            for line in no_calls::lines() {
                text.extend_from_slice(&line);
                text.push(b'\n');
            }
            Ok(text)
        }
        _ => Err(wrong()),
    }
}

/// The whole list.
pub fn list(root: &Path) -> io::Result<Vec<u8>> {
    let mut text = Vec::new();
    let parts = fs::read_to_string(root.join(PARTS))?;
    for entry in parts.lines().filter(|line| !line.is_empty() && !line.starts_with('#')) {
        text.extend(part(root, entry)?);
    }
    Ok(text)
}
