//! Odd inputs: each with a name, and a conversation in which every answer is awaited.

use std::io::{BufRead, BufReader, Write};
use std::process::{Child, Command, Stdio};
use std::sync::mpsc;
use std::thread;
use std::time::Duration;

use crate::calls::lines;
use crate::generate::{all_verbs, script, Profile};
use crate::script::{is_skipped, LONGEST_LINE};

/// An answer that takes longer does not come.
const LONGEST_ANSWER: Duration = Duration::from_secs(20);

/// The inputs that are handed over whole.
pub fn inputs() -> Vec<(String, Vec<u8>)> {
    let mut all = vec![
        ("nothing".to_string(), Vec::new()),
        ("line feeds alone".to_string(), b"\n\n\n".to_vec()),
        ("a comment without its line feed".to_string(), b"# nothing".to_vec()),
        ("a call without its line feed".to_string(), b"digest 1\ncreate_window".to_vec()),
        ("no call without its line feed".to_string(), b"digest 1\ncreate_windo".to_vec()),
        ("carriage returns".to_string(), b"digest 1\r\n\r\ncounts\r\n#\r\ncounts".to_vec()),
        ("every byte".to_string(), every_byte()),
    ];
    for length in [LONGEST_LINE - 1, LONGEST_LINE, LONGEST_LINE + 1, 1_000_000] {
        all.push((format!("lines of {length} bytes"), long_lines(length)));
    }
    all.push(("100,000 lines".to_string(), many_lines(100_000)));
    all
}

/// Each byte but the line feed alone, before a call, within one and behind one.
fn every_byte() -> Vec<u8> {
    let mut text = b"digest 1\n".to_vec();
    for byte in (0..=u8::MAX).filter(|byte| *byte != b'\n') {
        let places: [&[&[u8]]; 4] = [
            &[&[byte]],
            &[&[byte], b"counts"],
            &[b"router ", &[byte], b"28"],
            &[b"counts", &[byte]],
        ];
        for parts in places {
            text.extend(parts.concat());
            text.push(b'\n');
        }
    }
    text
}

/// A verb, a number and a comment of that length, a call between them, and the verb again without its line feed.
fn long_lines(length: usize) -> Vec<u8> {
    let verb = b"a".repeat(length);
    let number = [b"router ", &b"1".repeat(length - 7)[..]].concat();
    let numbers = [&b"arbitrate"[..], &b" 0".repeat(length / 2)].concat()[..length].to_vec();
    let comment = [b"#", &b"1".repeat(length - 1)[..]].concat();
    let parts =
        [&verb[..], b"create_window", &number, &numbers, b"counts", &comment, b"counts", &verb];
    parts.join(&b'\n')
}

/// Generated scripts of all profiles, one behind the other.
fn many_lines(count: usize) -> Vec<u8> {
    let mut text = Vec::new();
    let mut seed = 1;
    while lines(&text).count() < count {
        for profile in Profile::ALL {
            for _ in 0..20 {
                text.extend(script(seed, 200, profile, &all_verbs()));
                seed += 1;
            }
        }
    }
    text
}

/// The lines of the conversation.
pub fn conversation() -> Vec<u8> {
    Profile::ALL.iter().flat_map(|profile| script(1, 200, *profile, &all_verbs())).collect()
}

/// Writes one line at a time, in two pieces, and reads its answer before the next; all answers, or what went wrong.
pub fn converse(program: &str, text: &[u8]) -> Result<Vec<u8>, String> {
    let mut child = Command::new(program)
        .stdin(Stdio::piped())
        .stdout(Stdio::piped())
        .spawn()
        .map_err(|error| format!("{program} does not start: {error}"))?;
    let result = talk(&mut child, text);
    if result.is_err() {
        let _ = child.kill();
    }
    let status = child.wait().map_err(|error| error.to_string())?;
    match result {
        Ok(_) if !status.success() => Err(format!("{program} ended with {status}")),
        result => result,
    }
}

fn talk(child: &mut Child, text: &[u8]) -> Result<Vec<u8>, String> {
    let mut input = child.stdin.take().expect("piped");
    let mut output = BufReader::new(child.stdout.take().expect("piped"));
    let (answer, wait) = mpsc::channel();
    thread::spawn(move || loop {
        let mut line = Vec::new();
        let read = output.read_until(b'\n', &mut line);
        if !read.is_ok_and(|count| count > 0) || answer.send(line).is_err() {
            return;
        }
    });
    let mut answers = Vec::new();
    for (place, line) in lines(text).enumerate() {
        let (front, back) = line.split_at(line.len() / 2);
        let written = [front, back, b"\n"].iter().try_for_each(|piece| {
            input.write_all(piece)?;
            input.flush()
        });
        written.map_err(|error| format!("line {} cannot be written: {error}", place + 1))?;
        if !is_skipped(line) {
            let line = wait.recv_timeout(LONGEST_ANSWER);
            answers.extend(line.map_err(|_| format!("no answer to line {}", place + 1))?);
        }
    }
    drop(input);
    match wait.recv_timeout(LONGEST_ANSWER) {
        Err(mpsc::RecvTimeoutError::Disconnected) => Ok(answers),
        Err(_) => Err("the program does not end".to_string()),
        Ok(_) => Err("an answer to no line".to_string()),
    }
}
