//! Another program: a whole script in, its whole output out.

use std::io::{Read, Write};
use std::process::{Command, Stdio};
use std::sync::mpsc;
use std::thread;
use std::time::Duration;

/// A run that takes longer is ended; the lines it has written count.
const LONGEST_RUN: Duration = Duration::from_secs(600);

/// One run of the program on a script: all that it writes, and what else there is to say about the run.
pub fn run(program: &str, script: &[u8]) -> (Vec<u8>, Option<String>) {
    let mut child = Command::new(program)
        .stdin(Stdio::piped())
        .stdout(Stdio::piped())
        .stderr(Stdio::piped())
        .spawn()
        .unwrap_or_else(|error| panic!("{program} does not start: {error}"));
    let mut input = child.stdin.take().expect("piped");
    let mut output = child.stdout.take().expect("piped");
    let mut errors = child.stderr.take().expect("piped");
    let script = script.to_vec();
    // A program that ends early closes its input; what it wrote until then is compared.
    let writer = thread::spawn(move || drop(input.write_all(&script)));
    let complaint = thread::spawn(move || {
        let mut text = Vec::new();
        let _ = errors.read_to_end(&mut text);
        String::from_utf8_lossy(&text).trim_end().to_string()
    });
    let (done, wait) = mpsc::channel();
    let reader = thread::spawn(move || {
        let mut written = Vec::new();
        let _ = output.read_to_end(&mut written);
        let _ = done.send(());
        written
    });
    let late = wait.recv_timeout(LONGEST_RUN).is_err();
    if late {
        let _ = child.kill();
    }
    let written = reader.join().expect("the reader does not panic");
    let _ = writer.join();
    let complaint = complaint.join().expect("the reader does not panic");
    let status = child.wait().expect("the program was started");
    let remark = match (late, status.success()) {
        (true, _) => Some(format!("{program} took too long and was ended")),
        (_, false) => Some(format!("{program} ended with {status}: {complaint}")),
        (_, true) => None,
    };
    (written, remark)
}
