//! Reads a script from standard input and writes the unchanged Rust's answers to standard output.

use std::io::{self, Write};

use comparison::calls::Session;
use comparison::script::read_line;

fn main() -> io::Result<()> {
    let mut input = io::stdin().lock();
    let mut output = io::stdout().lock();
    let mut session = Session::new();
    let mut line = Vec::new();
    let mut answer = String::new();
    while read_line(&mut input, &mut line)? {
        answer.clear();
        if session.answer_line(&line, &mut answer).is_some() {
            output.write_all(answer.as_bytes())?;
            output.flush()?;
        }
    }
    Ok(())
}
