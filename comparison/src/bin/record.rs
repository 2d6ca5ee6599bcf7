//! Writes the recorded list and the driver's answers to it.

use std::fs;
use std::io;

use comparison::calls::run_script;
use comparison::record::{list, root, STDIN, STDOUT};

fn main() -> io::Result<()> {
    let text = list(&root())?;
    let answers = run_script(&text);
    fs::write(root().join(STDIN), &text)?;
    fs::write(root().join(STDOUT), &answers)?;
    println!("{STDIN}: {} calls, {} bytes of answers", answers.lines().count(), answers.len());
    Ok(())
}
