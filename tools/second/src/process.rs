//! Running a program on an input.

use std::io::{self, Write};
use std::process::{Command, Stdio};

/// What the program writes when it is given the input.
pub fn output_of(program: &str, input: &[u8]) -> io::Result<Vec<u8>> {
    let mut child = Command::new(program)
        .stdin(Stdio::piped())
        .stdout(Stdio::piped())
        .spawn()?;
    // The program stops reading after the longest input that it takes.
    if let Some(mut pipe) = child.stdin.take() {
        let _ = pipe.write_all(input);
    }
    Ok(child.wait_with_output()?.stdout)
}
