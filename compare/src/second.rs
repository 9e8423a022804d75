//! The second program as a judge: case lines in, answer lines out.

use std::io::{self, Write};
use std::process::{Command, Stdio};

/// The second program's answers, one to a line.
pub fn answers(lines: Vec<String>) -> io::Result<Vec<String>> {
    let mut child = Command::new("python3")
        .args(["second/program.py", "answer"])
        .stdin(Stdio::piped())
        .stdout(Stdio::piped())
        .spawn()?;
    let mut given = child.stdin.take().expect("the input is a pipe");
    let writer = std::thread::spawn(move || {
        let lines = lines.iter();
        lines
            .into_iter()
            .try_for_each(|line| writeln!(given, "{line}"))
    });
    let output = child.wait_with_output()?;
    writer.join().expect("the writer does not panic")?;
    let text = String::from_utf8(output.stdout).map_err(io::Error::other)?;
    Ok(text.lines().map(str::to_string).collect())
}
