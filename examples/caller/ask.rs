//! Asks stdraw from a program in plain Rust: once for a test, and then thousands of times without it.
//!
//!     rustc --edition 2021 -O -o ask examples/caller/ask.rs
//!     ./ask crates/stdraw/out/stdraw examples/divisors.gml
//!
//! It runs the program as a process. What is proved of stdraw holds of its answers; nothing is proved of this file.
use std::collections::HashMap;
use std::io::Write;
use std::process::{Command, Stdio};

/// What the words ask of the file: the answer, or else the status and the line that says why there is none.
///
/// The program reads the file to its end before it writes, so one after the other can't block.
fn stdraw(program: &str, words: &[&str], file: &[u8]) -> std::io::Result<Result<String, (i32, String)>> {
    let mut child =
        Command::new(program).args(words).stdin(Stdio::piped()).stdout(Stdio::piped()).stderr(Stdio::piped()).spawn()?;
    // With words that are no command, or a file that is too long, it ends before it has read all: that is no fault.
    let _ = child.stdin.take().expect("it is piped").write_all(file);
    let done = child.wait_with_output()?;
    Ok(match done.status.code() {
        Some(0) => Ok(String::from_utf8_lossy(&done.stdout).into_owned()),
        status => Err((status.unwrap_or(-1), String::from_utf8_lossy(&done.stderr).trim_end().to_owned())),
    })
}

/// The points of a dominance drawing, by the names of their vertices.
fn points(drawing: &str) -> HashMap<i64, (u32, u32)> {
    let mut found = HashMap::new();
    let mut lines = drawing.lines();
    while let Some(line) = lines.next() {
        let Some(name) = line.strip_prefix("%v ") else { continue };
        let spot: Vec<&str> = lines.next().unwrap_or("").split(' ').collect();
        if let (Ok(name), Ok(x), Ok(y)) = (name.parse(), spot[1].parse(), spot[2].parse()) {
            found.insert(name, (x, y));
        }
    }
    found
}

/// One vertex reaches another exactly where its point is at most the other's in both coordinates.
fn reaches(from: (u32, u32), to: (u32, u32)) -> bool {
    from.0 <= to.0 && from.1 <= to.1
}

fn main() -> std::io::Result<()> {
    let words: Vec<String> = std::env::args().collect();
    let [_, program, path] = words.as_slice() else { panic!("ask PROGRAM FILE") };
    let file = std::fs::read(path)?;
    match stdraw(program, &["test"], &file)? {
        Ok(answer) => print!("{answer}"),
        Err((status, line)) => {
            println!("status {status}: {line}");
            return Ok(());
        }
    }
    if let Ok(drawing) = stdraw(program, &["draw", "dominance"], &file)? {
        let points = points(&drawing);
        let pairs = points.values().flat_map(|&from| points.values().map(move |&to| (from, to)));
        println!("{} of {} pairs reach", pairs.filter(|&(from, to)| reaches(from, to)).count(), points.len().pow(2));
    }
    Ok(())
}
