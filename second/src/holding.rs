//! Another program is held to what a broken stream must end with: the outcomes of the good cases on
//! standard output, and one line on standard error exactly where something is broken.

use std::io::{self, Write};
use std::process::{ChildStdin, Command, Stdio};
use std::thread;
use std::time::Duration;

use crate::answer::answer;
use crate::broken::Broken;
use crate::loads::right_step;

/// How a stream is written to a program.
#[derive(Clone, Copy, Debug, PartialEq, Eq)]
pub enum Written {
    AtOnce,
    /// In small pieces, so that one read does not have a whole case.
    InPieces,
}

/// A stream up to so many bytes is small: it is written byte by byte.
const SMALL: usize = 12_000;
/// The sizes of the pieces of a larger one, in turn: odd, and around those of the two heads.
const PIECES: [usize; 7] = [1, 2, 3, 95, 97, 135, 4_097];
/// How long the first piece waits for the program to begin to read.
const BEGIN: Duration = Duration::from_millis(20);
/// A pause after each of the first pieces and after every some of the others lets the program read.
const PAUSE: Duration = Duration::from_micros(40);
const FIRST: usize = 40;
const EVERY: usize = 64;

/// Holds a program to a stream's good cases and to its cause.
pub fn hold(program: &str, stream: &Broken, written: Written) -> Result<(), String> {
    let mut own = Vec::new();
    let what = &stream.what;
    match answer(stream.good.as_slice(), &mut own, right_step) {
        Ok(number) if number == stream.cases => {}
        _ => return Err(format!("{what}: its good cases are not good here")),
    }
    let (out, errors) = run(program, stream.bytes(), written)?;
    if out != own {
        let (theirs, ours) = (out.len(), own.len());
        return Err(format!(
            "{what}: {theirs} bytes came, not the {ours} bytes of the good cases"
        ));
    }
    hold_errors(stream, &errors).map_err(|why| format!("{what}: {why}"))
}

/// "one line on standard error says which case (counted from 0) and why", and otherwise none.
fn hold_errors(stream: &Broken, errors: &[u8]) -> Result<(), String> {
    let lines = usize::from(stream.broken.is_some());
    let told = errors.iter().filter(|byte| **byte == b'\n').count();
    if told != lines || errors.last().is_some_and(|byte| *byte != b'\n') {
        return Err(format!("{told} lines on standard error, not {lines}"));
    }
    let Some(last) = &stream.broken else {
        return Ok(());
    };
    let line = String::from_utf8_lossy(errors);
    let number = format!("case {}: ", stream.cases);
    for part in [number.as_str(), last.cause] {
        if !line.contains(part) {
            let line = line.trim_end();
            return Err(format!("standard error has no `{part}` but `{line}`"));
        }
    }
    Ok(())
}

/// What a program writes to standard output and standard error, given these bytes.
fn run(program: &str, bytes: Vec<u8>, written: Written) -> Result<(Vec<u8>, Vec<u8>), String> {
    let child = Command::new(program)
        .stdin(Stdio::piped())
        .stdout(Stdio::piped())
        .stderr(Stdio::piped())
        .spawn();
    let mut child = child.map_err(|error| format!("cannot start {program}: {error}"))?;
    let stdin = child.stdin.take();
    // A program that ends at a broken case does not read on: that write fails, and may
    let writer = thread::spawn(move || stdin.map(|stdin| write(stdin, &bytes, written)));
    let output = child.wait_with_output();
    let _ = writer.join();
    let output = output.map_err(|error| format!("{program}: {error}"))?;
    Ok((output.stdout, output.stderr))
}

fn write(mut stdin: ChildStdin, bytes: &[u8], written: Written) -> io::Result<()> {
    if written == Written::AtOnce {
        return stdin.write_all(bytes);
    }
    let sizes: &[usize] = match bytes.len() {
        0..=SMALL => &[1],
        _ => &PIECES,
    };
    thread::sleep(BEGIN);
    let mut rest = bytes;
    for (number, size) in sizes.iter().cycle().enumerate() {
        if rest.is_empty() {
            break;
        }
        let (piece, behind) = rest.split_at((*size).min(rest.len()));
        stdin.write_all(piece)?;
        stdin.flush()?;
        rest = behind;
        if number < FIRST || number % EVERY == 0 {
            thread::sleep(PAUSE);
        }
    }
    Ok(())
}
