//! `second` itself as a program, and scripts that stand in for another one.

#![allow(dead_code)]

use std::fs;
use std::io::Write;
use std::path::{Path, PathBuf};
use std::process::{Command, Output, Stdio};
use std::thread;

pub const SECOND: &str = env!("CARGO_BIN_EXE_second");

pub fn place(name: &str) -> PathBuf {
    Path::new(env!("CARGO_TARGET_TMPDIR")).join(name)
}

/// Runs `second` with this input; gives exit status, output, and lines of standard error.
pub fn run(arguments: &[&str], input: &[u8]) -> (i32, Vec<u8>, String) {
    let mut child = Command::new(SECOND)
        .args(arguments)
        .stdin(Stdio::piped())
        .stdout(Stdio::piped())
        .stderr(Stdio::piped())
        .spawn()
        .expect("second starts");
    let mut stdin = child.stdin.take().expect("a pipe");
    let input = input.to_vec();
    // In a thread of its own, since the output is read at the same time; a command that does not
    // read its input closes the pipe
    let writer = thread::spawn(move || stdin.write_all(&input).unwrap_or_default());
    let Output {
        status,
        stdout,
        stderr,
    } = child.wait_with_output().expect("second ends");
    writer.join().expect("written");
    let stderr = String::from_utf8(stderr).expect("text");
    (status.code().expect("no signal"), stdout, stderr)
}

pub fn text(output: Vec<u8>) -> String {
    String::from_utf8(output).expect("text")
}

/// A program for `--replay`: a shell script with this line.
pub fn script(name: &str, line: &str) -> String {
    use std::os::unix::fs::PermissionsExt;
    let path = place(name);
    fs::write(&path, format!("#!/bin/sh\n{line}\n")).expect("written");
    fs::set_permissions(&path, fs::Permissions::from_mode(0o755)).expect("executable");
    path.to_str().expect("UTF-8").to_string()
}
