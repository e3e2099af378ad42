//! The files of the commands, with a line for what cannot be read or written.

use std::fs;

use crate::options::Trouble;

pub fn write_file(file: &str, bytes: &[u8]) -> Result<(), Trouble> {
    fs::write(file, bytes)
        .map_err(|error| Trouble::Line(2, format!("cannot write {file}: {error}")))
}

pub fn read_file(file: &str) -> Result<Vec<u8>, Trouble> {
    fs::read(file).map_err(|error| Trouble::Line(2, format!("cannot read {file}: {error}")))
}

pub fn check_file(file: &str, bytes: &[u8], seed: u64) -> Result<(), Trouble> {
    let read = read_file(file)?;
    if read == bytes {
        return Ok(());
    }
    let same = read.iter().zip(bytes).take_while(|(a, b)| a == b).count();
    let line = format!("{file} is not the sample of seed {seed}: it differs from byte {same} on");
    Err(Trouble::Line(1, line))
}
