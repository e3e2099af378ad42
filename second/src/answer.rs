//! The same job as `replay`: cases in, outcomes out.

use std::io::{self, BufReader, BufWriter, Read, Write};

use crate::cases::Step;
use crate::questions::Question;
use crate::reading::BadInput;

/// Why the run ended early.
pub enum Ended {
    Case { number: u64, why: BadInput },
    Output(io::Error),
}

impl From<io::Error> for Ended {
    fn from(error: io::Error) -> Ended {
        Ended::Output(error)
    }
}

/// Answers case after case, of any kind, steps by a step of this shape. What was answered before a bad case stands.
pub fn answer(input: impl Read, output: impl Write, step: Step) -> Result<u64, Ended> {
    let mut input = BufReader::with_capacity(1 << 18, input);
    let mut output = BufWriter::with_capacity(1 << 16, output);
    let mut bytes = Vec::new();
    let mut number = 0;
    loop {
        if input.buffer().is_empty() {
            // We may have to wait for the next case: whoever writes may wait for these outcomes
            output.flush()?;
        }
        match Question::read(&mut input) {
            Ok(Some(question)) => {
                bytes.clear();
                question.into_reply_by(step).write(&mut bytes);
                output.write_all(&bytes)?;
                number += 1;
            }
            Ok(None) => {
                output.flush()?;
                return Ok(number);
            }
            Err(why) => {
                output.flush()?;
                return Err(Ended::Case { number, why });
            }
        }
    }
}
