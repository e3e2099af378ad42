//! One step as bytes: a case of kind 0 goes in, its outcome comes out (CASES.md, levels 0 to 4).
//! `reading.rs` reads cases, `questions.rs` has those of other kinds.

use std::io::{self, Read};

use crate::loads::{step, Report};
use crate::machine::{Area, Bench};
use crate::reading::{numbers, read_bytes, read_numbers};
use crate::rules::{Right, Rules};

pub const MAGIC: [u8; 4] = *b"KKJ1";
/// The levels whose layout is the plain one; the later layouts are not ours.
pub const LAST_LEVEL: u32 = 4;
/// The fields before z: magic, word, flags, level, vl, two starts, seven lengths.
pub const HEAD: usize = 4 * 4 + 8 * 10;

/// The shape that all steps have in common: `loads::right_step`, `plain::step`.
pub type Step = fn(u32, &mut Bench) -> Report;

/// One step that goes in.
#[derive(Clone, Debug, PartialEq, Eq)]
pub struct Case {
    pub word: u32,
    pub level: u32,
    pub bench: Bench,
}

/// What comes out: the report, and z and x after the step.
#[derive(Clone, Debug, PartialEq, Eq)]
pub struct Outcome {
    pub report: Report,
    pub z: Vec<u8>,
    pub x: Vec<u64>,
}

impl Case {
    /// Executes the case under the given rules; the case itself stays as it is.
    pub fn outcome_under<R: Rules + ?Sized>(&self, rules: &R) -> Outcome {
        self.clone().into_outcome(rules)
    }

    /// The right outcome.
    pub fn outcome(&self) -> Outcome {
        self.outcome_under(&Right)
    }

    /// The outcome by a step of this shape.
    pub fn outcome_by(&self, step: Step) -> Outcome {
        self.clone().into_outcome_by(step)
    }

    /// Executes the case and gives up what does not come out.
    pub fn into_outcome<R: Rules + ?Sized>(self, rules: &R) -> Outcome {
        self.into_outcome_by(|word, bench| step(rules, word, bench))
    }

    pub fn into_outcome_by(mut self, step: impl FnOnce(u32, &mut Bench) -> Report) -> Outcome {
        let report = step(self.word, &mut self.bench);
        Outcome {
            report,
            z: self.bench.z,
            x: self.bench.x,
        }
    }

    fn flags(&self) -> u32 {
        let bench = &self.bench;
        u32::from(bench.simd) | u32::from(bench.sve) << 1 | u32::from(bench.f64mm) << 2
    }

    /// How many bytes the case has in the stream.
    pub fn size(&self) -> usize {
        let bench = &self.bench;
        let area = |area: &Area| area.bytes.len() + area.rights.len();
        let files = bench.z.len() + bench.p.len() + 8 * bench.x.len();
        HEAD + files + area(&bench.flash) + area(&bench.ram)
    }

    /// Appends the case's bytes.
    pub fn write(&self, out: &mut Vec<u8>) {
        self.write_head(0, out);
        self.write_parts(out);
    }

    /// The head as every kind of question has it.
    pub(crate) fn write_head(&self, kind: u8, out: &mut Vec<u8>) {
        let bench = &self.bench;
        out.extend(MAGIC);
        for number in [self.word, self.flags() | u32::from(kind) << 8, self.level] {
            out.extend(number.to_le_bytes());
        }
        write_numbers(&[bench.vl, bench.flash.start, bench.ram.start], out);
        let lengths = [
            bench.z.len(),
            bench.p.len(),
            bench.x.len(),
            bench.flash.bytes.len(),
            bench.flash.rights.len(),
            bench.ram.bytes.len(),
            bench.ram.rights.len(),
        ];
        write_numbers(&lengths.map(|length| length as u64), out);
    }

    /// What is lent, behind the head.
    pub(crate) fn write_parts(&self, out: &mut Vec<u8>) {
        let bench = &self.bench;
        out.extend(&bench.z);
        out.extend(&bench.p);
        write_numbers(&bench.x, out);
        for area in [&bench.flash, &bench.ram] {
            out.extend(&area.bytes);
            out.extend(&area.rights);
        }
    }
}

impl Outcome {
    /// How many bytes an outcome with these files has in the stream.
    pub fn size(z_len: usize, x_count: usize) -> usize {
        1 + 3 * 8 + z_len + 8 * x_count
    }

    /// Appends the outcome's bytes.
    pub fn write(&self, out: &mut Vec<u8>) {
        write_report(&self.report, out);
        out.extend(&self.z);
        write_numbers(&self.x, out);
    }

    /// Reads an outcome back, given how long its files were.
    pub fn read(from: &mut impl Read, z_len: usize, x_count: usize) -> io::Result<Outcome> {
        Ok(Outcome {
            report: read_report(from)?,
            z: read_bytes(from, z_len)?,
            x: numbers(&read_bytes(from, 8 * x_count)?),
        })
    }
}

/// What every outcome begins with.
pub(crate) fn write_report(report: &Report, out: &mut Vec<u8>) {
    out.push(report.answer);
    write_numbers(&[report.count, report.element, report.address], out);
}

pub(crate) fn read_report(from: &mut impl Read) -> io::Result<Report> {
    let mut answer = [0];
    from.read_exact(&mut answer)?;
    let [count, element, address] = read_numbers(from)?;
    Ok(Report {
        answer: answer[0],
        count,
        element,
        address,
    })
}

pub(crate) fn write_numbers(numbers: &[u64], out: &mut Vec<u8>) {
    for number in numbers {
        out.extend(number.to_le_bytes());
    }
}
