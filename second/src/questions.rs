//! The kinds of question ("Kinds of question" in CASES.md): one step, and the two windows for the
//! operator. The other kinds mean nothing here yet.

use std::io::{self, Read};

use crate::cases::{read_report, write_numbers, write_report, Case, Outcome, Step, HEAD};
use crate::loads::{right_step, Report};
use crate::reading::read_numbers;
use crate::windows::{address_window, lane_window};

/// Which question a case asks.
#[derive(Clone, Copy, Debug, PartialEq, Eq, PartialOrd, Ord, Hash)]
pub enum Kind {
    Step = 0,
    AddressWindow = 2,
    LaneWindow = 3,
}

impl Kind {
    pub const ALL: [Kind; 3] = [Kind::Step, Kind::AddressWindow, Kind::LaneWindow];
    pub const WINDOWS: [Kind; 2] = [Kind::AddressWindow, Kind::LaneWindow];

    pub fn number(self) -> u8 {
        self as u8
    }

    pub fn of(number: u8) -> Option<Kind> {
        Kind::ALL.into_iter().find(|kind| kind.number() == number)
    }

    pub fn name(self) -> &'static str {
        match self {
            Kind::Step => "step",
            Kind::AddressWindow => "address window",
            Kind::LaneWindow => "lane window",
        }
    }
}

/// A case of any kind: what is lent, and what is asked with it. A step has no numbers and no blob.
#[derive(Clone, Debug, PartialEq, Eq)]
pub struct Question {
    pub kind: Kind,
    pub lent: Case,
    /// a0 to a3
    pub numbers: [u64; 4],
    pub blob: Vec<u8>,
}

/// What comes out. A window repeats nothing of what was lent.
#[derive(Clone, Debug, PartialEq, Eq)]
pub enum Reply {
    Step(Outcome),
    Window {
        report: Report,
        /// How many bytes follow it: none for a window.
        out_len: u64,
    },
}

impl From<Case> for Question {
    fn from(lent: Case) -> Question {
        Question {
            kind: Kind::Step,
            lent,
            numbers: [0; 4],
            blob: Vec::new(),
        }
    }
}

impl Question {
    /// The right reply.
    pub fn reply(&self) -> Reply {
        self.clone().into_reply_by(right_step)
    }

    /// The right reply, where a step is made by this shape of it.
    pub fn reply_by(&self, step: Step) -> Reply {
        self.clone().into_reply_by(step)
    }

    pub fn into_reply_by(self, step: Step) -> Reply {
        match self.kind {
            Kind::Step => Reply::Step(self.lent.into_outcome_by(step)),
            _ => Reply::Window {
                report: self.window(),
                out_len: 0,
            },
        }
    }

    /// What a window shows.
    pub fn window(&self) -> Report {
        let [a0, a1, a2, a3] = self.numbers;
        let bench = &self.lent.bench;
        match self.kind {
            Kind::LaneWindow => lane_window(bench, a0, a1, a2, a3),
            _ => address_window(bench, a0),
        }
    }

    /// How many bytes the case has in the stream.
    pub fn size(&self) -> usize {
        let more = match self.kind {
            Kind::Step => 0,
            _ => LONGER_HEAD - HEAD + self.blob.len(),
        };
        self.lent.size() + more
    }

    /// Appends the case's bytes.
    pub fn write(&self, out: &mut Vec<u8>) {
        self.lent.write_head(self.kind.number(), out);
        if self.kind != Kind::Step {
            write_numbers(&self.numbers, out);
            write_numbers(&[self.blob.len() as u64], out);
        }
        self.lent.write_parts(out);
        if self.kind != Kind::Step {
            out.extend(&self.blob);
        }
    }
}

/// The fields before z in a case of a kind other than 0: a0 to a3 and blob_len too.
pub const LONGER_HEAD: usize = HEAD + 8 * 5;

impl Reply {
    pub fn report(&self) -> &Report {
        match self {
            Reply::Step(outcome) => &outcome.report,
            Reply::Window { report, .. } => report,
        }
    }

    /// Appends the outcome's bytes.
    pub fn write(&self, out: &mut Vec<u8>) {
        match self {
            Reply::Step(outcome) => outcome.write(out),
            Reply::Window { report, out_len } => {
                write_report(report, out);
                write_numbers(&[*out_len], out);
            }
        }
    }

    /// Reads an outcome of this question back.
    pub fn read(from: &mut impl Read, question: &Question) -> io::Result<Reply> {
        let bench = &question.lent.bench;
        if question.kind == Kind::Step {
            return Outcome::read(from, bench.z.len(), bench.x.len()).map(Reply::Step);
        }
        let report = read_report(from)?;
        let [out_len] = read_numbers(from)?;
        Ok(Reply::Window { report, out_len })
    }
}
