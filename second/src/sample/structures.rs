//! What a sample must have of LD1R to LD4R, for each number of registers in each of their two rows.

use super::cells::{answers, causes, only_cause, row, rows, Cause, EACH};
use crate::cases::{Case, Outcome};
use crate::decode::{decode, registers, Family, Load};
use crate::machine::{Answer, SP};
use crate::rules::Right;
use crate::together::Stretch;

/// Something that a sample must have of a number of registers.
#[derive(Clone, Copy, Debug, PartialEq, Eq, Hash)]
pub struct Structure {
    pub family: Family,
    pub selem: u64,
    pub what: What,
}

#[derive(Clone, Copy, Debug, PartialEq, Eq, Hash)]
pub enum What {
    Answer(Answer),
    /// Undefined for this cause alone.
    Undefined(Cause),
    /// One that ran, of this row of Q and size, or at this VL.
    Row(u32),
    Length(u64),
    /// One that ran and filled register 0 behind so many registers, of which the last was 31.
    Wraps(u64),
    /// A fault at this element.
    Fault(u64, Answer),
    /// One that ran from the stack, or with elements on both sides of 2^64.
    FromStack,
    Around,
    /// One that ran, with a post-index.
    PostIndex(By),
}

/// What a post-index adds.
#[derive(Clone, Copy, Debug, PartialEq, Eq, Hash)]
pub enum By {
    Immediate,
    Register,
    /// The base itself.
    Base,
}

impl Structure {
    pub fn wanted(self) -> usize {
        match self.what {
            What::Answer(_) => EACH,
            _ => 1,
        }
    }
}

/// Everything that a sample must have of them.
pub fn all_structures() -> Vec<Structure> {
    let mut all = Vec::new();
    for family in Family::ALL.into_iter().filter(|family| family.is_ldnr()) {
        for selem in 1..=4 {
            let of = |what| Structure {
                family,
                selem,
                what,
            };
            all.extend(whats(family, selem).into_iter().map(of));
        }
    }
    all
}

fn whats(family: Family, selem: u64) -> Vec<What> {
    let mut whats = vec![What::FromStack, What::Around];
    whats.extend(answers(family).into_iter().map(What::Answer));
    whats.extend(causes(family).iter().copied().map(What::Undefined));
    whats.extend((0..rows(family)).map(What::Row));
    whats.extend((1..=16).map(|n| What::Length(128 * n)));
    whats.extend((1..selem).map(What::Wraps));
    for answer in [Answer::NoMemory, Answer::Denied] {
        whats.extend((0..selem).map(|element| What::Fault(element, answer)));
    }
    if family == Family::LdnrPostIndex {
        whats.extend([By::Immediate, By::Register, By::Base].map(What::PostIndex));
    }
    whats
}

/// What a case of such a word, defined or not, has of it.
pub fn structures_of(case: &Case, outcome: &Outcome, answer: Answer) -> Vec<Structure> {
    let Some(family) = Family::of(case.word).filter(|family| family.is_ldnr()) else {
        return Vec::new();
    };
    let selem = registers(&Right, case.word);
    let mut whats = vec![What::Answer(answer)];
    match answer {
        Answer::Undefined => whats.extend(only_cause(case, family).map(What::Undefined)),
        Answer::NoMemory | Answer::Denied => {
            whats.push(What::Fault(outcome.report.element, answer));
        }
        Answer::Ran => whats.extend(whats_of_a_run(case)),
        _ => {}
    }
    let of = |what| Structure {
        family,
        selem,
        what,
    };
    whats.into_iter().map(of).collect()
}

fn whats_of_a_run(case: &Case) -> Vec<What> {
    let Ok(load) = decode(&Right, case.word, case.bench.f64mm) else {
        return Vec::new();
    };
    let before = 32 - load.t as u64;
    let around = Stretch::of(&load, &case.bench).end() > 1 << 64;
    let met = [
        (before < load.selem, What::Wraps(before)),
        (load.n == SP, What::FromStack),
        (around, What::Around),
    ];
    let mut whats = vec![
        What::Row(row(case.word, load.family)),
        What::Length(case.bench.vl),
    ];
    whats.extend(
        met.into_iter()
            .filter(|(met, _)| *met)
            .map(|(_, what)| what),
    );
    if load.family == Family::LdnrPostIndex {
        whats.push(What::PostIndex(by(&load)));
    }
    whats
}

fn by(load: &Load) -> By {
    match load.m {
        31 => By::Immediate,
        m if m == load.n => By::Base,
        _ => By::Register,
    }
}
