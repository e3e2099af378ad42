//! The rows of the table, each group of them under the question that it answers.

use second::decode::Family;

use crate::who::Who;

/// Which words are measured.
#[derive(Clone, Copy, PartialEq, Eq)]
pub enum Set {
    Family(Family),
    /// All families in one shuffled order.
    Mixed,
    /// All families with a predicate in one shuffled order, and these lanes active in all of them.
    Active(Lanes),
    /// LD1 and the block loads in one shuffled order, each faulting at the last element it asks for.
    Faults,
}

#[derive(Clone, Copy, PartialEq, Eq)]
pub enum Lanes {
    None,
    One,
    Half,
    All,
}

impl Lanes {
    const EACH: [Lanes; 4] = [Lanes::None, Lanes::One, Lanes::Half, Lanes::All];

    fn name(self) -> &'static str {
        match self {
            Lanes::None => "no lane",
            Lanes::One => "one lane",
            Lanes::Half => "half of the lanes",
            Lanes::All => "all lanes",
        }
    }
}

#[derive(Clone, Copy, PartialEq, Eq)]
pub struct Row {
    pub vl: u64,
    pub set: Set,
}

impl Row {
    pub fn name(self) -> &'static str {
        match self.set {
            // Of LD1R to LD4R it is LD1R that is measured
            Set::Family(Family::LdnrNoOffset) => "LD1R no offset",
            Set::Family(Family::LdnrPostIndex) => "LD1R post-index",
            Set::Family(family) => family.name(),
            Set::Mixed if self.families().len() < Family::ALL.len() => "all but LD1RO",
            Set::Mixed => "all mixed",
            Set::Active(lanes) => lanes.name(),
            Set::Faults => "answer 6 or 7",
        }
    }

    /// The families that the words are of. A block load is undefined where VL is shorter than its
    /// block; LD1R has no predicate, and by element it has only one element to fault at.
    pub fn families(self) -> Vec<Family> {
        let fits = |family: &Family| match self.set {
            Set::Family(one) => *family == one,
            Set::Mixed => family.block().is_none_or(|block| block <= self.vl),
            Set::Active(_) => !family.is_ldnr(),
            Set::Faults => !family.is_ldnr() && *family != Family::Ld1rElement,
        };
        Family::ALL.into_iter().filter(fits).collect()
    }

    /// Whether an answer is one that the words of this row are kept for.
    pub fn expects(self, answer: u8) -> bool {
        match self.set {
            Set::Faults => answer == 6 || answer == 7,
            _ => answer == 0,
        }
    }
}

pub struct Question {
    pub heading: &'static str,
    /// Proved and plain first, since the ratio is theirs.
    pub who: &'static [Who],
    pub rows: Vec<Row>,
}

pub fn all() -> Vec<Question> {
    vec![families(), active(), growth(), faults()]
}

/// Each row once, in the order of the questions, with those who are measured at it.
pub fn measured(questions: &[Question]) -> Vec<(Row, &'static [Who])> {
    let mut rows: Vec<(Row, &[Who])> = Vec::new();
    for question in questions {
        for row in &question.rows {
            if rows.iter().all(|(known, _)| known != row) {
                rows.push((*row, question.who));
            }
        }
    }
    rows
}

/// All sets at VL 512, then all at VL 2,048.
fn at_both_lengths(sets: &[Set]) -> Vec<Row> {
    let at = |vl| sets.iter().map(move |set| Row { vl, set: *set });
    at(512).chain(at(2048)).collect()
}

pub fn families() -> Question {
    let mut sets = Family::ALL.map(Set::Family).to_vec();
    sets.push(Set::Mixed);
    Question {
        heading: "By family, with predicates from no lane to all",
        who: &Who::ALL,
        rows: at_both_lengths(&sets),
    }
}

fn active() -> Question {
    Question {
        heading: "Active lanes, the same words: families with a predicate; one is lane 0, half every other 64 bits",
        who: &Who::RATIO,
        rows: at_both_lengths(&Lanes::EACH.map(Set::Active)),
    }
}

fn growth() -> Question {
    let at = |vl| Row {
        vl,
        set: Set::Mixed,
    };
    Question {
        heading: "Growth with VL, the predicates as by family; LD1RO needs VL 256",
        who: &Who::RATIO,
        rows: [128, 256, 512, 1024, 2048].map(at).to_vec(),
    }
}

fn faults() -> Question {
    Question {
        heading: "Faults at the last active element: LD1, LD1RQ and LD1RO, at a denied page or at an area's end",
        who: &Who::RATIO,
        rows: at_both_lengths(&[Set::Faults]),
    }
}
