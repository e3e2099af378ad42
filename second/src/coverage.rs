//! What a sample meets, counted by pairs: family, answer, vector length and pages lent, each value of
//! the one with each value of the other. All four at once would be far too many cases to keep.

use crate::cases::Case;
use crate::decode::Family;
use crate::machine::Answer;
use crate::rules::{Right, Rules};
use crate::sample::answers;

/// What a case is counted by.
#[derive(Clone, Copy, Debug, PartialEq, Eq, Hash)]
pub enum Axis {
    Family,
    Answer,
    VectorLength,
    Pages,
}

/// One value of an axis, by its place in the axis' names.
#[derive(Clone, Copy, Debug, PartialEq, Eq, Hash)]
pub struct Mark {
    pub axis: Axis,
    pub value: usize,
}

/// The pairs of axes that have a table, rows first.
const TABLES: [(Axis, Axis); 6] = [
    (Axis::Family, Axis::Answer),
    (Axis::Family, Axis::VectorLength),
    (Axis::Family, Axis::Pages),
    (Axis::Answer, Axis::VectorLength),
    (Axis::Answer, Axis::Pages),
    (Axis::VectorLength, Axis::Pages),
];

/// Behind the nine families stands "no family", behind the sixteen lengths "other".
const NO_FAMILY: usize = Family::ALL.len();
const OTHER_LENGTH: usize = 16;
/// The first number of pages of each column: of the larger of the two areas.
const PAGES: [(u64, &str); 7] = [
    (0, "0"),
    (1, "1"),
    (2, "2"),
    (3, "3"),
    (4, "4-7"),
    (8, "8-15"),
    (16, "16"),
];

impl Axis {
    pub fn names(self) -> Vec<String> {
        match self {
            Axis::Family => (Family::ALL.map(Family::name).into_iter())
                .chain(["no family"])
                .map(String::from)
                .collect(),
            Axis::Answer => (Answer::ALL.into_iter())
                .map(|answer| Answer::name(answer.number()).to_string())
                .collect(),
            Axis::VectorLength => (1..=16)
                .map(|n| (128 * n).to_string())
                .chain(["other".to_string()])
                .collect(),
            Axis::Pages => PAGES.map(|(_, name)| name.to_string()).to_vec(),
        }
    }

    fn title(self) -> &'static str {
        match self {
            Axis::Family => "family",
            Axis::Answer => "answer",
            Axis::VectorLength => "VL",
            Axis::Pages => "pages lent",
        }
    }

    fn marks(self) -> impl Iterator<Item = Mark> {
        (0..self.names().len()).map(move |value| Mark { axis: self, value })
    }
}

/// A value of the rows' axis and one of the columns'.
pub type Pair = (Mark, Mark);

/// Every pair that a sample can have.
pub fn pairs() -> Vec<Pair> {
    all_pairs()
        .filter(|pair| why_not(*pair).is_none())
        .collect()
}

fn all_pairs() -> impl Iterator<Item = Pair> {
    TABLES.into_iter().flat_map(|(rows, columns)| {
        rows.marks()
            .flat_map(move |a| columns.marks().map(move |b| (a, b)))
    })
}

/// Why no case can have a pair.
pub fn why_not((a, b): Pair) -> Option<&'static str> {
    match (a.axis, b.axis) {
        (Axis::Family, Axis::Answer) => no_such_answer(a.value, Answer::ALL[b.value]),
        (Axis::Answer, Axis::VectorLength) => {
            let allowed = b.value != OTHER_LENGTH || Answer::ALL[a.value] == Answer::SetUp;
            (!allowed).then_some("a VL that is not allowed is refused before all else")
        }
        (Axis::Answer, Axis::Pages) => {
            let none = b.value == 0 && Answer::ALL[a.value] == Answer::Denied;
            none.then_some("where no page is lent none can be denied")
        }
        _ => None,
    }
}

fn no_such_answer(family: usize, answer: Answer) -> Option<&'static str> {
    let Some(family) = Family::ALL.get(family) else {
        let fits = matches!(answer, Answer::SetUp | Answer::Outside);
        return (!fits).then_some("a word of no family is outside, if the set-up is accepted");
    };
    match answer {
        _ if answers(*family).contains(&answer) => None,
        Answer::Outside => Some("a word that fits a row is not outside"),
        _ => Some("neither its word nor VL or F64MM can make it undefined"),
    }
}

/// The values that a step has; none for the pages of an area over its limit, which is always refused.
fn marks_of(case: &Case, answer: u8) -> Vec<Mark> {
    let bench = &case.bench;
    let length = match Right.vl_allowed(bench.vl) {
        true => (bench.vl / 128 - 1) as usize,
        false => OTHER_LENGTH,
    };
    let pages = bench.flash.pages_begun().max(bench.ram.pages_begun());
    let column = PAGES.iter().rposition(|(first, _)| *first <= pages);
    let values = [
        (
            Axis::Family,
            Family::of(case.word).map_or(NO_FAMILY, |family| family as usize),
        ),
        (Axis::Answer, usize::from(answer & 7)),
        (Axis::VectorLength, length),
    ];
    let pages = column
        .filter(|_| pages <= 16)
        .map(|column| (Axis::Pages, column));
    let mark = |(axis, value)| Mark { axis, value };
    values.into_iter().chain(pages).map(mark).collect()
}

/// The pairs that a step has.
pub fn pairs_of(case: &Case, answer: u8) -> Vec<Pair> {
    let marks = marks_of(case, answer);
    let mark = |axis| marks.iter().find(|mark| mark.axis == axis).copied();
    (TABLES.into_iter())
        .filter_map(|(a, b)| Some((mark(a)?, mark(b)?)))
        .collect()
}

/// How many steps had which pair.
#[derive(Default)]
pub struct Coverage {
    had: Vec<Pair>,
    pub steps: usize,
}

impl Coverage {
    pub fn add(&mut self, case: &Case, answer: u8) {
        self.steps += 1;
        self.had.extend(pairs_of(case, answer));
    }

    pub fn count(&self, pair: Pair) -> usize {
        self.had.iter().filter(|had| **had == pair).count()
    }

    /// A pair that could be had and is not.
    pub fn missing(&self) -> Option<Pair> {
        pairs().into_iter().find(|pair| self.count(*pair) == 0)
    }

    /// A table for each pair of axes; `-` where no case can be.
    pub fn in_words(&self) -> String {
        let mut text = String::new();
        for (rows, columns) in TABLES {
            text += &format!("{:<20}", format!("{} x {}", rows.title(), columns.title()));
            for name in columns.names() {
                text += &format!(" {name:>width$}", width = width(&name));
            }
            for (row, name) in rows.marks().zip(rows.names()) {
                text += &format!("\n{name:<20}");
                for (column, name) in columns.marks().zip(columns.names()) {
                    let cell = match why_not((row, column)) {
                        Some(_) => "-".to_string(),
                        None => self.count((row, column)).to_string(),
                    };
                    text += &format!(" {cell:>width$}", width = width(&name));
                }
            }
            text += "\n\n";
        }
        text
    }
}

/// A column is as wide as its name, and has room for three digits.
fn width(name: &str) -> usize {
    name.len().max(4)
}
