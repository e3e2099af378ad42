//! How soon the generated cases tell each wrong variant from the right interpreter.

use crate::assembly::text_or_why_not;
use crate::cases::{Case, Outcome};
use crate::describe::differences;
use crate::generate;
use crate::loads::Report;
use crate::questions::Question;
use crate::telling::window_in_short;
use crate::wrong::{Variant, WindowVariant, VARIANTS, WINDOW_VARIANTS};

/// A variant, and the first case that tells it apart, if one does.
pub struct Told {
    pub name: &'static str,
    pub by: Option<First>,
}

pub struct First {
    pub number: u64,
    pub line: String,
}

/// Goes through the cases of a seed until every variant is told apart or the limit is reached.
pub fn sharp(seed: u64, limit: u64) -> Vec<Told> {
    let tell = |variant: &Variant| Told {
        name: variant.name,
        by: None,
    };
    let mut told: Vec<Told> = VARIANTS.iter().map(tell).collect();
    for number in 0..limit {
        if told.iter().all(|told| told.by.is_some()) {
            break;
        }
        let case = generate::case(seed, number);
        let right = case.outcome();
        for (variant, told) in VARIANTS.iter().zip(&mut told) {
            if told.by.is_none() {
                let wrong = variant.outcome(&case);
                if wrong != right {
                    let line = line(number, &case, &right, &wrong);
                    told.by = Some(First { number, line });
                }
            }
        }
    }
    told
}

/// The same for the wrong windows and the questions of a seed.
pub fn sharp_windows(seed: u64, limit: u64) -> Vec<Told> {
    let tell = |variant: &WindowVariant| Told {
        name: variant.name,
        by: None,
    };
    let mut told: Vec<Told> = WINDOW_VARIANTS.iter().map(tell).collect();
    for number in 0..limit {
        if told.iter().all(|told| told.by.is_some()) {
            break;
        }
        let question = generate::window(seed, number);
        let right = question.window();
        for (variant, told) in WINDOW_VARIANTS.iter().zip(&mut told) {
            let wrong = variant.window(&question);
            if told.by.is_none() && wrong != right {
                let line = window_line(number, &question, [&right, &wrong]);
                told.by = Some(First { number, line });
            }
        }
    }
    told
}

fn window_line(number: u64, question: &Question, reports: [&Report; 2]) -> String {
    let [right, wrong] = reports.map(|report| window_in_short(question.kind, report));
    let kind = question.kind.name();
    format!("question {number}: {kind}; right: {right}; wrong: {wrong}")
}

/// The case in one line, with the first thing in which the two outcomes differ.
fn line(number: u64, case: &Case, right: &Outcome, wrong: &Outcome) -> String {
    let differences = differences(case, ["right", "wrong"], [right, wrong]);
    format!(
        "case {number}: {} at VL {}; {}",
        text_or_why_not(case.word),
        case.bench.vl,
        differences.first().map_or("", String::as_str)
    )
}
