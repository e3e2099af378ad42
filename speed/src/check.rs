//! Whether the proved step, the plain one and the reference have the same outcomes: nothing is
//! measured before they have.

use std::fmt::LowerHex;

use second::generate;
use second::machine::Bench;

use crate::input::{Input, Step};
use crate::rows::{measured, Question, Row};
use crate::who::Who;

/// How often the words of a row are gone through.
const ROUNDS: u64 = 3;
/// Generated cases with every answer, wrong sizes too, that are compared besides.
const CASES: u64 = 20_000;

/// Every row, step by step: report, whole z and whole x are the same for all three.
pub fn check(questions: &[Question]) -> Result<String, String> {
    let mut ended = [0; 8];
    for (row, _) in measured(questions) {
        check_row(row, &mut ended)?;
    }
    let mut answers = [0; 8];
    for number in 0..CASES {
        let case = generate::case(1, number);
        let answer = same(case.word, &mut Who::ALL.map(|_| case.bench.clone()))?;
        answers[usize::from(answer & 7)] += 1;
    }
    let [ran, .., no_memory, denied] = ended;
    let faulted = no_memory + denied;
    Ok(format!(
        "the same outcome (report, whole z, whole x) of proved, plain and pages: {ran} steps of the \
         benchmark that ran, {faulted} that faulted, and {CASES} generated cases with answers 0 to 7 \
         {answers:?}\n"
    ))
}

fn check_row(row: Row, ended: &mut [u64; 8]) -> Result<(), String> {
    let Input { bench, steps } = Input::of(row)?;
    let mut benches = Who::ALL.map(|_| bench.clone());
    for _ in 0..ROUNDS {
        for Step { word, n, base } in &steps {
            benches.iter_mut().for_each(|bench| bench.x[*n] = *base);
            let answer = same(*word, &mut benches)?;
            if !row.expects(answer) {
                let vl = row.vl;
                return Err(format!("{word:08x} at VL {vl} has the answer {answer}"));
            }
            ended[usize::from(answer)] += 1;
        }
    }
    Ok(())
}

/// The answer that all three agree upon.
fn same(word: u32, benches: &mut [Bench; 3]) -> Result<u8, String> {
    let [first, others @ ..] = benches;
    let report = Who::ALL[0].step(word, first);
    for (who, bench) in Who::ALL.into_iter().skip(1).zip(others) {
        let other = who.step(word, bench);
        let what = if report != other {
            Some(format!("proved {report:?}, {} {other:?}", who.name()))
        } else {
            difference("byte of z", &first.z, &bench.z, who)
                .or_else(|| difference("number of x", &first.x, &bench.x, who))
        };
        if let Some(what) = what {
            return Err(format!("{word:08x} at VL {} differs: {what}", first.vl));
        }
    }
    Ok(report.answer)
}

/// The first place in which two files differ.
fn difference<T: PartialEq + LowerHex>(what: &str, a: &[T], b: &[T], who: Who) -> Option<String> {
    // As a whole first: that is quick, and they hardly ever differ
    if a == b {
        return None;
    }
    let at = a.iter().zip(b).position(|(a, b)| a != b)?;
    let (a, b) = (&a[at], &b[at]);
    Some(format!("{what} {at}: proved {a:#x}, {} {b:#x}", who.name()))
}
