//! Steps that other machines made and that were recorded: a case and its recorded outcome, one such
//! pair after the other.

use std::io::Read;

use crate::cases::Step;
use crate::questions::{Question, Reply};
use crate::reading::BadInput;
use crate::telling::{question_in_words, replies_that_differ};

/// A pair that cannot be read, by its number.
pub type Bad = (u64, BadInput);

/// How many steps agree with what was recorded, and those that do not in words.
#[derive(Default)]
pub struct Held {
    pub steps: u64,
    pub agree: u64,
    pub differences: Vec<String>,
}

/// Holds our outcome of each case, steps by a step of this shape, to the recorded one.
pub fn hold(mut pairs: impl Read, step: Step) -> Result<Held, Bad> {
    let mut held = Held::default();
    while let Some(question) = Question::read(&mut pairs).map_err(|why| (held.steps, why))? {
        let recorded = recorded_reply(&mut pairs, &question).map_err(|why| (held.steps, why))?;
        let own = question.reply_by(step);
        if own == recorded {
            held.agree += 1;
        } else {
            held.differences.push(format!(
                "step {} differs\n{}{}",
                held.steps,
                question_in_words(&question),
                replies_that_differ(&question, ["here", "recorded"], [&own, &recorded])
            ));
        }
        held.steps += 1;
    }
    Ok(held)
}

/// Makes pairs of a stream of cases and the stream of their outcomes, which end together.
pub fn weave(mut cases: impl Read, mut outcomes: impl Read) -> Result<Vec<u8>, Bad> {
    let mut pairs = Vec::new();
    let mut number = 0;
    while let Some(question) = Question::read(&mut cases).map_err(|why| (number, why))? {
        question.write(&mut pairs);
        let reply = recorded_reply(&mut outcomes, &question).map_err(|why| (number, why))?;
        reply.write(&mut pairs);
        number += 1;
    }
    let mut more = [0];
    match outcomes.read(&mut more) {
        Ok(0) => Ok(pairs),
        Ok(_) => Err((number, BadInput::EndsInside)),
        Err(error) => Err((number, error.into())),
    }
}

fn recorded_reply(from: &mut impl Read, question: &Question) -> Result<Reply, BadInput> {
    Ok(Reply::read(from, question)?)
}
