//! The table of results: a row for each set and VL, a number for each who was measured, and the ratio.

use std::io::BufRead;

use crate::input::{Input, WORDS};
use crate::rows::{measured, Question, Row};
use crate::who::Who;

pub struct Table {
    unit: &'static str,
    questions: Vec<Question>,
    /// Each row once, with the numbers of those who are measured at it, in their order.
    rows: Vec<(Row, Vec<f64>)>,
}

impl Table {
    /// Has each row measured once, also one that belongs to two questions.
    pub fn of(
        unit: &'static str,
        questions: Vec<Question>,
        mut measure: impl FnMut(Row, &[Who]) -> Result<Vec<f64>, String>,
    ) -> Result<Table, String> {
        let mut rows = Vec::new();
        for (row, who) in measured(&questions) {
            rows.push((row, measure(row, who)?));
        }
        Ok(Table {
            unit,
            questions,
            rows,
        })
    }

    /// Lines of two counts, for each row and who as `list` has them: the instructions executed without
    /// any round, which is the set-up, and with so many rounds.
    pub fn read(
        input: impl BufRead,
        questions: Vec<Question>,
        rounds: u64,
    ) -> Result<Table, String> {
        let mut lines = input.lines();
        let mut difference = || -> Result<f64, String> {
            let line = lines.next().ok_or("too few counts")?;
            let line = line.map_err(|error| error.to_string())?;
            let counts = line.split_whitespace().map(str::parse::<u64>);
            match counts.collect::<Result<Vec<u64>, _>>().as_deref() {
                Ok([none, all]) if none < all => Ok((all - none) as f64),
                _ => Err(format!("no two counts: {line:?}")),
            }
        };
        let unit = "executed x86-64 instructions per step";
        Table::of(unit, questions, |row, who| {
            let made = rounds as f64 * Input::of(row)?.steps.len() as f64;
            who.iter().map(|_| Ok(difference()? / made)).collect()
        })
    }

    pub fn text(&self) -> String {
        let [proved, plain, pages] = Who::ALL.map(Who::name);
        let mut text = format!(
            "input: {WORDS} words of each family that a question is about, in one shuffled order; \
             buffers warm\n\n\
             {}; ratio = plain / proved: 1.00 is as quick as the plain one, more is quicker\n\
             {:<20} {:>5} {proved:>9} {plain:>9} {:>7} {pages:>9}\n",
            self.unit, "", "VL", "ratio"
        );
        for question in &self.questions {
            text += &format!("\n{}\n", question.heading);
            for row in &question.rows {
                text += &self.line(*row, question.who);
            }
        }
        text
    }

    fn line(&self, row: Row, who: &[Who]) -> String {
        let known = self.rows.iter().find(|(known, _)| *known == row);
        let numbers = known.map_or(&[][..], |(_, numbers)| &numbers[..who.len()]);
        let mut line = format!("  {:<18} {:>5}", row.name(), row.vl);
        if let [proved, plain, others @ ..] = numbers {
            let ratio = plain / proved;
            line += &format!(" {proved:>9.1} {plain:>9.1} {ratio:>7.2}");
            for number in others {
                line += &format!(" {number:>9.1}");
            }
        }
        line + "\n"
    }
}
