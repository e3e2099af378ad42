//! What compared cases were: tables of how many gave which answer.

use crate::cases::Case;
use crate::decode::{registers, Family};
use crate::machine::Answer;
use crate::questions::Kind;
use crate::rules::Right;
use crate::stack::{Active, FromStack, BLOCKS};
use crate::telling::{LANES, PLACES};
use crate::together::lies_together;

/// How many cases of each family (and of none) gave which answer, and how many lay together; and the
/// same for LD1R, LD2R, LD3R and LD4R, which two of the families are made of. Then what block loads from
/// the stack had active.
#[derive(Default)]
pub struct Tally {
    families: [Row; Family::ALL.len() + 1],
    registers: [Row; 4],
    stack: StackTally,
}

#[derive(Clone, Copy, Default)]
struct Row {
    answers: [u64; Answer::ALL.len()],
    together: u64,
}

impl Row {
    fn add(&mut self, answer: u8, together: bool) {
        self.together += u64::from(together);
        if let Some(cell) = self.answers.get_mut(usize::from(answer)) {
            *cell += 1;
        }
    }

    fn in_words(&self, name: &str) -> String {
        let mut text = format!("\n{name:<20}");
        for cell in self.answers.iter().chain([&self.together]) {
            text += &format!(" {cell:>12}");
        }
        text
    }
}

impl Tally {
    /// Counts a step by its answer.
    pub fn add(&mut self, case: &Case, answer: u8) {
        let family = Family::of(case.word);
        let row = family.map_or(Family::ALL.len(), |family| family as usize);
        let together = lies_together(case);
        self.families[row].add(answer, together);
        if family.is_some_and(Family::is_ldnr) {
            let more = registers(&Right, case.word) - 1;
            self.registers[more as usize].add(answer, together);
        }
        self.stack.add(case, answer);
    }

    /// A table by family and answer, and how many cases lay together: by family in the last column, of
    /// all in the line below. Then LD1R to LD4R, each in a line of its own, and block loads from the stack.
    pub fn in_words(&self) -> String {
        let mut text = format!("{:<20}", "answer");
        let answers = Answer::ALL.map(|answer| Answer::name(answer.number()));
        for name in answers.into_iter().chain(["together"]) {
            text += &format!(" {name:>12}");
        }
        let names = Family::ALL.map(Family::name);
        for (name, row) in names.into_iter().chain(["no family"]).zip(&self.families) {
            text += &row.in_words(name);
        }
        let together = self.together();
        let answers = self.families.iter().flat_map(|row| &row.answers);
        let cases: u64 = answers.sum();
        let share = 1000 * together / cases.max(1);
        let (percent, tenth) = (share / 10, share % 10);
        text += &format!("\n{together} of {cases} cases, {percent}.{tenth} %, lie together");
        for (registers, row) in (1..).zip(&self.registers) {
            text += &row.in_words(&format!("LD{registers}R"));
        }
        text + "\n" + &self.stack.in_words()
    }

    /// How many cases lay together.
    pub fn together(&self) -> u64 {
        self.families.iter().map(|row| row.together).sum()
    }
}

/// How many block loads with SP as base came to the stack rule with which lanes active.
#[derive(Default)]
struct StackTally {
    cells: [[StackCell; BLOCKS.len()]; Active::ALL.len()],
}

#[derive(Clone, Copy, Default)]
struct StackCell {
    cases: u64,
    stack: u64,
    ran: u64,
    /// Those that ran with an SP that is no multiple of 16.
    askew: u64,
}

impl StackTally {
    fn add(&mut self, case: &Case, answer: u8) {
        let Some(from_stack) = FromStack::of(case, answer) else {
            return;
        };
        for (family, cell) in (BLOCKS.into_iter()).zip(&mut self.cells[from_stack.active as usize])
        {
            if family == from_stack.family {
                let ran = answer == Answer::Ran.number();
                cell.cases += 1;
                cell.stack += u64::from(answer == Answer::Stack.number());
                cell.ran += u64::from(ran);
                cell.askew += u64::from(ran && from_stack.askew);
            }
        }
    }

    /// A line for each thing that can be active, with four numbers for each family; `-` where none can be.
    fn in_words(&self) -> String {
        let mut text = format!("{:<20}", "SP as base, active");
        for family in BLOCKS {
            text += &format!(" {:>29}", family.name());
        }
        text += &format!("\n{:20}", "");
        for _ in BLOCKS {
            text += &format!(" {:>8} {:>6} {:>6} {:>6}", "cases", "stack", "ran", "askew");
        }
        for (active, cells) in Active::ALL.into_iter().zip(&self.cells) {
            text += &format!("\n{:<20}", active.name());
            for (family, cell) in BLOCKS.into_iter().zip(cells) {
                text += &cell.in_words(active.can_be(family, 64));
            }
        }
        text + "\n"
    }
}

impl StackCell {
    fn in_words(self, can_be: bool) -> String {
        let number = |number: u64| match can_be {
            true => number.to_string(),
            false => "-".to_string(),
        };
        let [cases, stack, ran, askew] = [self.cases, self.stack, self.ran, self.askew].map(number);
        format!(" {cases:>8} {stack:>6} {ran:>6} {askew:>6}")
    }
}

/// How many questions for each window gave which answer.
#[derive(Default)]
pub struct WindowTally {
    rows: [[u64; 4]; Kind::WINDOWS.len()],
}

impl WindowTally {
    pub fn add(&mut self, kind: Kind, answer: u8) {
        for (window, row) in Kind::WINDOWS.into_iter().zip(&mut self.rows) {
            if let Some(cell) = row.get_mut(usize::from(answer)) {
                *cell += u64::from(window == kind);
            }
        }
    }

    /// A line for each window, with the names of its own answers.
    pub fn in_words(&self) -> String {
        let mut text = String::new();
        let names = [&PLACES[..], &LANES[..]];
        for ((kind, row), names) in Kind::WINDOWS.into_iter().zip(&self.rows).zip(names) {
            text += &format!("{:<16}", kind.name());
            for (name, count) in names.iter().zip(row) {
                text += &format!(" {name:>12} {count:>9}");
            }
            text += "\n";
        }
        text
    }
}
