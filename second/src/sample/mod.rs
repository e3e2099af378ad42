//! A sample of the generated cases that covers what is to be covered, small enough to be kept: steps,
//! and behind them questions for the two windows.

mod cells;
mod choose;
mod structures;
mod windows;

pub use cells::{all_cells, answers, causes, cells_of, row, rows, Cause, Cell, EACH};
pub use structures::{all_structures, By, Structure, What};
pub use windows::{all_cells as all_window_cells, WindowCell};

use crate::cases::{Case, Outcome};
use crate::coverage::Coverage;
use crate::generate;
use crate::questions::Question;
use crate::together::lies_together;
use crate::wrong::{VARIANTS, WINDOW_VARIANTS};
use choose::{Candidate, Chosen, Wanted};

/// How many steps a sample has at least.
pub const CASES: usize = 700;
/// How many cases of a seed are looked at, and how often as many again if something is missing.
const STEPS: u64 = 200_000;
const WINDOWS: u64 = 12_000;
const TURNS: u64 = 6;
/// A case of at most so many bytes in both files is small.
const SMALL: usize = 6_000;
/// How often a variant is told apart before no further case is asked for it: by small ones, or by any.
const TOLD_SMALL: usize = 2;
const TOLD: usize = 40;

/// A chosen sample: the bytes of its two files, and how often each cell occurs.
pub struct Sample {
    pub numbers: Vec<u64>,
    pub windows: Vec<u64>,
    /// How many of its steps lie together.
    pub together: usize,
    pub cases: Vec<u8>,
    pub outcomes: Vec<u8>,
    pub cells: Vec<(Cell, usize)>,
    pub window_cells: Vec<(WindowCell, usize)>,
    pub coverage: Coverage,
}

/// Chooses a sample out of the cases of a seed: what brings the cells that are wanted in few bytes, and
/// then small cases, until there are enough.
pub fn sample(seed: u64) -> Result<Sample, String> {
    let (numbers, cells) = steps(seed)?;
    let (windows, window_cells) = questions(seed)?;
    let mut sample = Sample {
        numbers,
        windows,
        together: 0,
        cases: Vec::new(),
        outcomes: Vec::new(),
        cells,
        window_cells,
        coverage: Coverage::default(),
    };
    for number in &sample.numbers {
        let case = generate::case(seed, *number);
        let outcome = case.outcome();
        sample.together += usize::from(lies_together(&case));
        sample.coverage.add(&case, outcome.report.answer);
        case.write(&mut sample.cases);
        outcome.write(&mut sample.outcomes);
    }
    for number in &sample.windows {
        let question = generate::window(seed, *number);
        question.write(&mut sample.cases);
        question.reply().write(&mut sample.outcomes);
    }
    match sample.coverage.missing() {
        None => Ok(sample),
        Some(pair) => Err(format!("the sample of seed {seed} has no {pair:?}")),
    }
}

/// Which steps are chosen, and how often each cell is had.
type Numbers<C> = (Vec<u64>, Vec<(C, usize)>);

fn steps(seed: u64) -> Result<Numbers<Cell>, String> {
    let cells = all_cells().into_iter().map(|cell| (cell, cell.wanted()));
    let wanted = Wanted::new(cells.collect());
    let mut told = Told::new(VARIANTS.len());
    let mut candidates = Vec::new();
    for turn in 0..TURNS {
        for number in turn * STEPS..(turn + 1) * STEPS {
            candidates.push(step_candidate(&wanted, &mut told, seed, number));
        }
        let mut chosen = wanted.choose(&candidates);
        if wanted.missing(&chosen).is_none() {
            fill(&candidates, &mut chosen);
            return Ok((chosen.numbers(), wanted.counted(&chosen)));
        }
    }
    Err(too_few(
        seed,
        TURNS * STEPS,
        wanted.missing(&wanted.choose(&candidates)),
    ))
}

fn too_few<C: std::fmt::Debug>(seed: u64, looked_at: u64, cell: Option<C>) -> String {
    match cell {
        Some(cell) => format!("{looked_at} cases of seed {seed} have too few of {cell:?}"),
        None => format!("{looked_at} cases of seed {seed} make no sample"),
    }
}

fn step_candidate(wanted: &Wanted<Cell>, told: &mut Told, seed: u64, number: u64) -> Candidate {
    let case: Case = generate::case(seed, number);
    let outcome: Outcome = case.outcome();
    let size = case.size() + Outcome::size(outcome.z.len(), outcome.x.len());
    let tells = told.by(size, |variant| VARIANTS[variant].outcome(&case) != outcome);
    let cells = cells_of(&case, &outcome).into_iter();
    Candidate {
        number,
        size,
        cells: wanted.places(cells.chain(tells.into_iter().map(Cell::Tells))),
    }
}

/// Small cases behind those that are needed.
fn fill<'a>(candidates: &'a [Candidate], chosen: &mut Chosen<'a>) {
    let had = chosen.numbers();
    let small = |candidate: &&Candidate| {
        candidate.size < SMALL && had.binary_search(&candidate.number).is_err()
    };
    let more = CASES.saturating_sub(had.len());
    for candidate in candidates.iter().filter(small).take(more) {
        chosen.take(candidate);
    }
}

/// Which questions for the windows are chosen.
fn questions(seed: u64) -> Result<Numbers<WindowCell>, String> {
    let cells = all_window_cells().into_iter().map(|cell| (cell, 1));
    let wanted = Wanted::new(cells.collect());
    let mut told = Told::new(WINDOW_VARIANTS.len());
    let mut candidates = Vec::new();
    for turn in 0..TURNS {
        for number in turn * WINDOWS..(turn + 1) * WINDOWS {
            candidates.push(window_candidate(&wanted, &mut told, seed, number));
        }
        let chosen = wanted.choose(&candidates);
        if wanted.missing(&chosen).is_none() {
            return Ok((chosen.numbers(), wanted.counted(&chosen)));
        }
    }
    Err(too_few(
        seed,
        TURNS * WINDOWS,
        wanted.missing(&wanted.choose(&candidates)),
    ))
}

fn window_candidate(
    wanted: &Wanted<WindowCell>,
    told: &mut Told,
    seed: u64,
    number: u64,
) -> Candidate {
    let question: Question = generate::window(seed, number);
    let report = question.window();
    let size = question.size() + 33;
    let tells = told.by(size, |variant| {
        WINDOW_VARIANTS[variant].window(&question) != report
    });
    let cells = windows::cells_of(&question, &report).into_iter();
    Candidate {
        number,
        size,
        cells: wanted.places(cells.chain(tells.into_iter().map(WindowCell::Tells))),
    }
}

/// How often each variant was told apart: to try all of them on every case would take too long.
struct Told {
    small: Vec<usize>,
    any: Vec<usize>,
}

impl Told {
    fn new(variants: usize) -> Told {
        Told {
            small: vec![0; variants],
            any: vec![0; variants],
        }
    }

    /// The variants that a case of this size tells, of those that are still asked for.
    fn by(&mut self, size: usize, tells: impl Fn(usize) -> bool) -> Vec<usize> {
        let mut told = Vec::new();
        for variant in 0..self.any.len() {
            let asked = self.small[variant] < TOLD_SMALL && self.any[variant] < TOLD;
            if asked && tells(variant) {
                self.any[variant] += 1;
                self.small[variant] += usize::from(size < SMALL);
                told.push(variant);
            }
        }
        told
    }
}
