//! The sample covers what it must and stays small.

mod common;

use std::collections::{BTreeMap, BTreeSet};
use std::sync::OnceLock;

use common::both;
use second::cases::Case;
use second::decode::{decode, Family};
use second::edges::{edges_of, Edge};
use second::machine::{Answer, Area};
use second::questions::{Kind, Question, Reply};
use second::rules::Right;
use second::sample::{
    all_cells, all_window_cells, answers, row, rows, sample, Cell, Sample, CASES, EACH,
};
use second::sharp::{sharp, sharp_windows};
use second::together::{lies_together, Stretch};
use second::wrong::{Variant, WindowVariant, VARIANTS, WINDOW_VARIANTS};

fn had(sample: &Sample, wanted: Cell) -> usize {
    let mut cells = sample.cells.iter();
    cells
        .find(|(cell, _)| *cell == wanted)
        .map_or(0, |(_, had)| *had)
}

#[test]
fn a_sample_covers_every_cell_and_stays_small() {
    let other = sample(2026).expect("enough cases");
    for sample in [sample_1(), &other] {
        for cell in all_cells() {
            assert!(had(sample, cell) >= cell.wanted(), "{cell:?}");
        }
        for family in Family::ALL {
            for answer in answers(family) {
                assert!(had(sample, Cell::Pair(family, answer)) >= EACH);
            }
        }
        let windows: Vec<_> = (sample.window_cells.iter())
            .filter(|(_, had)| *had > 0)
            .map(|(cell, _)| *cell)
            .collect();
        assert_eq!(windows, all_window_cells());
        assert!((CASES..CASES + 50).contains(&sample.numbers.len()));
        // With the demos behind it, both files together stay under 8 MB
        assert!(sample.cases.len() + sample.outcomes.len() < 7_900_000);
    }
}

#[test]
fn the_table_of_answers() {
    let has = |family, answer| answers(family).contains(&answer);
    for family in Family::ALL {
        assert!(!has(family, Answer::Outside));
        assert!(has(family, Answer::Stack) && has(family, Answer::Ran));
    }
    assert!(has(Family::LdnrNoOffset, Answer::Undefined));
    assert!(has(Family::Ld1roImmediate, Answer::Undefined));
    assert!(!has(Family::Ld1Immediate, Answer::Undefined));
    assert!(!has(Family::Ld1rqImmediate, Answer::Undefined));
    assert!(!has(Family::Ld1rElement, Answer::Undefined));
}

/// The sample of seed 1, made once for all tests.
fn sample_1() -> &'static Sample {
    static SAMPLE: OnceLock<Sample> = OnceLock::new();
    SAMPLE.get_or_init(|| sample(1).expect("enough cases"))
}

/// The questions of a sample, as they stand in its file.
fn questions_of(sample: &Sample) -> Vec<Question> {
    let mut stream = &sample.cases[..];
    std::iter::from_fn(|| Question::read(&mut stream).expect("a good case")).collect()
}

/// The steps among them.
fn cases_of(sample: &Sample) -> Vec<Case> {
    let steps = questions_of(sample).into_iter();
    steps
        .filter(|question| question.kind == Kind::Step)
        .map(|question| question.lent)
        .collect()
}

#[test]
fn the_files_hold_the_cases_and_their_outcomes() {
    let sample = sample(3).expect("enough cases");
    let questions = questions_of(&sample);
    let mut outcomes = Vec::new();
    for question in &questions {
        match question.kind {
            Kind::Step => Reply::Step(both(&question.lent)),
            _ => question.reply(),
        }
        .write(&mut outcomes);
    }
    assert_eq!(questions.len(), sample.numbers.len() + sample.windows.len());
    assert!(outcomes == sample.outcomes);
}

#[test]
fn every_page_of_both_areas_is_read_and_denied() {
    let (mut ran, mut denied) = (BTreeSet::new(), BTreeSet::new());
    for case in cases_of(sample_1()) {
        let report = both(&case).report;
        let areas = [&case.bench.flash, &case.bench.ram];
        let page = |address: u64| {
            let mut found = areas.iter().enumerate();
            found.find_map(|(ram, area)| Some((ram, area.offset_of(address)? / 4096)))
        };
        match report.answer {
            7 => denied.extend(page(report.address)),
            // All elements that lie together were read, the first of them in the page of its first byte
            0 if lies_together(&case) => {
                let load = decode(&Right, case.word, true).expect("a load");
                let stretch = Stretch::of_case(&case).expect("a load");
                if report.count * load.msize / 8 == stretch.length {
                    ran.extend(page(stretch.first));
                }
            }
            _ => {}
        }
    }
    assert_eq!(denied.len(), 32, "{denied:?}");
    assert!(ran.len() >= 8, "{ran:?}");
}

/// Whether a sample tells a bench that takes the right of one page from another one.
fn tells_right_of(cases: &[(Case, second::cases::Outcome)], own: usize, other: usize) -> bool {
    cases.iter().any(|(case, right)| {
        let exchange = |area: &Area| {
            let both = area.rights.len() > own.max(other);
            both && area.rights[own] & 1 != area.rights[other] & 1
        };
        if !exchange(&case.bench.flash) && !exchange(&case.bench.ram) {
            return false;
        }
        let mut wrong = case.clone();
        for area in [&mut wrong.bench.flash, &mut wrong.bench.ram] {
            if area.rights.len() > own.max(other) {
                area.rights[own] = area.rights[other];
            }
        }
        wrong.outcome() != *right
    })
}

#[test]
fn no_page_can_take_its_right_from_another() {
    let cases: Vec<_> = (cases_of(sample_1()).into_iter())
        .map(|case| {
            let outcome = case.outcome();
            (case, outcome)
        })
        .collect();
    for own in 0..16 {
        for other in (0..16).filter(|other| *other != own) {
            assert!(tells_right_of(&cases, own, other), "{own} from {other}");
        }
    }
}

#[test]
fn every_family_lies_together_at_all_its_sizes_and_lengths() {
    let sample = sample_1();
    let (mut sizes, mut lengths) = (BTreeSet::new(), BTreeSet::new());
    let (mut together, mut in_ram) = (0, 0);
    for case in cases_of(sample).iter().filter(|case| lies_together(case)) {
        let family = Family::of(case.word).expect("a load");
        let report = both(case).report;
        assert_eq!(report.answer, 0);
        let stretch = Stretch::of_case(case).expect("a load");
        together += 1;
        in_ram += usize::from(stretch.lies_in(&case.bench.ram));
        if report.count > 0 {
            sizes.insert((family, row(case.word, family)));
            lengths.insert((family, case.bench.vl));
        }
    }
    assert_eq!(together, sample.together);
    assert!(
        (CASES * 2 / 5..CASES * 2 / 3).contains(&together),
        "{together}"
    );
    assert!(
        (together / 3..together * 2 / 3).contains(&in_ram),
        "{in_ram}"
    );
    assert_eq!(
        sizes.len() as u32,
        Family::ALL.map(rows).iter().sum::<u32>()
    );
    // At 128 bits LD1RO is undefined
    assert_eq!(lengths.len(), 7 * 16 + 2 * 15);
}

/// What a sample has of LD1R to LD4R is counted here from the words alone.
#[test]
fn every_number_of_registers_has_its_answers_sizes_and_lengths() {
    let mut answers = BTreeMap::new();
    let (mut sizes, mut lengths) = (BTreeSet::new(), BTreeSet::new());
    let (mut faults, mut wraps) = (BTreeSet::new(), BTreeSet::new());
    for case in cases_of(sample_1()) {
        let word = case.word;
        if !Family::of(word).is_some_and(Family::is_ldnr) {
            continue;
        }
        let registers = 1 + (word >> 21 & 1) + 2 * (word >> 13 & 1);
        let of = (registers, word >> 23 & 1);
        let report = both(&case).report;
        *answers.entry((of, report.answer)).or_insert(0) += 1;
        match report.answer {
            0 => {
                sizes.insert((of, word >> 30, word >> 10 & 3));
                lengths.insert((of, case.bench.vl));
                let t = word & 31;
                if t + registers > 32 {
                    wraps.insert((of, t));
                }
            }
            6 | 7 => {
                faults.insert((of, report.answer, report.element));
            }
            _ => {}
        }
    }
    // Every answer but "outside", in both rows
    assert_eq!(answers.len(), 4 * 2 * 7);
    assert!(answers.values().all(|had| *had >= EACH), "{answers:?}");
    assert_eq!(sizes.len(), 4 * 2 * 8);
    assert_eq!(lengths.len(), 4 * 2 * 16);
    assert_eq!(wraps.len(), (1 + 2 + 3) * 2);
    assert_eq!(faults.len(), (1 + 2 + 3 + 4) * 2 * 2);
}

/// What a sample has of block loads from the stack is counted here from words, predicates and SP alone.
#[test]
fn every_block_load_meets_the_stack_rule_in_every_way() {
    let (mut met, mut sizes) = (BTreeSet::new(), BTreeSet::new());
    for case in cases_of(sample_1()) {
        let (word, bench) = (case.word, &case.bench);
        let block = Family::of(word).and_then(Family::block);
        let answer = both(&case).report.answer;
        let (Some(block), true) = (block, word >> 5 & 31 == 31 && [0, 5].contains(&answer)) else {
            continue;
        };
        let size = (bench.vl / 8) as usize;
        let first = (word >> 10 & 7) as usize * size;
        let bit = |bit: &usize| bench.p[(first + bit) / 8] >> ((first + bit) % 8) & 1 == 1;
        let group = 1 << (word >> 23 & 3);
        let lowest = (0..size).step_by(group).find(bit);
        let whole = size / (block as usize / 8) * (block as usize / 8);
        let active = match lowest {
            Some(lane) if lane < block as usize / 8 => "block",
            Some(lane) if lane < whole => "later",
            Some(_) => "left over",
            None if (0..size).any(|number| bit(&number)) => "other bits",
            None => "no bit",
        };
        let askew = bench.x[31] % 16 != 0;
        assert_eq!(answer == 5, askew && lowest.is_some());
        let form = (block, word >> 13 & 1);
        if askew || lowest.is_some() {
            met.insert((form, active, answer));
        }
        if askew && !["block", "no bit"].contains(&active) {
            sizes.insert((form, active, group));
        }
    }
    // Lanes of the block and of a later copy with both answers, other bits and none with one; LD1RO alone
    // leaves lanes over
    assert_eq!(met.len(), 4 * (2 * 2 + 2) + 2 * 2, "{met:?}");
    // A byte has no other bits
    assert_eq!(sizes.len(), 4 * (4 + 3) + 2 * 4, "{sizes:?}");
}

#[test]
fn every_family_meets_every_edge_of_lying_together() {
    let sample = sample_1();
    let mut met = BTreeSet::new();
    let mut missed = BTreeSet::new();
    for case in cases_of(sample) {
        let ran = both(&case).report.answer == 0;
        for edge in edges_of(&case) {
            met.insert((Family::of(case.word), edge as usize));
            if Edge::MISSED.contains(&edge) {
                assert!(!lies_together(&case));
                missed.insert((edge as usize, ran));
            } else {
                assert!(lies_together(&case) && ran);
            }
        }
    }
    assert_eq!(met.len(), Family::ALL.len() * Edge::ALL.len());
    // What lies in two areas can all be read; every other miss runs or faults as lanes are active
    assert_eq!(missed.len(), 2 * Edge::MISSED.len() - 1);
}

#[test]
fn a_sample_tells_every_wrong_variant_apart() {
    let sample = sample_1();
    let mut left: Vec<&Variant> = VARIANTS.iter().collect();
    for case in cases_of(sample) {
        let right = both(&case);
        left.retain(|variant| variant.outcome(&case) == right);
    }
    let names: Vec<&str> = left.iter().map(|variant| variant.name).collect();
    assert_eq!(names, [""; 0]);
}

#[test]
fn a_sample_tells_every_wrong_window_apart() {
    let mut left: Vec<&WindowVariant> = WINDOW_VARIANTS.iter().collect();
    for question in questions_of(sample_1()) {
        if question.kind != Kind::Step {
            let right = question.window();
            left.retain(|variant| variant.window(&question) == right);
        }
    }
    let names: Vec<&str> = left.iter().map(|variant| variant.name).collect();
    assert_eq!(names, [""; 0]);
}

#[test]
fn every_wrong_window_is_told_apart() {
    assert!(WINDOW_VARIANTS.len() >= 50);
    let names: BTreeSet<&str> = WINDOW_VARIANTS.iter().map(|variant| variant.name).collect();
    assert_eq!(names.len(), WINDOW_VARIANTS.len());
    for seed in [1, 7] {
        for told in sharp_windows(seed, 10_000) {
            assert!(told.by.is_some(), "seed {seed}: {}", told.name);
        }
    }
}

#[test]
fn every_wrong_variant_is_told_apart() {
    assert!(VARIANTS.len() >= 180);
    let names: BTreeSet<&str> = VARIANTS.iter().map(|variant| variant.name).collect();
    assert_eq!(names.len(), VARIANTS.len());
    for seed in [1, 7] {
        for told in sharp(seed, 20_000) {
            assert!(told.by.is_some(), "seed {seed}: {}", told.name);
        }
    }
}
