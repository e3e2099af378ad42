//! The tables by pairs: what they count, what is impossible and why, and that a sample has all else.

mod common;

use std::collections::BTreeSet;

use common::{area, bench, both};
use second::cases::Case;
use second::coverage::{pairs, pairs_of, why_not, Axis, Coverage, Mark, Pair};
use second::decode::Family;
use second::machine::Bench;
use second::questions::{Kind, Question};
use second::sample::sample;

fn mark(axis: Axis, name: &str) -> Mark {
    let value = axis.names().iter().position(|other| other == name);
    Mark {
        axis,
        value: value.unwrap_or_else(|| panic!("no {name}")),
    }
}

fn names((a, b): Pair) -> (String, String) {
    (
        a.axis.names()[a.value].clone(),
        b.axis.names()[b.value].clone(),
    )
}

#[test]
fn what_cannot_be_is_known_and_nothing_else_is_left_out() {
    // Families with answers: six each, undefined for six of them, and two without a family
    let by_hand = (9 * 6 + 6 + 2) + 10 * 17 + 10 * 7 + (8 * 16 + 1) + (8 * 7 - 1) + 17 * 7;
    assert_eq!(pairs().len(), by_hand);
}

#[test]
fn what_cannot_be_has_a_cause() {
    let never = [
        (
            mark(Axis::Family, "LD1 immediate"),
            mark(Axis::Answer, "undefined"),
        ),
        (
            mark(Axis::Family, "LD1 immediate"),
            mark(Axis::Answer, "outside"),
        ),
        (mark(Axis::Family, "no family"), mark(Axis::Answer, "ran")),
        (mark(Axis::Answer, "ran"), mark(Axis::VectorLength, "other")),
        (mark(Axis::Answer, "denied"), mark(Axis::Pages, "0")),
    ];
    for pair in never {
        assert!(
            why_not(pair).is_some() && !pairs().contains(&pair),
            "{:?}",
            names(pair)
        );
    }
    let possible = [
        (
            mark(Axis::Family, "LD1RO scalar"),
            mark(Axis::VectorLength, "128"),
        ),
        (mark(Axis::Answer, "ran"), mark(Axis::Pages, "0")),
        (
            mark(Axis::Answer, "set-up"),
            mark(Axis::VectorLength, "other"),
        ),
        (mark(Axis::Answer, "no memory"), mark(Axis::Pages, "16")),
    ];
    for pair in possible {
        assert!(
            why_not(pair).is_none() && pairs().contains(&pair),
            "{:?}",
            names(pair)
        );
    }
}

/// The names of all pairs of a step.
fn of(word: u32, bench: Bench) -> BTreeSet<(String, String)> {
    let case = Case {
        word,
        level: 0,
        bench,
    };
    let answer = both(&case).report.answer;
    pairs_of(&case, answer).into_iter().map(names).collect()
}

fn has(pairs: &BTreeSet<(String, String)>, a: &str, b: &str) -> bool {
    pairs.contains(&(a.to_string(), b.to_string()))
}

#[test]
fn a_step_is_counted_by_all_its_pairs() {
    let pairs = of(0xA5E0_A000, bench(384));
    assert_eq!(pairs.len(), 6);
    assert!(has(&pairs, "LD1 immediate", "ran") && has(&pairs, "LD1 immediate", "384"));
    assert!(has(&pairs, "LD1 immediate", "8-15") && has(&pairs, "384", "8-15"));
    assert!(has(&pairs, "ran", "384") && has(&pairs, "ran", "8-15"));
    let mut wrong = bench(128);
    wrong.vl = 2176;
    let pairs = of(0, wrong);
    assert!(has(&pairs, "no family", "set-up") && has(&pairs, "set-up", "other"));
}

#[test]
fn the_larger_area_counts_by_the_pages_it_has_begun() {
    let sizes = [
        (0, "0"),
        (1, "1"),
        (4096, "1"),
        (4097, "2"),
        (3 * 4096, "3"),
    ];
    let more = [
        (12_289, "4-7"),
        (28_672, "4-7"),
        (28_673, "8-15"),
        (61_440, "8-15"),
    ];
    let most = [(61_441, "16"), (65_536, "16")];
    for (length, column) in sizes.into_iter().chain(more).chain(most) {
        let mut bench = bench(128);
        bench.flash = area(0, vec![]);
        bench.ram = area(0, vec![0; length]);
        assert!(has(&of(0xA5E0_A000, bench), "128", column), "{length}");
    }
    // An area over its limit is refused, and counted in no column of pages
    let mut over = bench(128);
    over.ram = area(1 << 30, vec![0; 65_537]);
    assert_eq!(of(0xA5E0_A000, over).len(), 3);
}

#[test]
fn a_sample_leaves_no_pair_out() {
    let sample = sample(1).expect("enough cases");
    let mut stream = &sample.cases[..];
    let mut had = BTreeSet::new();
    let mut coverage = Coverage::default();
    while let Some(question) = Question::read(&mut stream).expect("a good case") {
        if question.kind == Kind::Step {
            let case = question.lent;
            let answer = both(&case).report.answer;
            had.extend(pairs_of(&case, answer).into_iter().map(names));
            coverage.add(&case, answer);
            assert!(Family::of(case.word).is_some() || answer < 3);
        }
    }
    let wanted: BTreeSet<(String, String)> = pairs().into_iter().map(names).collect();
    assert_eq!(had, wanted);
    assert_eq!(coverage.missing(), None);
    let words = sample.coverage.in_words();
    assert_eq!(words, coverage.in_words());
    assert!(words.lines().filter(|line| line.contains(" x ")).count() == 6);
}

#[test]
fn a_pair_that_is_missing_is_told() {
    let coverage = Coverage::default();
    assert_eq!(coverage.missing(), pairs().first().copied());
}
