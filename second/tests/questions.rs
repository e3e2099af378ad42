//! The generator of questions for the windows: the same again, no bad input, and enough of all that
//! matters.

use second::floats::Sort;
use second::generate::window;
use second::machine::{Bench, Refusal};
use second::questions::{Kind, Question};
use second::rules::Right;
use second::windows::OF_AREAS;
use second::wrong::WINDOW_VARIANTS;

const SEED: u64 = 12;
const QUESTIONS: u64 = 20_000;

fn questions(kind: Kind) -> impl Iterator<Item = Question> {
    (0..QUESTIONS)
        .map(|number| window(SEED, number))
        .filter(move |question| question.kind == kind)
}

#[test]
fn a_question_is_made_alone_and_again() {
    for number in [0, 1, 77, u64::MAX] {
        assert_eq!(window(SEED, number), window(SEED, number));
        assert_ne!(window(SEED, number), window(SEED + 1, number));
    }
}

#[test]
fn no_question_is_bad_input() {
    let mut stream = Vec::new();
    for number in 0..QUESTIONS / 10 {
        let question = window(SEED, number);
        assert_ne!(question.kind, Kind::Step);
        stream.clear();
        question.write(&mut stream);
        let read = Question::read(&mut &stream[..]).expect("a good case");
        assert_eq!(read, Some(question));
    }
}

#[test]
fn both_windows_have_all_their_answers_often() {
    let mut seen = [[0; 4]; 2];
    for number in 0..QUESTIONS {
        let question = window(SEED, number);
        let row = usize::from(question.kind == Kind::LaneWindow);
        seen[row][usize::from(question.window().answer)] += 1;
    }
    assert!(seen[0][..3].iter().all(|had| *had > 1_500), "{seen:?}");
    assert!(seen[1].iter().all(|had| *had > 800), "{seen:?}");
}

#[test]
fn areas_are_refused_for_each_cause_alone_and_files_do_not_matter() {
    let mut refused = [0; OF_AREAS.len()];
    let mut shown = [0; 4];
    let files = [
        Refusal::VectorLength,
        Refusal::VectorFile,
        Refusal::PredicateFile,
        Refusal::Scalars,
    ];
    for question in questions(Kind::AddressWindow) {
        let bench = &question.lent.bench;
        let applies = |cause: &Refusal| cause.applies(&Right, bench);
        let causes: Vec<usize> = (0..OF_AREAS.len())
            .filter(|n| applies(&OF_AREAS[*n]))
            .collect();
        if let [cause] = causes[..] {
            refused[cause] += 1;
        }
        for (file, had) in files.iter().zip(&mut shown) {
            *had += u64::from(question.window().answer != 0 && applies(file));
        }
    }
    assert!(refused.iter().all(|had| *had >= 20), "{refused:?}");
    assert!(shown.iter().all(|had| *had >= 200), "{shown:?}");
}

fn shown(question: &Question) -> (u64, u64, u64) {
    let [_, way, width, _] = question.numbers;
    (way, width, question.window().count)
}

#[test]
fn floats_are_of_every_sort() {
    let mut found = [[[0; Sort::ALL.len()]; 2]; 2];
    let mut others = [0; 2];
    for question in questions(Kind::LaneWindow) {
        let (way, width, bits) = shown(&question);
        if question.window().answer == 0 || way == 0 {
            continue;
        }
        match Sort::of(width, bits) {
            Some((sort, negative)) => {
                found[way as usize - 1][usize::from(negative)][sort as usize] += 1
            }
            None => others[way as usize - 1] += 1,
        }
    }
    assert!(
        found.iter().flatten().flatten().all(|had| *had >= 20),
        "{found:?}"
    );
    assert!(others.iter().all(|had| *had >= 100), "{others:?}");
}

#[test]
fn sorts_are_those_of_the_machine_s_own_floats() {
    for sort in Sort::ALL {
        for negative in [false, true] {
            let single = f32::from_bits(sort.bits(32, negative) as u32);
            let double = f64::from_bits(sort.bits(64, negative));
            assert_eq!(single.is_nan(), double.is_nan(), "{sort:?}");
            assert_eq!(single.is_subnormal(), double.is_subnormal(), "{sort:?}");
            assert_eq!(single.is_sign_negative(), negative);
            assert_eq!(double.is_sign_negative(), negative);
        }
    }
    assert_eq!(f64::from_bits(Sort::One.bits(64, true)), -1.0);
    assert_eq!(
        f32::from_bits(Sort::LargestNormal.bits(32, false) as u32),
        f32::MAX
    );
    assert_eq!(
        f64::from_bits(Sort::SmallestNormal.bits(64, false)),
        f64::MIN_POSITIVE
    );
    assert_eq!(
        f32::from_bits(Sort::Infinity.bits(32, true) as u32),
        f32::NEG_INFINITY
    );
}

#[test]
fn lanes_are_asked_for_in_every_way() {
    let mut lengths = [0; 16];
    let mut asked = [[0; 9]; 4];
    let widths = [8, 16, 32, 64, 0, 1, 24, 128, (1 << 32) + 32];
    let mut registers = [0; 4];
    for question in questions(Kind::LaneWindow) {
        let Bench { vl, .. } = question.lent.bench;
        let [register, way, width, _] = question.numbers;
        if question.window().answer != 0 {
            lengths[(vl / 128 - 1) as usize] += 1;
        }
        for (n, other) in [0, 31, 32, 1 << 32].into_iter().enumerate() {
            registers[n] += u64::from(register == other);
        }
        if let (0..=3, Some(n)) = (way, widths.iter().position(|other| *other == width)) {
            asked[way as usize][n] += 1;
        }
    }
    assert!(lengths.iter().all(|had| *had >= 100), "{lengths:?}");
    assert!(registers.iter().all(|had| *had >= 50), "{registers:?}");
    let fit = asked.iter().flat_map(|row| &row[..4]);
    assert!(fit.clone().all(|had| *had >= 10), "{asked:?}");
    let unfit = asked[..3].iter().flat_map(|row| &row[4..]);
    assert!(unfit.clone().all(|had| *had >= 3), "{asked:?}");
}

#[test]
fn a_wrong_window_is_right_for_the_other_kind() {
    for number in 0..500 {
        let question = window(SEED, number);
        let right = question.window();
        let wrong = WINDOW_VARIANTS
            .iter()
            .filter(|variant| variant.window(&question) != right);
        let names: Vec<&str> = wrong.map(|variant| variant.name).collect();
        assert!(names.len() < WINDOW_VARIANTS.len() / 2, "{names:?}");
    }
}
