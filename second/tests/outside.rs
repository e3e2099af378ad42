//! What others recorded and printed, as the proved programs of the repository are given it: the second
//! interpreter is held to the same files.

use std::fs;
use std::path::Path;

use second::loads::right_step;
use second::plain;
use second::recorded::hold;
use second::words::judge;

fn stdin_of(program: &str) -> Vec<u8> {
    let repository = Path::new(env!("CARGO_MANIFEST_DIR")).join("..");
    let file = repository.join("crates").join(program).join("stdin");
    fs::read(&file).unwrap_or_else(|error| panic!("{}: {error}", file.display()))
}

#[test]
fn every_recorded_step_agrees() {
    for step in [right_step, plain::step] {
        let held = hold(stdin_of("qemu").as_slice(), step).expect("pairs that can be read");
        assert_eq!(held.differences, Vec::<String>::new());
        assert_eq!((held.agree, held.steps), (460, 460));
    }
}

#[test]
fn every_printed_word_agrees() {
    let judged = judge(stdin_of("binutils").as_slice()).expect("lines of text");
    assert_eq!(judged.disagreements, Vec::<String>::new());
    assert_eq!((judged.same_family, judged.lines), (39_000, 39_000));
    assert_eq!((judged.same_text, judged.loads), (8_958, 8_958));
}

#[test]
fn a_step_that_differs_is_shown() {
    let mut pairs = stdin_of("qemu");
    let last = pairs.len() - 1;
    pairs[last] ^= 1;
    for step in [right_step, plain::step] {
        let held = hold(pairs.as_slice(), step).expect("pairs that can be read");
        assert_eq!((held.agree, held.steps), (459, 460));
        assert!(held.differences[0].starts_with("step 459 differs"));
        assert!(held.differences[0].contains("pc: here"));
    }
}
