//! The case stream: round trips, and bad input.

mod common;

use common::{bench, both};
use second::answer::{answer, Ended};
use second::cases::{Case, Outcome, Step};
use second::generate;
use second::loads::right_step;
use second::plain;
use second::questions::{Kind, Question, Reply};

fn bytes(case: &Case) -> Vec<u8> {
    let mut bytes = Vec::new();
    case.write(&mut bytes);
    bytes
}

fn plain() -> Case {
    Case {
        word: 0xA5E0_A000,
        level: 0,
        bench: bench(128),
    }
}

#[test]
fn cases_and_outcomes_come_back_as_they_were() {
    for number in 0..2000 {
        let case = generate::case(5, number);
        let written = bytes(&case);
        assert_eq!(written.len(), case.size());
        let read = Case::read(&mut &written[..]).expect("a good case");
        assert_eq!(read.as_ref(), Some(&case));
        let outcome = both(&case);
        let mut written = Vec::new();
        outcome.write(&mut written);
        let (z, x) = (case.bench.z.len(), case.bench.x.len());
        assert_eq!(written.len(), Outcome::size(z, x));
        let read = Outcome::read(&mut &written[..], z, x).expect("a good outcome");
        assert_eq!(read, outcome);
    }
}

/// A window of this kind, asked with numbers that all differ and a blob of this length.
fn window(kind: Kind, blob: usize) -> Question {
    Question {
        kind,
        lent: plain(),
        numbers: [11, 22, 33, u64::MAX],
        blob: vec![0xB0; blob],
    }
}

fn question_bytes(question: &Question) -> Vec<u8> {
    let mut bytes = Vec::new();
    question.write(&mut bytes);
    bytes
}

#[test]
fn questions_of_every_kind_come_back_as_they_were() {
    let mut stream = Vec::new();
    let mut asked = Vec::new();
    for number in 0..300 {
        asked.push(Question::from(generate::case(5, number)));
        for kind in Kind::WINDOWS {
            asked.push(window(kind, number as usize * 7));
        }
    }
    for question in &asked {
        let before = stream.len();
        question.write(&mut stream);
        assert_eq!(stream.len() - before, question.size());
    }
    let mut stream = &stream[..];
    for question in &asked {
        let read = Question::read(&mut stream).expect("a good case");
        assert_eq!(read.as_ref(), Some(question));
        let reply = question.reply();
        let mut written = Vec::new();
        reply.write(&mut written);
        let read = Reply::read(&mut &written[..], question).expect("a good outcome");
        assert_eq!(read, reply);
    }
    assert_eq!(Question::read(&mut stream).expect("its end"), None);
}

#[test]
fn the_layout_of_a_window_is_the_documents() {
    let bytes = question_bytes(&window(Kind::LaneWindow, 5));
    let step = question_bytes(&plain().into());
    assert_eq!(bytes[8..12], [7, 3, 0, 0]);
    assert_eq!(bytes[12..96], step[12..96]);
    for (number, value) in [11, 22, 33, u64::MAX, 5_u64].into_iter().enumerate() {
        let at = 96 + 8 * number;
        assert_eq!(bytes[at..at + 8], value.to_le_bytes());
    }
    assert_eq!(bytes[136..], [&step[96..], &[0xB0; 5]].concat());
    let mut outcome = Vec::new();
    let mut inside = window(Kind::AddressWindow, 0);
    inside.numbers[0] = common::FLASH + 3;
    inside.reply().write(&mut outcome);
    let numbers = [3, 0x7FFD, 0, 0_u64].map(u64::to_le_bytes);
    assert_eq!(outcome, [&[1], numbers.as_flattened()].concat());
}

#[test]
fn a_window_is_no_step_where_only_steps_are_read() {
    let bytes = question_bytes(&window(Kind::AddressWindow, 0));
    let why = Case::read(&mut &bytes[..]).expect_err("no step");
    assert!(why.to_string().contains("kind 2"), "{why}");
}

#[test]
fn the_layout_is_the_documents() {
    let case = plain();
    let bytes = bytes(&case);
    assert_eq!(bytes[..16], *b"KKJ1\x00\xA0\xE0\xA5\x07\0\0\0\0\0\0\0");
    assert_eq!(bytes[16..24], 128_u64.to_le_bytes());
    let lengths = [512, 32, 33, 0x8000, 8, 0, 0_u64];
    for (number, length) in lengths.into_iter().enumerate() {
        let at = 40 + 8 * number;
        assert_eq!(bytes[at..at + 8], length.to_le_bytes());
    }
    assert_eq!(bytes[96..96 + 512], case.bench.z[..]);
    assert_eq!(bytes.len(), 96 + 512 + 32 + 264 + 0x8000 + 8);
}

/// Answers a stream by both shapes of the step, gives the output's length and why it ended.
fn ended(stream: &[u8]) -> (usize, u64, String) {
    let [pages, plain] = [right_step, plain::step].map(|step: Step| {
        let mut output = Vec::new();
        let (number, why) = match answer(stream, &mut output, step) {
            Ok(number) => (number, String::new()),
            Err(Ended::Case { number, why }) => (number, why.to_string()),
            Err(Ended::Output(error)) => panic!("{error}"),
        };
        (output, number, why)
    });
    assert_eq!(pages, plain);
    (pages.0.len(), pages.1, pages.2)
}

#[test]
fn a_good_stream_is_answered_to_its_end() {
    let size = Outcome::size(512, 33);
    let stream = bytes(&plain());
    assert_eq!(ended(&[]), (0, 0, String::new()));
    assert_eq!(ended(&stream.repeat(3)), (3 * size, 3, String::new()));
}

/// Two good cases, then one with other bytes from an offset on.
fn spoiled(at: usize, other: &[u8]) -> (usize, u64, String) {
    let good = bytes(&plain());
    let mut bad = good.clone();
    bad[at..at + other.len()].copy_from_slice(other);
    ended(&[good.clone(), good, bad].concat())
}

#[test]
fn bad_input_names_the_case_and_keeps_what_was_answered() {
    let kept = 2 * Outcome::size(512, 33);
    let expect = |got: (usize, u64, String), why: &str| {
        assert_eq!((got.0, got.1), (kept, 2));
        assert!(got.2.contains(why), "{} says not {why}", got.2);
    };
    expect(spoiled(3, b"2"), "magic");
    for bit in (3..8).chain(16..32) {
        expect(spoiled(8, &(1_u32 << bit).to_le_bytes()), "flags");
    }
    for kind in (0..=255_u8).filter(|kind| ![0, 2, 3].contains(kind)) {
        expect(spoiled(9, &[kind]), &format!("kind {kind} "));
    }
    expect(spoiled(12, &[5]), "level 5");
    expect(spoiled(12, &[15]), "level 15");
    let limits = [
        ("z_len", 65_536_u64),
        ("p_len", 4096),
        ("x_count", 128),
        ("flash_len", 131_072),
        ("flash_rights_len", 64),
        ("ram_len", 131_072),
        ("ram_rights_len", 64),
    ];
    for (number, (what, limit)) in limits.into_iter().enumerate() {
        let at = 40 + 8 * number;
        expect(spoiled(at, &(limit + 1).to_le_bytes()), what);
        expect(spoiled(at, &u64::MAX.to_le_bytes()), what);
        // A length at the limit is read, and the stream ends inside the case
        expect(spoiled(at, &limit.to_le_bytes()), "ends inside");
    }
}

#[test]
fn a_blob_has_its_limit() {
    let good = window(Kind::AddressWindow, 65_536);
    assert_eq!(
        ended(&question_bytes(&good).repeat(2)),
        (66, 2, String::new())
    );
    for length in [65_537, u64::MAX] {
        let mut bytes = question_bytes(&good);
        bytes[128..136].copy_from_slice(&length.to_le_bytes());
        let (kept, number, why) = ended(&bytes);
        assert_eq!((kept, number), (0, 0));
        assert!(why.contains("blob_len"), "{why}");
    }
}

#[test]
fn fewer_bytes_than_a_magic_or_a_head_end_inside_whatever_they_are() {
    let mut bytes = question_bytes(&window(Kind::LaneWindow, 3));
    bytes[..3].copy_from_slice(b"abc");
    assert!(ended(&bytes[..3]).2.contains("ends inside"));
    assert!(ended(&bytes[..4]).2.contains("magic"));
    bytes[..4].copy_from_slice(b"KKJ1");
    // Flag bits, a kind, a level and a length that mean nothing, each before the next
    bytes[40..48].copy_from_slice(&u64::MAX.to_le_bytes());
    assert!(ended(&bytes[..135]).2.contains("ends inside"));
    assert!(ended(&bytes[..136]).2.contains("z_len"));
    bytes[12] = 5;
    assert!(ended(&bytes[..95]).2.contains("ends inside"));
    assert!(ended(&bytes[..96]).2.contains("level 5"));
    bytes[9] = 4;
    assert!(ended(&bytes[..95]).2.contains("ends inside"));
    assert!(ended(&bytes[..96]).2.contains("kind 4"));
    bytes[8] = 8;
    assert!(ended(&bytes[..95]).2.contains("ends inside"));
    assert!(ended(&bytes[..96]).2.contains("flags"));
}

#[test]
fn a_window_may_end_anywhere() {
    let good = question_bytes(&window(Kind::LaneWindow, 9));
    for length in 1..good.len() {
        if length < 700 || length % 997 == 0 || length > good.len() - 12 {
            let (kept, number, why) = ended(&[&good[..], &good[..length]].concat());
            assert_eq!((kept, number), (33, 1));
            assert!(why.contains("ends inside"), "{length}: {why}");
        }
    }
}

#[test]
fn a_stream_may_end_anywhere() {
    let good = bytes(&plain());
    for length in 1..good.len() {
        if length < 700 || length % 997 == 0 {
            let (kept, number, why) = ended(&[&good[..], &good[..length]].concat());
            assert_eq!((kept, number), (Outcome::size(512, 33), 1));
            assert!(why.contains("ends inside"), "{length}: {why}");
        }
    }
}
