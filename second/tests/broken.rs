//! Broken streams: our own program holds them, and wrong ones do not.

mod programs;

use std::collections::BTreeSet;

use programs::{run, script, SECOND};
use second::broken::{streams, Broken};
use second::holding::{hold, Written};

/// A program for `--replay` that pipes through `second answer`.
fn answering(name: &str, line: &str) -> String {
    script(
        &format!("broken-{name}"),
        &line.replace("ANSWER", &format!("'{SECOND}' answer")),
    )
}

#[test]
fn our_own_program_holds_every_stream() {
    let program = answering("own", "exec ANSWER");
    let (status, output, errors) = run(&["broken", "--replay", &program], &[]);
    let output = String::from_utf8(output).expect("text");
    assert_eq!((status, errors.as_str()), (0, ""));
    assert!(output.contains("streams, written at once, as they should be"));
}

#[test]
fn our_own_program_holds_every_stream_in_pieces() {
    let program = answering("own-pieces", "exec ANSWER");
    let (status, output, errors) = run(&["broken", "--pieces", "--replay", &program], &[]);
    let output = String::from_utf8(output).expect("text");
    assert_eq!((status, errors.as_str()), (0, ""));
    assert!(output.contains("streams, written in pieces, as they should be"));
}

#[test]
fn wrong_programs_are_told() {
    let wrong = [
        ("loses", "ANSWER | head -c 100", " bytes came"),
        (
            "silent",
            "exec ANSWER 2> /dev/null",
            "0 lines on standard error",
        ),
        (
            "twice",
            "ANSWER || echo more >&2",
            "2 lines on standard error",
        ),
        (
            "always",
            "ANSWER; echo well >&2",
            "1 lines on standard error, not 0",
        ),
        (
            "from-1",
            "ANSWER 2>&1 >&3 3>&- | sed 's/case /case 1/' >&2 3>&-",
            "has no `case 3: `",
        ),
        (
            "no-cause",
            "ANSWER 2>&1 >&3 3>&- | sed 's/\\(case [0-9]*: \\).*/\\1bad/' >&2 3>&-",
            "has no `",
        ),
    ];
    for (name, line, why) in wrong {
        let line = match line.contains(">&3") {
            true => format!("{{ {line}; }} 3>&1"),
            false => line.to_string(),
        };
        let program = answering(name, &line);
        let (status, _, errors) = run(&["broken", "--replay", &program], &[]);
        assert_eq!((status, errors.lines().count()), (1, 1), "{name}: {errors}");
        assert!(errors.contains(why), "{name}: {errors}");
    }
}

/// The one stream of this name.
fn stream(what: &str) -> Broken {
    let mut streams = streams(1).into_iter();
    streams
        .find(|stream| stream.what == what)
        .unwrap_or_else(|| panic!("no stream {what}"))
}

#[test]
fn a_program_that_stops_after_many_cases_is_told() {
    // 1,000 cases of the many are not more than 400,000 bytes
    let program = answering("stops", "head -c 400000 | ANSWER");
    let many = stream("a wrong magic behind many cases");
    assert!(many.cases > 20_000 && many.good.len() > 2_000_000);
    assert!(hold(&program, &many, Written::AtOnce).is_err());
    assert!(hold(&answering("goes-on", "exec ANSWER"), &many, Written::AtOnce).is_ok());
}

#[test]
fn one_read_for_a_whole_case_is_told_in_pieces_alone() {
    let program = answering("one-read", "dd bs=1000000 count=1 2> /dev/null | ANSWER");
    let good = stream("nothing but good cases");
    assert_eq!(hold(&program, &good, Written::AtOnce), Ok(()));
    assert!(hold(&program, &good, Written::InPieces).is_err());
}

#[test]
fn every_cause_is_tried_and_told_apart() {
    let streams = streams(1);
    let names: BTreeSet<&str> = streams.iter().map(|stream| stream.what.as_str()).collect();
    assert_eq!(names.len(), streams.len());
    let causes: BTreeSet<&str> = streams
        .iter()
        .filter_map(|stream| stream.broken.as_ref())
        .map(|last| last.cause)
        .collect();
    let expected = [
        "blob_len",
        "ends inside",
        "flag",
        "flash_len",
        "flash_rights_len",
        "kind",
        "level",
        "magic",
        "p_len",
        "ram_len",
        "ram_rights_len",
        "x_count",
        "z_len",
    ];
    assert_eq!(causes.into_iter().collect::<Vec<_>>(), expected);
    for what in ["the longest step", "the longest address window"] {
        let longest = stream(what);
        assert!(longest.broken.is_none() && longest.good.len() > 330_000);
    }
}

#[test]
fn streams_of_other_seeds_are_held_too() {
    let program = answering("seeds", "exec ANSWER");
    for seed in [2, 77] {
        for stream in streams(seed).iter().filter(|stream| stream.cases < 100) {
            assert_eq!(hold(&program, stream, Written::AtOnce), Ok(()));
        }
    }
}
