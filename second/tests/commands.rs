//! The program's commands: what they say and how they end.

mod programs;

use std::fs;
use std::process::{Command, Stdio};
use std::sync::OnceLock;

use programs::{place, run, script, text, SECOND};
use second::sample::CASES;

fn read(file: &str) -> Vec<u8> {
    fs::read(file).expect("written")
}

/// The two files of a sample, under names of a test's own.
struct Files {
    cases: String,
    outcomes: String,
}

impl Files {
    fn of(test: &str) -> Files {
        let [cases, outcomes] = ["cases", "outcomes"].map(|what| {
            let path = place(&format!("{test}.{what}"));
            path.to_str().expect("UTF-8").to_string()
        });
        Files { cases, outcomes }
    }

    /// A command that is given both files.
    fn with<'a>(&'a self, command: &[&'a str]) -> Vec<&'a str> {
        let files = ["--cases", &self.cases, "--outcomes", &self.outcomes];
        [command, &files].concat()
    }

    /// The sample of seed 1, which is made once for all tests.
    fn sampled(test: &str) -> Files {
        static MADE: OnceLock<[Vec<u8>; 2]> = OnceLock::new();
        let [cases, outcomes] = MADE.get_or_init(|| {
            let made = Files::of("made");
            assert_eq!(run(&made.with(&["sample", "--seed", "1"]), &[]).0, 0);
            [read(&made.cases), read(&made.outcomes)]
        });
        let files = Files::of(test);
        fs::write(&files.cases, cases).expect("written");
        fs::write(&files.outcomes, outcomes).expect("written");
        files
    }
}

fn compare(program: &str, count: &str) -> (i32, String, String) {
    let arguments = [
        "compare", "--seed", "4", "--count", count, "--replay", program,
    ];
    let (status, output, errors) = run(&arguments, &[]);
    (status, text(output), errors)
}

#[test]
fn help_and_bad_arguments() {
    let (status, output, _) = run(&["--help"], &[]);
    let help = text(output);
    assert_eq!(status, 0);
    let commands = [
        "agree", "answer", "broken", "compare", "case", "recorded", "sharp", "sample", "weave",
        "words",
    ];
    for command in commands {
        assert!(help.contains(&format!("second {command}")));
    }
    let bad: [&[&str]; 11] = [
        &[],
        &["agree", "--count", "1"],
        &["answer", "--plain", "--plain"],
        &["nothing"],
        &["answer", "more"],
        &["compare", "--seed", "1"],
        &["compare", "--seed", "x", "--count", "1"],
        &["compare", "--seed"],
        &["case", "--seed", "1", "--seed", "2"],
        &["case", "--seed", "18446744073709551616", "--number", "0"],
        &["sample", "--seed", "1", "--cases", "a"],
    ];
    for arguments in bad {
        let (status, output, errors) = run(arguments, &[]);
        assert_eq!((status, output.len()), (2, 0), "{arguments:?}");
        assert_eq!(errors.lines().count(), 1, "{arguments:?}");
    }
}

#[test]
fn answer_ends_with_one_line_at_a_bad_case() {
    assert_eq!(run(&["answer"], &[]), (0, vec![], String::new()));
    let (status, output, errors) = run(&["answer"], b"KKJ2");
    assert_eq!((status, output.len()), (1, 0));
    assert_eq!(errors, "second: case 0: wrong magic 4B 4B 4A 32\n");
}

#[test]
fn both_shapes_of_the_step_answer_and_agree() {
    let files = Files::sampled("shapes");
    for arguments in [vec!["answer"], vec!["answer", "--plain"]] {
        let (status, output, _) = run(&arguments, &read(&files.cases));
        assert_eq!(status, 0);
        assert!(output == read(&files.outcomes));
    }
    let (status, output, _) = run(&["agree", "--seed", "4", "--count", "1000"], &[]);
    assert_eq!(status, 0);
    let output = text(output);
    table_of_answers(&output, 1000);
    let last = output.lines().last().expect("a line");
    assert_eq!(last, "1000 cases of seed 4: both shapes of the step agree");
}

/// The table by family and answer: all cases are in it, and its last column adds up to the line below.
fn table_of_answers(output: &str, cases: u64) {
    let lines: Vec<&str> = output.lines().collect();
    assert!(lines[0].starts_with("answer") && lines[0].ends_with(" together"));
    let (mut answers, mut together) = (0, 0);
    for line in &lines[1..11] {
        let cells: Vec<u64> = (line.split_whitespace().rev().take(9))
            .map(|cell| cell.parse().expect("a number"))
            .collect();
        assert!(cells[0] <= cells[8], "only a load that ran lies together");
        together += cells[0];
        answers += cells[1..].iter().sum::<u64>();
    }
    assert_eq!(answers, cases);
    let percent = 100 * together / cases;
    assert!(lines[11].starts_with(&format!("{together} of {cases} cases, {percent}.")));
    assert!(lines[11].ends_with(" %, lie together"));
    table_of_the_stack(&lines[16..23]);
}

/// The table of block loads from the stack: a lane makes the check, and what is no lane does not.
fn table_of_the_stack(lines: &[&str]) {
    assert!(lines[0].starts_with("SP as base, active") && lines[0].ends_with(" LD1RO scalar"));
    let names = [
        "in the block",
        "in a later copy",
        "in what is left over",
        "no lane, other bits",
        "no bit",
    ];
    for (number, (line, name)) in lines[2..].iter().zip(names).enumerate() {
        let (start, cells) = line.split_at(20);
        assert_eq!(start.trim_end(), name);
        let cells: Vec<Option<u64>> = (cells.split_whitespace())
            .map(|cell| cell.parse().ok())
            .collect();
        assert_eq!(cells.len(), 4 * 4, "{line}");
        for (family, cells) in cells.chunks(4).enumerate() {
            match cells {
                [Some(cases), Some(stack), Some(ran), Some(askew)] => {
                    assert!(number == 0 || stack + ran == *cases, "{line}");
                    assert!(stack + ran <= *cases && *cases > 0, "{line}");
                    assert_eq!(if number < 3 { *askew } else { *stack }, 0, "{line}");
                }
                _ => assert!(cells == [None; 4] && name.contains("left over") && family < 2),
            }
        }
    }
}

#[test]
fn compare_finds_no_difference_to_itself() {
    let program = script("same", &format!("exec '{SECOND}' answer"));
    let (status, output, _) = compare(&program, "3000");
    assert_eq!(status, 0);
    assert!(output.contains("3000 cases") && output.contains("no difference"));
    assert!(output.contains("LD1RO scalar"));
    table_of_answers(&output, 3000);
    assert_eq!(compare(&program, "0").0, 0);
}

#[test]
fn compare_shows_the_first_difference() {
    let program = script("other", &format!("'{SECOND}' answer | tr '\\007' '\\006'"));
    let (status, output, _) = compare(&program, "3000");
    assert_eq!(status, 1);
    for part in [
        "difference at case",
        "word ",
        "flash: start",
        "second: ",
        "replay: ",
    ] {
        assert!(output.contains(part), "{part}");
    }
    let repeat = output.lines().last().expect("a line");
    assert!(repeat.starts_with("repeat: second case --seed 4 --number "));
}

#[test]
fn compare_tells_when_the_program_does_not_work() {
    let lines = [
        (
            "early",
            "exec true".to_string(),
            "ends before the outcome of case 0",
        ),
        (
            "more",
            format!("'{SECOND}' answer; echo more"),
            "wrote more",
        ),
        (
            "failing",
            format!("'{SECOND}' answer; exit 3"),
            "exit status: 3",
        ),
        (
            "cut",
            format!("'{SECOND}' answer | head -c 5000"),
            "ends before the outcome",
        ),
    ];
    for (name, line, why) in lines {
        let (status, output, errors) = compare(&script(name, &line), "300");
        assert_eq!((status, output.as_str()), (2, ""), "{name}");
        let last = errors.lines().last().expect("a line");
        assert!(
            last.starts_with("second: ") && last.contains(why),
            "{errors}"
        );
    }
    let missing = place("missing");
    let (status, _, errors) = compare(missing.to_str().expect("UTF-8"), "3");
    assert_eq!((status, errors.lines().count()), (2, 1));
}

#[test]
fn a_case_is_shown_and_written_and_answered() {
    let file = place("case");
    let file = file.to_str().expect("UTF-8");
    let arguments = ["case", "--seed", "1", "--number", "15", "--bytes", file];
    let (status, output, _) = run(&arguments, &[]);
    assert_eq!(status, 0);
    let words = text(output);
    assert!(words.contains("case 15 of seed 1") && words.contains(" bytes from 0x"));
    let (status, output, _) = run(&["answer"], &fs::read(file).expect("written"));
    assert_eq!(status, 0);
    assert!(output.len() > 25);
}

#[test]
fn sharp_tells_all_apart_or_says_so() {
    let (status, output, _) = run(&["sharp", "--seed", "1"], &[]);
    assert_eq!(status, 0);
    assert!(text(output).contains("0 not told apart"));
    let (status, output, _) = run(&["sharp", "--limit", "3"], &[]);
    assert_eq!(status, 1);
    assert!(text(output).contains("not told apart"));
}

#[test]
fn a_sample_is_written_and_checked() {
    let files = Files::sampled("sample");
    let check = files.with(&["sample", "--seed", "1", "--check"]);
    let (status, output, _) = run(&check, &[]);
    assert_eq!(status, 0);
    let told = text(output);
    let line = told.lines().last().expect("a line");
    let (cases, _) = line.split_once(" cases of seed 1, 3").expect(line);
    let cases: usize = cases.parse().expect(line);
    assert!((CASES..CASES + 50).contains(&cases), "{line}");
    assert!(line.contains(" of them lie together, 1"), "{line}");
    assert!(
        line.contains(" questions for the windows, and 0 more, "),
        "{line}"
    );
    assert_eq!(told.lines().filter(|line| line.contains(" x ")).count(), 6);
    let (status, output, _) = run(&["answer"], &read(&files.cases));
    assert_eq!(status, 0);
    assert!(output == read(&files.outcomes));
    let mut other = output;
    other.pop();
    fs::write(&files.outcomes, other).expect("written");
    let (status, _, errors) = run(&check, &[]);
    assert_eq!((status, errors.lines().count()), (1, 1));
}

#[test]
fn more_cases_stand_behind_a_sample() {
    let (own, with) = (Files::sampled("own"), Files::of("with"));
    let more = place("more");
    let more = more.to_str().expect("UTF-8");
    let case = ["case", "--seed", "9", "--number", "4", "--bytes", more];
    assert_eq!(run(&case, &[]).0, 0);
    let sample = ["sample", "--seed", "1", "--more", more];
    let (status, output, _) = run(&with.with(&sample), &[]);
    assert_eq!(status, 0);
    assert!(text(output).contains(" and 1 more, "));
    assert!(read(&with.cases) == [read(&own.cases), read(more)].concat());
    let (_, outcome, _) = run(&["answer"], &read(more));
    assert!(read(&with.outcomes) == [read(&own.outcomes), outcome].concat());
    let check = [&sample[..], &["--check"]].concat();
    assert_eq!(run(&with.with(&check), &[]).0, 0);
    assert_eq!(run(&own.with(&check), &[]).0, 1);
    fs::write(more, b"KKJ1").expect("written");
    let (status, _, errors) = run(&with.with(&sample), &[]);
    assert_eq!((status, errors.lines().count()), (1, 1));
    assert!(errors.contains("more: case 0: "), "{errors}");
}

#[test]
fn words_agree_or_are_shown() {
    let (status, output, _) = run(&["words"], b"85c0e000 ld1rd {z0.d}, p0/z, [x0]\n");
    assert_eq!((status, text(output).lines().count()), (0, 1));
    let (status, output, _) = run(&["words"], b"85c0e000 nop\n");
    assert_eq!((status, text(output).lines().count()), (1, 2));
}

#[test]
fn a_closed_pipe_is_no_panic() {
    for arguments in [
        vec!["--help"],
        vec!["sharp"],
        vec!["case", "--seed", "1", "--number", "1"],
    ] {
        let mut child = Command::new(SECOND)
            .args(arguments)
            .stdout(Stdio::piped())
            .stderr(Stdio::piped())
            .spawn()
            .expect("second starts");
        drop(child.stdout.take());
        let output = child.wait_with_output().expect("second ends");
        assert!(output.stderr.is_empty());
        assert!(output.status.code().is_some_and(|status| status < 2));
    }
}

#[test]
fn pairs_are_woven_and_held() {
    let files = Files::sampled("woven");
    let weave = files.with(&["weave"]);
    let (status, pairs, _) = run(&weave, &[]);
    assert_eq!(status, 0);
    let (status, output, _) = run(&["recorded"], &pairs);
    assert_eq!(status, 0);
    let output = text(output);
    let (agree, steps) = output.split_once(" of ").expect("two numbers");
    assert!(agree.parse::<u64>().is_ok_and(|agree| agree > 700));
    assert_eq!(steps, format!("{agree} recorded steps agree\n"));
    let mut more = read(&files.outcomes);
    more.push(0);
    fs::write(&files.outcomes, more).expect("written");
    let (status, pairs, errors) = run(&weave, &[]);
    assert_eq!((status, pairs.len(), errors.lines().count()), (1, 0, 1));
}
