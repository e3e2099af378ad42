//! Generated cases go through another program of the same job, or through a step of another shape,
//! and the outcomes are compared with our own.

use std::io::{self, BufReader, BufWriter, Read, Write};
use std::process::{Child, ChildStdin, ChildStdout, Command, Stdio};
use std::thread;
use std::time::Duration;

use crate::cases::Step;
use crate::generate;
use crate::progress::Progress;
use crate::questions::{Question, Reply};
use crate::rules::Right;
use crate::tally::Tally;
use crate::telling::{question_in_words, replies_that_differ, reply_in_short};

/// What a comparison found.
pub enum Found {
    /// All outcomes are the same.
    NoDifference,
    /// The first case with another outcome, in words.
    Difference(String),
    /// The other program could not be run to its end.
    Trouble(String),
}

/// The first `count` questions that a seed makes: steps or windows.
#[derive(Clone, Copy)]
pub struct Questions {
    pub seed: u64,
    pub count: u64,
    pub windows: bool,
}

impl Questions {
    fn question(self, number: u64) -> Question {
        if self.windows {
            generate::window(self.seed, number)
        } else {
            generate::case(self.seed, number).into()
        }
    }

    /// The options that make a question again.
    fn again(self, number: u64) -> String {
        let kinds = if self.windows { " --kinds" } else { "" };
        format!("second case{kinds} --seed {} --number {number}", self.seed)
    }
}

/// Compares questions with the outcomes of a program; each one that agrees is shown to `seen`. Both
/// threads make the questions by themselves, so that however much the program buffers, neither waits
/// for the other.
pub fn compare(
    questions: Questions,
    program: &str,
    seen: &mut dyn FnMut(&Question, &Reply),
) -> Found {
    let mut child = match start(program) {
        Ok(child) => child,
        Err(error) => return Found::Trouble(format!("cannot start {program}: {error}")),
    };
    let (Some(stdin), Some(stdout)) = (child.stdin.take(), child.stdout.take()) else {
        return Found::Trouble(format!("{program} has no standard input or output"));
    };
    let found = thread::scope(|scope| {
        // A program that ends early closes the pipe; the reading side says so
        scope.spawn(move || write_cases(questions, stdin).unwrap_or_default());
        let found = read_outcomes(questions, program, stdout, seen);
        if !matches!(found, Found::NoDifference) {
            end(&mut child);
        }
        found
    });
    match (found, child.wait()) {
        (Found::NoDifference, Ok(status)) if !status.success() => Found::Trouble(format!(
            "{program} answered every case, then ended with {status}"
        )),
        (Found::Trouble(why), Ok(status)) if status.code().is_some() => {
            Found::Trouble(format!("{why} ({status})"))
        }
        (found, _) => found,
    }
}

fn start(program: &str) -> io::Result<Child> {
    Command::new(program)
        .stdin(Stdio::piped())
        .stdout(Stdio::piped())
        .spawn()
}

/// Ends a program whose outcomes are no longer read, and with it the writing thread. One that
/// stopped by itself gets the time to end with its own exit status.
fn end(child: &mut Child) {
    for _ in 0..50 {
        if !matches!(child.try_wait(), Ok(None)) {
            return;
        }
        thread::sleep(Duration::from_millis(10));
    }
    let _ = child.kill();
}

fn write_cases(questions: Questions, stdin: ChildStdin) -> io::Result<()> {
    let mut stdin = BufWriter::with_capacity(1 << 18, stdin);
    let mut bytes = Vec::new();
    for number in 0..questions.count {
        bytes.clear();
        questions.question(number).write(&mut bytes);
        stdin.write_all(&bytes)?;
    }
    stdin.flush()
}

fn read_outcomes(
    questions: Questions,
    program: &str,
    stdout: ChildStdout,
    seen: &mut dyn FnMut(&Question, &Reply),
) -> Found {
    let count = questions.count;
    let mut stdout = BufReader::with_capacity(1 << 18, stdout);
    let mut progress = Progress::new(count);
    let (mut ours, mut theirs) = (Vec::new(), Vec::new());
    for number in 0..count {
        let question = questions.question(number);
        let reply = question.reply();
        ours.clear();
        reply.write(&mut ours);
        theirs.resize(ours.len(), 0);
        if let Err(error) = stdout.read_exact(&mut theirs) {
            progress.end();
            return Found::Trouble(early_end(program, number, count, &error));
        }
        if ours != theirs {
            progress.end();
            let read = Reply::read(&mut &theirs[..], &question);
            return Found::Difference(match read {
                Ok(read) => difference(questions, number, ["second", "replay"], [&reply, &read]),
                Err(_) => format!("case {number} of seed {} differs\n", questions.seed),
            });
        }
        seen(&question, &reply);
        progress.at(number + 1);
    }
    progress.end();
    match stdout.read(&mut [0]) {
        Ok(0) => Found::NoDifference,
        _ => Found::Trouble(format!("{program} wrote more than {count} outcomes")),
    }
}

fn early_end(program: &str, number: u64, count: u64, error: &io::Error) -> String {
    if error.kind() == io::ErrorKind::UnexpectedEof {
        format!("the output of {program} ends before the outcome of case {number} of {count}")
    } else {
        format!("cannot read the outcome of case {number} from {program}: {error}")
    }
}

/// The case and both outcomes in words, and how to see them again.
fn difference(questions: Questions, number: u64, names: [&str; 2], replies: [&Reply; 2]) -> String {
    let question = questions.question(number);
    let [name_a, name_b] = names;
    let [a, b] = replies.map(|reply| reply_in_short(question.kind, reply));
    format!(
        "difference at case {number} of seed {}\n{}{name_a}: {a}\n{name_b}: {b}\n{}repeat: {}\n",
        questions.seed,
        question_in_words(&question),
        replies_that_differ(&question, names, replies),
        questions.again(number)
    )
}

/// Compares the step that follows the pages with one of another shape, case by case; what the cases
/// were, or the first difference in words.
pub fn agree(seed: u64, count: u64, other: Step) -> Result<Tally, String> {
    let questions = Questions {
        seed,
        count,
        windows: false,
    };
    let mut tally = Tally::default();
    let mut progress = Progress::new(count);
    for number in 0..count {
        let case = generate::case(seed, number);
        let theirs = case.outcome_by(other);
        let ours = case.outcome_under(&Right);
        if ours != theirs {
            progress.end();
            let replies = [&Reply::Step(ours), &Reply::Step(theirs)];
            return Err(difference(questions, number, ["pages", "plain"], replies));
        }
        tally.add(&case, ours.report.answer);
        progress.at(number + 1);
    }
    progress.end();
    Ok(tally)
}
