//! The commands of `second`.

mod files;
mod options;

use std::env;
use std::io::{self, BufReader, Write};
use std::process::ExitCode;
use std::time::Instant;

use second::answer::{answer, Ended};
use second::broken;
use second::compare::{agree, compare, Found, Questions};
use second::describe::outcome_in_words;
use second::generate;
use second::holding::{self, Written};
use second::loads::right_step;
use second::plain;
use second::questions::{Kind, Question, Reply};
use second::recorded::{hold, weave, Bad};
use second::sample::{sample, Sample, EACH};
use second::sharp::{sharp, sharp_windows};
use second::tally::{Tally, WindowTally};
use second::telling::{question_in_words, reply_in_short};
use second::words::judge;

use files::{check_file, read_file, write_file};
use options::{usage, Options, Trouble};

const HELP: &str = "\
second: a second interpreter of Arm vector loads, written apart

  second answer [--plain] < cases > outcomes
      answers a stream of cases, as replay does; --plain: by the step of plain shape
  second agree --seed S --count N
      compares the two shapes of the step over N generated cases; shows how many of which family gave
      which answer, and how many have all their elements together; and what block loads from the
      stack have active
  second compare [--kinds] --seed S --count N [--replay PROGRAM]
      compares N generated cases with PROGRAM (default ./replay); shows the same tables; --kinds:
      questions for the two windows instead, by their answers
  second broken [--seed S] [--replay PROGRAM] [--pieces]
      sends broken streams through PROGRAM: what was answered stands, and one line says which case
      is broken and why; --pieces: written in small pieces
  second case [--kinds] --seed S --number K [--bytes FILE]
      shows one generated case and its outcome in words; writes its bytes; --kinds: a window's
  second sharp [--seed S] [--limit N]
      how many cases tell each deliberately wrong variant apart (defaults 1 and 20000)
  second sample --seed S [--more CASES] [--check] --cases FILE --outcomes FILE
      writes a sample of cases and their outcomes, or checks that the files are that sample; behind
      it come the cases of the file CASES
  second words < words.txt
      compares lines `hhhhhhhh text...` of binutils with our decoder and disassembler
  second recorded < pairs
      compares recorded outcomes with our own; a pair is a case and its recorded outcome
  second weave --cases FILE --outcomes FILE > pairs
      makes such pairs of a stream of cases and the stream of their outcomes
";

fn main() -> ExitCode {
    let (status, line) = match run() {
        Ok(()) => (0, None),
        Err(Trouble::Said(status)) => (status, None),
        Err(Trouble::Line(status, line)) => (status, Some(line)),
        // Whoever reads has seen enough
        Err(Trouble::Output(error)) if error.kind() == io::ErrorKind::BrokenPipe => (1, None),
        Err(Trouble::Output(error)) => (1, Some(format!("cannot write: {error}"))),
    };
    if let Some(line) = line {
        let _ = writeln!(io::stderr(), "second: {line}");
    }
    ExitCode::from(status)
}

fn run() -> Result<(), Trouble> {
    let mut words = Vec::new();
    for word in env::args_os().skip(1) {
        let word = word.into_string();
        words.push(word.map_err(|_| usage("an argument is not UTF-8"))?);
    }
    let Some((command, rest)) = words.split_first() else {
        return Err(usage("no command given; second --help lists them"));
    };
    match command.as_str() {
        "--help" | "-h" | "help" => say(HELP),
        "agree" => run_agree(rest),
        "answer" => run_answer(rest),
        "compare" => run_compare(rest),
        "broken" => run_broken(rest),
        "case" => run_case(rest),
        "sharp" => run_sharp(rest),
        "sample" => run_sample(rest),
        "words" => run_words(rest),
        "recorded" => run_recorded(rest),
        "weave" => run_weave(rest),
        _ => Err(usage(format!(
            "no command {command}; second --help lists them"
        ))),
    }
}

/// Writes to standard output and flushes it.
fn say(text: &str) -> Result<(), Trouble> {
    let mut out = io::stdout().lock();
    out.write_all(text.as_bytes())?;
    Ok(out.flush()?)
}

fn run_answer(words: &[String]) -> Result<(), Trouble> {
    let options = Options::read(words, &[], &["--plain"])?;
    let step = match options.text("--plain") {
        Some(_) => plain::step,
        None => right_step,
    };
    match answer(io::stdin().lock(), io::stdout().lock(), step) {
        Ok(_) => Ok(()),
        Err(Ended::Output(error)) => Err(error.into()),
        Err(Ended::Case { number, why }) => Err(Trouble::Line(1, format!("case {number}: {why}"))),
    }
}

fn run_agree(words: &[String]) -> Result<(), Trouble> {
    let options = Options::read(words, &["--seed", "--count"], &[])?;
    let seed = options.number("--seed", None)?;
    let count = options.number("--count", None)?;
    match agree(seed, count, plain::step) {
        Err(difference) => {
            say(&difference)?;
            Err(Trouble::Said(1))
        }
        Ok(tally) => say(&format!(
            "{}{count} cases of seed {seed}: both shapes of the step agree\n",
            tally.in_words()
        )),
    }
}

fn run_compare(words: &[String]) -> Result<(), Trouble> {
    let options = Options::read(words, &["--seed", "--count", "--replay"], &["--kinds"])?;
    let questions = Questions {
        seed: options.number("--seed", None)?,
        count: options.number("--count", None)?,
        windows: options.text("--kinds").is_some(),
    };
    let program = options.text("--replay").unwrap_or("./replay");
    let began = Instant::now();
    let (mut steps, mut windows) = (Tally::default(), WindowTally::default());
    let mut seen = |question: &Question, reply: &Reply| match question.kind {
        Kind::Step => steps.add(&question.lent, reply.report().answer),
        kind => windows.add(kind, reply.report().answer),
    };
    match compare(questions, program, &mut seen) {
        Found::Trouble(why) => Err(Trouble::Line(2, why)),
        Found::Difference(text) => {
            say(&text)?;
            Err(Trouble::Said(1))
        }
        Found::NoDifference => {
            let table = match questions.windows {
                true => windows.in_words(),
                false => steps.in_words(),
            };
            say(&(table + &no_difference(questions, began)))
        }
    }
}

/// The last line of a comparison without a difference.
fn no_difference(questions: Questions, began: Instant) -> String {
    let Questions {
        seed,
        count,
        windows,
    } = questions;
    let what = if windows { "questions" } else { "cases" };
    let millis = began.elapsed().as_millis().max(1);
    let rate = u128::from(count) * 1000 / millis;
    format!(
        "{count} {what} of seed {seed} in {}.{:03} s, {rate} a second: no difference\n",
        millis / 1000,
        millis % 1000
    )
}

fn run_broken(words: &[String]) -> Result<(), Trouble> {
    let options = Options::read(words, &["--seed", "--replay"], &["--pieces"])?;
    let streams = broken::streams(options.number("--seed", Some(1))?);
    let program = options.text("--replay").unwrap_or("./replay");
    let (written, how) = match options.text("--pieces") {
        Some(_) => (Written::InPieces, "in pieces"),
        None => (Written::AtOnce, "at once"),
    };
    for stream in &streams {
        holding::hold(program, stream, written).map_err(|why| Trouble::Line(1, why))?;
    }
    let all = streams.len();
    say(&format!(
        "{all} streams, written {how}, as they should be\n"
    ))
}

fn run_case(words: &[String]) -> Result<(), Trouble> {
    let options = Options::read(words, &["--seed", "--number", "--bytes"], &["--kinds"])?;
    let seed = options.number("--seed", None)?;
    let number = options.number("--number", None)?;
    let question = match options.text("--kinds") {
        Some(_) => generate::window(seed, number),
        None => generate::case(seed, number).into(),
    };
    if let Some(file) = options.text("--bytes") {
        let mut bytes = Vec::new();
        question.write(&mut bytes);
        write_file(file, &bytes)?;
    }
    let reply = question.reply();
    let outcome = match &reply {
        Reply::Step(outcome) => outcome_in_words(&question.lent, outcome),
        Reply::Window { .. } => format!("  {}\n", reply_in_short(question.kind, &reply)),
    };
    say(&format!(
        "case {number} of seed {seed}\n{}outcome\n{outcome}",
        question_in_words(&question),
    ))
}

fn run_sharp(words: &[String]) -> Result<(), Trouble> {
    let options = Options::read(words, &["--seed", "--limit"], &[])?;
    let seed = options.number("--seed", Some(1))?;
    let limit = options.number("--limit", Some(20_000))?;
    let mut told = sharp(seed, limit);
    told.extend(sharp_windows(seed, limit));
    let mut text = String::new();
    for told in &told {
        let (cases, line) = match &told.by {
            Some(first) => ((first.number + 1).to_string(), first.line.as_str()),
            None => ("-".to_string(), "not told apart"),
        };
        text += &format!("{cases:>7}  {}\n         {line}\n", told.name);
    }
    let survivors = told.iter().filter(|told| told.by.is_none()).count();
    let all = told.len();
    text +=
        &format!("{all} variants, {survivors} not told apart in {limit} cases of seed {seed}\n");
    say(&text)?;
    if survivors > 0 {
        return Err(Trouble::Said(1));
    }
    Ok(())
}

fn run_sample(words: &[String]) -> Result<(), Trouble> {
    let values = ["--seed", "--more", "--cases", "--outcomes"];
    let options = Options::read(words, &values, &["--check"])?;
    let seed = options.number("--seed", None)?;
    let files = [options.needed("--cases")?, options.needed("--outcomes")?];
    let mut sample = sample(seed).map_err(|why| Trouble::Line(1, why))?;
    let more = match options.text("--more") {
        Some(file) => put_behind(&mut sample, file)?,
        None => 0,
    };
    let contents = [&sample.cases, &sample.outcomes];
    for (file, bytes) in files.into_iter().zip(contents) {
        if options.text("--check").is_some() {
            check_file(file, bytes, seed)?;
        } else {
            write_file(file, bytes)?;
        }
    }
    say(&format!(
        "{}{} cases of seed {seed}, {} of them lie together, {} questions for the windows, and {more} \
         more, {} + {} bytes; {} + {} cells covered, each family with each answer at least {EACH} times\n",
        sample.coverage.in_words(),
        sample.numbers.len(),
        sample.together,
        sample.windows.len(),
        sample.cases.len(),
        sample.outcomes.len(),
        sample.cells.len(),
        sample.window_cells.len(),
    ))
}

/// Puts the cases of a file behind the sample, and their outcomes; gives how many there are.
fn put_behind(sample: &mut Sample, file: &str) -> Result<u64, Trouble> {
    let cases = read_file(file)?;
    let more =
        answer(&cases[..], &mut sample.outcomes, right_step).map_err(|ended| match ended {
            Ended::Output(error) => error.into(),
            Ended::Case { number, why } => {
                Trouble::Line(1, format!("{file}: case {number}: {why}"))
            }
        })?;
    sample.cases.extend(cases);
    Ok(more)
}

fn run_words(words: &[String]) -> Result<(), Trouble> {
    Options::read(words, &[], &[])?;
    let judged = judge(io::stdin().lock());
    let judged = judged.map_err(|error| Trouble::Line(1, format!("cannot read: {error}")))?;
    let mut text = String::new();
    for line in &judged.disagreements {
        text += &format!("{line}\n");
    }
    text += &format!(
        "{} lines, {} agree on the family; {} loads of ours, {} with the same text\n",
        judged.lines, judged.same_family, judged.loads, judged.same_text
    );
    say(&text)?;
    if judged.disagreements.is_empty() {
        Ok(())
    } else {
        Err(Trouble::Said(1))
    }
}

fn bad_pair((number, why): Bad) -> Trouble {
    Trouble::Line(1, format!("step {number}: {why}"))
}

fn run_recorded(words: &[String]) -> Result<(), Trouble> {
    Options::read(words, &[], &[])?;
    let held = hold(BufReader::new(io::stdin().lock()), right_step).map_err(bad_pair)?;
    say(&held.differences.concat())?;
    say(&format!(
        "{} of {} recorded steps agree\n",
        held.agree, held.steps
    ))?;
    if held.differences.is_empty() {
        Ok(())
    } else {
        Err(Trouble::Said(1))
    }
}

fn run_weave(words: &[String]) -> Result<(), Trouble> {
    let options = Options::read(words, &["--cases", "--outcomes"], &[])?;
    let cases = read_file(options.needed("--cases")?)?;
    let outcomes = read_file(options.needed("--outcomes")?)?;
    let pairs = weave(cases.as_slice(), outcomes.as_slice()).map_err(bad_pair)?;
    let mut out = io::stdout().lock();
    out.write_all(&pairs)?;
    Ok(out.flush()?)
}
