//! The program behind `./bench-speed`: compares the proved step with an ordinary one.
//!
//! `check` compares the outcomes, `time` takes the time. For somebody who counts instructions: `list`
//! lists row and who, `rounds` makes N rounds of these, and `table` makes a table of the counts;
//! which rows is `all` or `families`. For somebody who counts them by address: `rows` names the rows,
//! and `rounds` says how many steps a round has and where the proved step lies.

mod check;
mod clock;
mod faults;
mod host;
mod input;
mod rows;
mod table;
mod time;
mod who;

use std::env;
use std::io::{self, Write};
use std::process::ExitCode;

use input::Input;
use rows::{measured, Question};
use table::Table;
use who::Who;

/// The exit status when an outcome differs, and that of all other trouble.
const DIFFERS: u8 = 1;
const TROUBLE: u8 = 2;

fn main() -> ExitCode {
    let arguments: Vec<String> = env::args().skip(1).collect();
    let arguments: Vec<&str> = arguments.iter().map(String::as_str).collect();
    let done = match arguments[..] {
        ["check"] => check::check(&rows::all()).map_err(|line| (DIFFERS, line)),
        _ => run(&arguments).map_err(|line| (TROUBLE, line)),
    };
    let said = done.and_then(|text| write(&text).map_err(|line| (TROUBLE, line)));
    match said {
        Ok(()) => ExitCode::SUCCESS,
        Err((status, line)) => {
            // Where standard error is closed too, the status still tells
            let _ = writeln!(io::stderr(), "bench-speed: {line}");
            ExitCode::from(status)
        }
    }
}

fn write(text: &str) -> Result<(), String> {
    let mut out = io::stdout();
    let written = out.write_all(text.as_bytes()).and_then(|()| out.flush());
    written.map_err(|error| format!("cannot write to standard output: {error}"))
}

fn run(arguments: &[&str]) -> Result<String, String> {
    match arguments {
        ["time"] => time::time(rows::all()),
        ["list", which] => Ok(list(&asked(which)?)),
        ["rows"] => Ok(named(&rows::all())),
        ["rounds", row, who, rounds] => make_rounds(row, who, rounds),
        ["table", which, rounds] => {
            let table = Table::read(io::stdin().lock(), asked(which)?, number(rounds)?)?;
            Ok(table.text())
        }
        _ => Err("check, time, list WHICH, rows, rounds ROW WHO N, or table WHICH N".to_string()),
    }
}

fn asked(which: &str) -> Result<Vec<Question>, String> {
    match which {
        "all" => Ok(rows::all()),
        "families" => Ok(vec![rows::families()]),
        _ => Err(format!("{which}: all or families")),
    }
}

fn number(text: &str) -> Result<u64, String> {
    text.parse().map_err(|error| format!("{text}: {error}"))
}

/// The families are the first rows of all, so a row has one number whichever are asked for.
fn list(questions: &[Question]) -> String {
    let mut text = String::new();
    for (number, (_, who)) in measured(questions).into_iter().enumerate() {
        for who in who {
            text += &format!("{number} {}\n", who.name());
        }
    }
    text
}

/// Each row's number, VL and name.
fn named(questions: &[Question]) -> String {
    let rows = measured(questions).into_iter().enumerate();
    rows.map(|(number, (row, _))| format!("{number} {} {}\n", row.vl, row.name()))
        .collect()
}

fn make_rounds(row: &str, who: &str, rounds: &str) -> Result<String, String> {
    let rows = measured(&rows::all());
    let (row, _) = *rows.get(number(row)? as usize).ok_or("no such row")?;
    let who = Who::ALL.into_iter().find(|known| known.name() == who);
    let Input { mut bench, steps } = Input::of(row)?;
    who.ok_or("no such one")?
        .rounds(number(rounds)?, &steps, &mut bench);
    Ok(format!("{} {:x}\n", steps.len(), host::place()))
}
