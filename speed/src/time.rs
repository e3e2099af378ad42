//! Takes the time: CPU time of this thread, in blocks that those who are measured make in turns.

use crate::clock::{cpu, Watch};
use crate::input::{Input, Step};
use crate::rows::Question;
use crate::table::Table;
use crate::who::Who;
use second::machine::Bench;

/// Blocks of each who is measured, in turns, and how long one lasts.
const BLOCKS: usize = 15;
const BLOCK_SECONDS: f64 = 0.010;

pub fn time(questions: Vec<Question>) -> Result<String, String> {
    let watch = Watch::start();
    let unit = "ns of CPU time per step";
    let table = Table::of(unit, questions, |row, who| {
        let Input { mut bench, steps } = Input::of(row)?;
        Ok(medians(who, &steps, &mut bench))
    })?;
    let (busy, text) = (watch.line(), table.text());
    Ok(format!(
        "measured: CPU time of the thread, median of {BLOCKS} blocks of some 10 ms each, in turns\n\
         {busy}\n{text}"
    ))
}

/// Nanoseconds per step of each: the median of blocks in turns.
fn medians(who: &[Who], steps: &[Step], bench: &mut Bench) -> Vec<f64> {
    let mut block = |who: Who, rounds: u64| {
        let began = cpu();
        who.rounds(rounds, steps, bench);
        cpu() - began
    };
    let mut rounds = |who: &Who| {
        // To warm the buffers up
        block(*who, 10);
        let mut tried = 10;
        // However coarse the clock is, some ticks of it tell how many rounds make a block
        loop {
            let seconds = block(*who, tried);
            if seconds > BLOCK_SECONDS / 10.0 {
                return (tried as f64 * BLOCK_SECONDS / seconds).ceil() as u64;
            }
            tried *= 2;
        }
    };
    let rounds: Vec<u64> = who.iter().map(&mut rounds).collect();
    let mut times = vec![Vec::new(); who.len()];
    for turn in 0..=BLOCKS {
        for (i, who) in who.iter().enumerate() {
            let seconds = block(*who, rounds[i]);
            // The first turn is a warm-up too
            if turn > 0 {
                times[i].push(seconds * 1e9 / (rounds[i] as f64 * steps.len() as f64));
            }
        }
    }
    times.into_iter().map(median).collect()
}

fn median(mut numbers: Vec<f64>) -> f64 {
    numbers.sort_by(f64::total_cmp);
    numbers[numbers.len() / 2]
}
