//! What is measured for a row: a bench, and words that end on it as the row says.

use second::decode::{Family, Pattern};
use second::machine::{Area, Bench, PAGE, SCALARS, SP};
use second::plain;
use second::rng::Rng;

use crate::faults;
use crate::rows::{Lanes, Row, Set};

/// How many words each family has, and how many are tried for them: far more than it takes.
pub const WORDS: usize = 256;
const TRIES: usize = 1000 * WORDS;

const SEED: u64 = 20_261_115;
const PAGES: u64 = 4;
const FLASH: u64 = 0x0800_0000;
const RAM: u64 = 0x2000_0000;

/// A word with its base register and what that holds before the step: a post-index moves it.
#[derive(Clone, Copy)]
pub struct Step {
    pub word: u32,
    pub n: usize,
    pub base: u64,
}

pub struct Input {
    pub bench: Bench,
    pub steps: Vec<Step>,
}

impl Input {
    pub fn of(row: Row) -> Result<Input, String> {
        let mut bench = bench(row.vl);
        match row.set {
            // What runs with all lanes active runs with any, so that the words stay the same
            Set::Active(_) => activate(&mut bench, Lanes::All),
            Set::Faults => faults::deny(&mut bench),
            Set::Family(_) | Set::Mixed => {}
        }
        let steps = steps(row, &bench)?;
        if let Set::Active(lanes) = row.set {
            activate(&mut bench, lanes);
        }
        Ok(Input { bench, steps })
    }
}

/// Every page readable, every switch on.
fn bench(vl: u64) -> Bench {
    let mut rng = Rng::new(SEED, vl);
    Bench {
        simd: true,
        sve: true,
        f64mm: true,
        vl,
        z: rng.bytes(32 * (vl / 8) as usize),
        p: predicates(&mut rng, (vl / 64) as usize),
        x: scalars(&mut rng),
        flash: area(&mut rng, FLASH),
        ram: area(&mut rng, RAM),
    }
}

fn area(rng: &mut Rng, start: u64) -> Area {
    Area {
        start,
        bytes: rng.bytes((PAGES * PAGE) as usize),
        rights: vec![1; PAGES as usize],
    }
}

/// Odd registers hold an index, even ones and SP a base.
pub fn is_index(number: usize) -> bool {
    number % 2 == 1 && number != SP
}

/// Small indices, and bases in the middle of flash or RAM, where every immediate stays inside. Half
/// of the bases are multiples of 16, as SP must be.
fn scalars(rng: &mut Rng) -> Vec<u64> {
    let mut x = vec![0; SCALARS];
    for (number, value) in x.iter_mut().enumerate() {
        if is_index(number) {
            *value = rng.below(64);
        } else {
            let start = rng.pick([FLASH, RAM]);
            *value = start + PAGE + rng.below((PAGES - 2) * PAGE);
            if number % 4 == 0 || number == SP {
                *value &= !15;
            }
        }
    }
    x
}

/// P0 to P7 govern: all lanes, none, every other 64-bit lane, the first half, most, few, some at
/// random, every other 16-bit lane. P8 to P15 are not used by these loads.
fn predicates(rng: &mut Rng, size: usize) -> Vec<u8> {
    let mut p = vec![0; 16 * size];
    for (number, byte) in p.iter_mut().enumerate() {
        let [a, b, c] = [(); 3].map(|()| rng.next_u64() as u8);
        let at = number % size;
        *byte = match number / size {
            0 => 0xFF,
            2 if at % 2 == 0 => 0xFF,
            3 if at < size / 2 => 0xFF,
            4 => a | b | c,
            5 => a & b & c,
            6 => a,
            7 => 0x33,
            _ => 0,
        };
    }
    p
}

/// The same in every predicate register, whatever the size of a lane: bit 0 is lane 0 of them all,
/// and every other 64 bits are half of the lanes, in a block of 128 bits too.
fn activate(bench: &mut Bench, lanes: Lanes) {
    let size = (bench.vl / 64) as usize;
    for (number, byte) in bench.p.iter_mut().enumerate() {
        let at = number % size;
        *byte = match lanes {
            Lanes::One if at == 0 => 0x01,
            Lanes::Half if at % 2 == 0 => 0xFF,
            Lanes::All => 0xFF,
            _ => 0,
        };
    }
}

/// The words of each family of the row; if there are several, in one shuffled order.
fn steps(row: Row, bench: &Bench) -> Result<Vec<Step>, String> {
    let families = row.families();
    let words = families.iter().map(|family| words(row, *family, bench));
    let mut steps = words.collect::<Result<Vec<_>, _>>()?.concat();
    if families.len() > 1 {
        let mut rng = Rng::new(SEED + 1 + Family::ALL.len() as u64, bench.vl);
        for last in (1..steps.len()).rev() {
            steps.swap(last, rng.below(last as u64 + 1) as usize);
        }
    }
    Ok(steps)
}

/// A family's fixed bits. Of LD1R to LD4R it is LD1R that is measured, as before there were the others:
/// R and the lowest bit of opcode are 0.
fn pattern(family: Family) -> Pattern {
    let Pattern { mask, value } = family.pattern();
    let one_register = if family.is_ldnr() {
        1 << 21 | 1 << 13
    } else {
        0
    };
    Pattern {
        mask: mask | one_register,
        value,
    }
}

/// Words of a family with all fields random, kept if they end as the row says.
fn words(row: Row, family: Family, bench: &Bench) -> Result<Vec<Step>, String> {
    let mut rng = Rng::new(SEED + 1 + family as u64, bench.vl);
    let pattern = pattern(family);
    let mut tried = bench.clone();
    let mut kept = Vec::new();
    for _ in 0..TRIES {
        let word = rng.next_u64() as u32 & !pattern.mask | pattern.value;
        kept.extend(match row.set {
            Set::Faults => faults::step(&mut rng, word, &mut tried),
            _ => runs(word, bench, &mut tried),
        });
        if kept.len() == WORDS {
            return Ok(kept);
        }
    }
    let (found, name, vl) = (kept.len(), family.name(), bench.vl);
    Err(format!(
        "only {found} of {WORDS} words of {name} at VL {vl} end as the row says"
    ))
}

/// The word with its base, if it runs.
fn runs(word: u32, bench: &Bench, tried: &mut Bench) -> Option<Step> {
    let n = (word >> 5 & 31) as usize;
    let base = bench.x[n];
    tried.x[n] = base;
    // A load of bytes runs with base and index exchanged too. But one store restores all that a
    // post-index moves only if no base is ever an index
    (!is_index(n) && plain::step(word, tried).answer == 0).then_some(Step { word, n, base })
}
