//! Loads that fault at the last element they ask for: all that a fault can cost is in them.

use second::decode::decode;
use second::loads::Report;
use second::machine::{Answer, Bench, PAGE};
use second::plain;
use second::rng::Rng;
use second::rules::Right;

use crate::input::{is_index, Step};

/// The page of each area that is not to be read. The one before it and the last one stay readable.
const DENIED: usize = 1;

pub fn deny(bench: &mut Bench) {
    bench.flash.rights[DENIED] = 0;
    bench.ram.rights[DENIED] = 0;
}

/// Where a readable page ends: at one that is denied, or at the area's end, behind which is nothing.
fn edge(rng: &mut Rng, bench: &Bench) -> (u64, Answer) {
    let area = rng.pick([&bench.flash, &bench.ram]);
    rng.pick([
        (area.start + DENIED as u64 * PAGE, Answer::Denied),
        (area.start + area.len(), Answer::NoMemory),
    ])
}

/// The word with such a base that the last active element begins before an edge, by less bytes than
/// it has, and ends behind it; none if it has no active element, or does not fault just there.
pub fn step(rng: &mut Rng, word: u32, bench: &mut Bench) -> Option<Step> {
    let load = decode(&Right, word, bench.f64mm).ok()?;
    let scalar = load.family.is_scalar();
    // The base is stored before each step, so none is ever an index
    if is_index(load.n) || scalar && !is_index(load.m) {
        return None;
    }
    let lanes = load.lanes(bench.vl);
    let mask = bench.predicate(load.g);
    let active = |e: &u64| mask.bit(e * load.esize / 8);
    let last = (0..lanes).rev().find(active)?;
    let count = (0..last).filter(active).count() as u64;
    let first = match scalar {
        true => bench.x[load.m],
        false => (load.offset * lanes as i64) as u64,
    };
    let (address, answer) = edge(rng, bench);
    let size = load.msize / 8;
    let before = first.wrapping_add(last).wrapping_mul(size);
    let base = address.wrapping_sub(before.wrapping_add(rng.below(size)));
    bench.x[load.n] = base;
    let wanted = Report {
        answer: answer.number(),
        count,
        element: last,
        address,
    };
    let step = Step {
        word,
        n: load.n,
        base,
    };
    (plain::step(word, bench) == wanted).then_some(step)
}
