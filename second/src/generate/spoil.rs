//! Set-ups that are refused: one thing is made wrong, now and then two.

use super::values;
use crate::machine::{Area, Bench, PAGE, PREDICATES, VECTORS};
use crate::rng::Rng;

pub fn spoil(rng: &mut Rng, bench: &mut Bench) {
    spoil_one(rng, bench);
    if rng.percent(10) {
        spoil_one(rng, bench);
    }
}

fn spoil_one(rng: &mut Rng, bench: &mut Bench) {
    match rng.below(20) {
        0..=2 => vector_length(rng, bench),
        3..=5 => resize(rng, &mut bench.z, 65_536),
        6..=8 => resize(rng, &mut bench.p, 4096),
        9..=11 => resize(rng, &mut bench.x, 128),
        12..=14 => {
            let area = one_area(rng, bench);
            resize(rng, &mut area.rights, 64);
        }
        15 => {
            let area = one_area(rng, bench);
            area.start = area.start.wrapping_add(rng.pick([1, 8, 16, 2048, 4095]));
        }
        16 => run_over(rng, bench),
        17 if rng.percent(50) => too_long(rng, bench),
        _ => overlap(rng, bench),
    }
}

fn one_area<'a>(rng: &mut Rng, bench: &'a mut Bench) -> &'a mut Area {
    if rng.percent(50) {
        &mut bench.flash
    } else {
        &mut bench.ram
    }
}

/// A length that is none, with files as long as it asks, or such that a narrower or wrapping
/// product would be content with the files as they are.
fn vector_length(rng: &mut Rng, bench: &mut Bench) {
    let vl = bench.vl;
    let any = rng.below(3000);
    bench.vl = match rng.below(5) {
        0 | 1 => rng.pick([0, 0, 64, 129, 192, 2049, 2112, 2176, 2176, 4096]),
        2 => vl.wrapping_add(1 << rng.pick([12, 16, 32, 61, 62, 63])),
        3 => rng.pick([u64::MAX, u64::MAX - 127, 1 << 63, any]),
        _ => vl.wrapping_add(rng.pick([1, u64::MAX, 8, 64, 128])),
    };
    if bench.vl <= 8192 && rng.percent(90) {
        bench.z = values::old(rng, (VECTORS * (bench.vl / 8)) as usize);
        bench.p = rng.bytes((PREDICATES * (bench.vl / 64)) as usize);
    }
}

/// Another length than the right one: off by one, none, double, or as much as a case may have.
fn resize<T: Clone + Default>(rng: &mut Rng, file: &mut Vec<T>, most: usize) {
    let right = file.len();
    let length = match rng.below(10) {
        0..=2 => right + 1,
        3..=5 if right > 0 => right - 1,
        6 if right > 0 => 0,
        7 => right / 2,
        8 => 2 * right + 1,
        _ => right + rng.below((most - right.min(most)) as u64 + 1) as usize,
    };
    let value = file.last().cloned().unwrap_or_default();
    file.resize(length.min(most), value);
}

/// An area that runs over 2^64.
fn run_over(rng: &mut Rng, bench: &mut Bench) {
    let area = one_area(rng, bench);
    if area.len() <= PAGE {
        let length = PAGE + 1 + rng.below(PAGE);
        area.bytes = rng.bytes(length as usize);
        area.rights = vec![1; 2];
    }
    area.start = 0_u64.wrapping_sub(PAGE);
}

/// An area over the limit, with the right number of rights bytes.
fn too_long(rng: &mut Rng, bench: &mut Bench) {
    let area = one_area(rng, bench);
    let length = rng.pick([65_537, 65_537, 65_537, 69_632]);
    area.bytes = rng.bytes(length);
    area.rights = vec![1; length.div_ceil(PAGE as usize)];
    area.start = rng.below(1 << 51) * PAGE;
}

/// Two areas with an address in common: the same start, or the last page of the other.
fn overlap(rng: &mut Rng, bench: &mut Bench) {
    let (one, other) = if rng.percent(50) {
        (&mut bench.flash, &bench.ram)
    } else {
        (&mut bench.ram, &bench.flash)
    };
    let last = other.pages_begun().saturating_sub(1);
    one.start = other.start.wrapping_add(rng.pick([0, last]) * PAGE);
}
