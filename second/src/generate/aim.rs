//! Base and index registers: a lane of the load is put where something may go wrong.

use crate::decode::{Family, Load};
use crate::machine::{Area, Bench, PAGE, SP};
use crate::rng::Rng;

/// How far element `e` lies from the base, modulo 2^64, with the index register as it is.
pub fn distance(load: &Load, bench: &Bench, e: u64) -> u64 {
    let mbytes = load.msize / 8;
    let unit = match load.family {
        Family::Ld1rElement => mbytes,
        Family::Ld1Immediate => bench.vl / load.esize * mbytes,
        _ => load.family.block().unwrap_or(0) / 8,
    };
    let lead = if load.family.is_scalar() {
        bench.scalar(load.m).wrapping_mul(mbytes)
    } else {
        (load.offset as u64).wrapping_mul(unit)
    };
    let single = load.family == Family::Ld1rElement;
    lead.wrapping_add(if single { 0 } else { e * mbytes })
}

/// An index: small, negative, such that scaling it wraps, at an end of all numbers, or anything.
pub fn index(rng: &mut Rng, load: &Load, bench: &mut Bench) {
    let indexed = load.family.is_scalar() || load.family == Family::LdnrPostIndex;
    if !indexed || load.m >= SP {
        return;
    }
    let small = rng.below(600);
    bench.x[load.m] = match rng.below(6) {
        0 => small,
        1 => small.wrapping_neg(),
        2 => (rng.below(8) << 61).wrapping_add(small),
        3 => (rng.below(16) << 60).wrapping_sub(small),
        4 => rng.pick([0, 0, 0, 1, u64::MAX, 1 << 63, (1 << 63) - 1]),
        _ => rng.next_u64(),
    };
}

/// Sets the base so that one of the lanes lies at a target.
pub fn base(rng: &mut Rng, load: &Load, bench: &mut Bench) {
    let lanes = load.lanes(bench.vl);
    let lane = match rng.below(10) {
        // Each element of LD2R to LD4R as often as the others
        0..=4 if !load.family.is_ldnr() => 0,
        5 => lanes - 1,
        _ => rng.below(lanes),
    };
    let target = if load.family.is_ldnr() && rng.percent(60) {
        behind_the_others(rng, load, bench)
    } else {
        target(rng, load, bench)
    };
    put(load, bench, lane, target);
}

/// Where an element leaves its area or page, or is just behind it, while those before it lie there: the
/// fault is its own.
fn behind_the_others(rng: &mut Rng, load: &Load, bench: &Bench) -> u64 {
    let area = one_area(rng, bench);
    let edge = if rng.percent(50) {
        area.end() as u64
    } else {
        page_border(rng, area)
    };
    edge.wrapping_sub(rng.below(load.msize / 8))
}

/// Sets the base so that this lane lies at this address.
pub fn put(load: &Load, bench: &mut Bench, lane: u64, address: u64) {
    if load.family.is_scalar() && load.m == load.n {
        let at_lane_0 = address.wrapping_sub(lane * (load.msize / 8));
        bench.x[load.n] = own_index(at_lane_0, load.msize / 8);
    } else {
        bench.x[load.n] = address.wrapping_sub(distance(load, bench, lane));
    }
}

/// The X with X + X x m = target (modulo 2^64): 1 + m is odd and has an inverse, save for m = 1.
fn own_index(target: u64, mbytes: u64) -> u64 {
    if mbytes == 1 {
        return target / 2;
    }
    let odd = 1 + mbytes;
    // Newton's step doubles the number of right bits; an odd number is its own inverse to 3 bits
    let inverse = (0..5).fold(odd, |inverse: u64, _| {
        inverse.wrapping_mul(2_u64.wrapping_sub(odd.wrapping_mul(inverse)))
    });
    target.wrapping_mul(inverse)
}

/// An address near an edge of an area or a page, well inside an area, or anywhere.
fn target(rng: &mut Rng, load: &Load, bench: &Bench) -> u64 {
    let area = one_area(rng, bench);
    let border = page_border(rng, area);
    let before = before(rng, load.msize / 8);
    match rng.below(17) {
        0..=3 => (area.end() as u64).wrapping_sub(before),
        4 | 5 => area.start.wrapping_sub(before),
        6..=9 => border.wrapping_sub(before),
        10 => before.wrapping_neg(),
        11 if rng.percent(70) => rng.next_u64(),
        11 => border.wrapping_sub(rng.below(64)),
        _ => area.start.wrapping_add(rng.below(area.len())),
    }
}

/// One of the two areas, of which a full one is preferred to an empty one.
fn one_area<'a>(rng: &mut Rng, bench: &'a Bench) -> &'a Area {
    match (bench.flash.is_empty(), bench.ram.is_empty()) {
        (true, _) => &bench.ram,
        (_, true) => &bench.flash,
        _ => rng.pick([&bench.flash, &bench.ram]),
    }
}

/// A page border inside the area, if there is one.
fn page_border(rng: &mut Rng, area: &Area) -> u64 {
    let page = 1 + rng.below(area.pages_begun().saturating_sub(1));
    area.start.wrapping_add(page * PAGE)
}

/// How many bytes before an edge an element starts: mostly so that it lies on both sides, else
/// anywhere from two elements before the edge to one behind it.
fn before(rng: &mut Rng, mbytes: u64) -> u64 {
    if mbytes > 1 && rng.percent(60) {
        1 + rng.below(mbytes - 1)
    } else {
        rng.below(3 * mbytes + 1).wrapping_sub(mbytes)
    }
}

/// Makes SP a multiple of 16, save now and then; an index takes over what it can, so that the elements
/// stay where they are.
pub fn steady_stack(rng: &mut Rng, load: &Load, bench: &mut Bench) {
    let mbytes = load.msize / 8;
    if load.family.is_scalar() && load.m < SP {
        let taken = bench.x[SP] % 16 / mbytes;
        bench.x[load.m] = bench.x[load.m].wrapping_add(taken);
        bench.x[SP] -= taken * mbytes;
    }
    bench.x[SP] &= !15;
    if rng.percent(12) {
        bench.x[SP] |= rng.pick([1, 4, 8, 8]);
    }
}

/// SP mostly a multiple of 16, else mostly one of 8, so that the stack rule speaks now and then.
pub fn align_stack(rng: &mut Rng, sp: &mut u64) {
    match rng.below(20) {
        0..=13 => *sp &= !15,
        14..=16 => *sp = *sp & !15 | 8,
        _ => {}
    }
}
