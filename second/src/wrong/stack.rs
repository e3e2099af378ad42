//! Variants that are wrong about the stack rule of block loads, as request Two of document 02 has it: which
//! bits of the predicate make the check, and what the lanes past the block do besides.

use std::ops::Range;

use super::instead::{
    active, after_ran, all_active, destination, each_lane, faulted, mask, with, RAN, STACK,
};
use crate::cases::{Case, Outcome};
use crate::decode::{decode, Family, Load};
use crate::loads::Report;
use crate::machine::{Mask, SP};
use crate::rules::{Right, Rules};

/// Whether one of these bits is set, of which each `apart`-th counts.
fn any(mask: Mask, bits: Range<u64>, apart: u64) -> bool {
    bits.step_by(apart as usize).any(|bit| mask.bit(bit))
}

/// How many bits of a predicate there are for a block; 0 for a load that has none.
fn block_bits(load: &Load) -> u64 {
    load.family.block().unwrap_or(0) / 8
}

/// The check of block loads made for lanes whose first bit is one of these, given the bits of a block and
/// of the predicate; the right one for other loads.
fn for_bits(
    load: &Load,
    mask: Mask,
    right: bool,
    bits: impl FnOnce(u64, u64) -> Range<u64>,
) -> bool {
    match block_bits(load) {
        0 => right,
        block => any(mask, bits(block, mask.bits()), load.esize / 8),
    }
}

/// As document 01 had it before request Two, for those loads that `of` names.
fn as_before(load: &Load, mask: Mask, right: bool, of: fn(Family) -> bool) -> bool {
    for_bits(load, mask, right, |block, all| match of(load.family) {
        true => 0..block,
        false => 0..all,
    })
}

bent! {
    BlockLanesOnly:
    fn stack_asks(&self, load: &Load, mask: Mask, right: bool) -> bool {
        as_before(load, mask, right, |_| true)
    }

    Ld1rqAsBefore:
    fn stack_asks(&self, load: &Load, mask: Mask, right: bool) -> bool {
        as_before(load, mask, right, |family| !family.is_ld1ro())
    }

    Ld1roAsBefore:
    fn stack_asks(&self, load: &Load, mask: Mask, right: bool) -> bool {
        as_before(load, mask, right, Family::is_ld1ro)
    }

    ScalarAsBefore:
    fn stack_asks(&self, load: &Load, mask: Mask, right: bool) -> bool {
        as_before(load, mask, right, Family::is_scalar)
    }

    ImmediateAsBefore:
    fn stack_asks(&self, load: &Load, mask: Mask, right: bool) -> bool {
        as_before(load, mask, right, |family| !family.is_scalar())
    }

    WholeCopiesOnly:
    fn stack_asks(&self, load: &Load, mask: Mask, right: bool) -> bool {
        for_bits(load, mask, right, |block, all| 0..all / block * block)
    }

    PastBlockOnly:
    fn stack_asks(&self, load: &Load, mask: Mask, right: bool) -> bool {
        for_bits(load, mask, right, |block, all| block..all)
    }

    // A comment of page 002: "low 16 bits only"
    First16Bits:
    fn stack_asks(&self, load: &Load, mask: Mask, right: bool) -> bool {
        for_bits(load, mask, right, |_, _| 0..16)
    }

    First32Bits:
    fn stack_asks(&self, load: &Load, mask: Mask, right: bool) -> bool {
        for_bits(load, mask, right, |_, _| 0..32)
    }

    AllButLast:
    fn stack_asks(&self, load: &Load, mask: Mask, right: bool) -> bool {
        for_bits(load, mask, right, |_, all| 0..all - load.esize / 8)
    }

    LanesOf64:
    fn stack_asks(&self, load: &Load, mask: Mask, right: bool) -> bool {
        match block_bits(load) {
            0 => right,
            _ => any(mask, 0..mask.bits(), 8),
        }
    }

    // A predicate has a bit for each byte, so that a lane of a byte is any bit
    LanesOfBytes:
    fn stack_asks(&self, load: &Load, mask: Mask, right: bool) -> bool {
        right || block_bits(load) > 0 && any(mask, 0..mask.bits(), 1)
    }

    AnyBitPastBlock:
    fn stack_asks(&self, load: &Load, mask: Mask, right: bool) -> bool {
        let block = block_bits(load);
        right || block > 0 && any(mask, block..mask.bits(), 1)
    }

    Ld1AnyBit:
    fn stack_asks(&self, load: &Load, mask: Mask, right: bool) -> bool {
        let ld1 = matches!(load.family, Family::Ld1Immediate | Family::Ld1Scalar);
        right || ld1 && any(mask, 0..mask.bits(), 1)
    }

    ElementAnyBit:
    fn stack_asks(&self, load: &Load, mask: Mask, right: bool) -> bool {
        right || load.family == Family::Ld1rElement && any(mask, 0..mask.bits(), 1)
    }

    Always:
    fn check_sp_none_active(&self, load: &Load) -> bool {
        load.family.block().is_some()
    }

    Never:
    fn stack_asks(&self, load: &Load, _: Mask, right: bool) -> bool {
        right && load.family.block().is_none()
    }

    ReadsEveryLane:
    fn block_lanes_read(&self, _: u64, all_lanes: u64) -> u64 {
        all_lanes
    }
}

/// The load of a case, if it is one of a block.
fn block_load(case: &Case) -> Option<Load> {
    let load = decode(&Right, case.word, case.bench.f64mm).ok()?;
    load.family.block().map(|_| load)
}

/// The right outcome; or answer 5 where a block load came past the stack rule and this holds.
fn refused_if(case: &Case, holds: impl FnOnce(&Load) -> bool) -> Outcome {
    let outcome = case.outcome();
    let came = outcome.report.answer == RAN || faulted(&outcome);
    if !came || !block_load(case).is_some_and(|load| holds(&load)) {
        return outcome;
    }
    Outcome {
        report: Report {
            answer: STACK,
            count: 0,
            element: 0,
            address: 0,
        },
        z: case.bench.z.clone(),
        x: case.bench.x.clone(),
    }
}

/// What is left over is taken for a whole copy, whose bits go on in the next predicate.
pub fn next_predicate_too(case: &Case) -> Outcome {
    refused_if(case, |load| {
        let size = case.bench.vl / 8;
        let first = load.g as u64 * size;
        let bits = first + size..first + size.next_multiple_of(block_bits(load));
        let askew = load.n == SP && !Right.sp_aligned(case.bench.x[SP]);
        askew && any(Mask(&case.bench.p), bits, load.esize / 8)
    })
}

pub fn any_base(case: &Case) -> Outcome {
    refused_if(case, |load| {
        let mut all = 0..case.bench.vl / load.esize;
        !Right.sp_aligned(case.bench.x[load.n]) && all.any(|e| active(case, load, e))
    })
}

/// The lanes past the block can fault, and are not counted.
pub fn judges_every_lane(case: &Case) -> Outcome {
    let judged = case.outcome_under(&ReadsEveryLane);
    if faulted(&judged) {
        judged
    } else {
        case.outcome()
    }
}

pub fn counts_every_lane(case: &Case) -> Outcome {
    after_ran(case, |load, outcome| {
        if load.family.block().is_some() {
            let all = 0..case.bench.vl / load.esize;
            outcome.report.count = all.filter(|e| active(case, load, *e)).count() as u64;
        }
    })
}

/// Where only lanes past the block are active, its first element is looked at all the same.
pub fn looks_at_first_element(case: &Case) -> Outcome {
    let right = case.outcome();
    let Some(load) = block_load(case).filter(|_| right.report.answer == RAN) else {
        return right;
    };
    let any = |mut lanes: Range<u64>| lanes.any(|e| active(case, &load, e));
    let own = load.lanes(case.bench.vl);
    if any(0..own) || !any(own..case.bench.vl / load.esize) {
        return right;
    }
    let looked = with(case, |case| mask(case, &load)[0] |= 1);
    if faulted(&looked) {
        looked
    } else {
        right
    }
}

/// A lane of a later copy holds what the block has there if its own bit says so.
pub fn filled_by_own_bit(case: &Case) -> Outcome {
    let filled = all_active(case).filter(|filled| filled.report.answer == RAN);
    destination(case, |load, _, z| {
        let Some(filled) = filled.filter(|_| load.family.block().is_some()) else {
            return;
        };
        let (register, size) = (load.t * z.len(), (load.esize / 8) as usize);
        each_lane(case, load, z, |_, e, lane| {
            if active(case, load, e) {
                let first = register + e as usize * size;
                lane.copy_from_slice(&filled.z[first..first + size]);
            }
        });
    })
}
