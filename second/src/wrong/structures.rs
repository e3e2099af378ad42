//! Variants that are wrong about LD2R, LD3R and LD4R: how many registers a word loads and which, where
//! the elements lie, what a fault leaves and tells.

use std::ops::Range;

use super::instead::{after, after_ran, faulted, post_index, with};
use crate::cases::{Case, Outcome};
use crate::decode::{registers, Family, Load};
use crate::loads::Report;
use crate::machine::{Answer, PC};
use crate::rules::{Right, Rules};

/// The bits of a word that are 0 for LD1R: R, and the lowest bit of opcode.
const MORE_THAN_ONE: u32 = 1 << 21 | 1 << 13;

bent! {
    RIgnored:
    fn selem(&self, opcode_0: u32, _: u32) -> u64 {
        Right.selem(opcode_0, 0)
    }

    OpcodeIgnored:
    fn selem(&self, _: u32, r: u32) -> u64 {
        Right.selem(0, r)
    }

    OpcodeAndRSwapped:
    fn selem(&self, opcode_0: u32, r: u32) -> u64 {
        Right.selem(r, opcode_0)
    }

    LDefined:
    fn replicate_allowed(&self, selem: u64, l: u32, s: u32) -> bool {
        Right.replicate_allowed(selem, if selem > 1 { 1 } else { l }, s)
    }

    SDefined:
    fn replicate_allowed(&self, selem: u64, l: u32, s: u32) -> bool {
        Right.replicate_allowed(selem, l, if selem > 1 { 0 } else { s })
    }

    LaterNoSp:
    fn ldnr_checks_sp(&self, load: &Load) -> bool {
        load.selem == 1
    }

    EightApart:
    fn element_offset(&self, _: u64, s: u64, _: &Load) -> u64 {
        8 * s
    }

    RegistersApart:
    fn element_offset(&self, _: u64, s: u64, load: &Load) -> u64 {
        load.datasize / 8 * s
    }

    OneAddress:
    fn element_offset(&self, _: u64, _: u64, _: &Load) -> u64 {
        0
    }

    OrderReversed:
    fn destination(&self, t: usize, s: u64, selem: u64) -> usize {
        Right.destination(t, selem - 1 - s, selem)
    }

    // There is no register 32, so nothing is written there
    NothingAfter31:
    fn destination(&self, t: usize, s: u64, _: u64) -> usize {
        t + s as usize
    }

    StaysAt31:
    fn destination(&self, t: usize, s: u64, _: u64) -> usize {
        (t + s as usize).min(31)
    }

    ZeroAfter30:
    fn destination(&self, t: usize, s: u64, _: u64) -> usize {
        (0..s).fold(t, |t, _| if t >= 30 { 0 } else { t + 1 })
    }

    ZeroAfter32:
    fn destination(&self, t: usize, s: u64, _: u64) -> usize {
        (t + s as usize) % 33
    }

    ByOneRead:
    fn post_index_immediate(&self, _: u64, load: &Load) -> u64 {
        load.esize / 8
    }

    ByOneReadFewer:
    fn post_index_immediate(&self, offs: u64, load: &Load) -> u64 {
        offs - if load.selem > 1 { load.esize / 8 } else { 0 }
    }

    ByRegisters:
    fn post_index_immediate(&self, _: u64, load: &Load) -> u64 {
        load.selem
    }

    ByWholeRegisters:
    fn post_index_immediate(&self, offs: u64, load: &Load) -> u64 {
        if load.selem > 1 { load.selem * load.datasize / 8 } else { offs }
    }
}

/// Whether a word is one of LD2R to LD4R, undefined or not.
fn loads_several(word: u32) -> bool {
    Family::of(word).is_some_and(Family::is_ldnr) && registers(&Right, word) > 1
}

fn becomes_outside(case: &Case, outside: bool) -> Outcome {
    with(case, |case| {
        if outside {
            case.word = 0;
        }
    })
}

pub fn outside_as_before(case: &Case) -> Outcome {
    becomes_outside(case, loads_several(case.word))
}

/// "L=0 or S=1 stays undefined": with more registers too, not outside.
pub fn undefined_is_outside(case: &Case) -> Outcome {
    let undefined = case.word >> 22 & 1 == 0 || case.word >> 12 & 1 == 1;
    becomes_outside(case, loads_several(case.word) && undefined)
}

/// A bit of opcode<2:1>, both of which are 1, is not looked at.
fn opcode_bit_tolerated(case: &Case, bit: u32) -> Outcome {
    with(case, |case| {
        if Family::of(case.word | bit).is_some_and(Family::is_ldnr) {
            case.word |= bit;
        }
    })
}

pub fn opcode_10x(case: &Case) -> Outcome {
    opcode_bit_tolerated(case, 1 << 14)
}

pub fn opcode_01x(case: &Case) -> Outcome {
    opcode_bit_tolerated(case, 1 << 15)
}

pub fn asks_sve_too(case: &Case) -> Outcome {
    with(case, |case| {
        if loads_several(case.word) {
            case.bench.simd &= case.bench.sve;
        }
    })
}

/// The right outcome, changed if a load of several registers ran.
fn several_ran(case: &Case, change: impl FnOnce(&Load, &mut Outcome)) -> Outcome {
    after_ran(case, |load, outcome| {
        if load.selem > 1 {
            change(load, outcome);
        }
    })
}

/// The right outcome, changed if a load of several registers met a bad byte.
fn several_faulted(case: &Case, change: impl FnOnce(&Load, &mut Outcome)) -> Outcome {
    after(case, |load, outcome| {
        if load.selem > 1 && faulted(outcome) {
            change(load, outcome);
        }
    })
}

/// Where in the vector file the register lies that element s goes to.
fn bytes_of(case: &Case, load: &Load, s: u64) -> Range<usize> {
    let size = (case.bench.vl / 8) as usize;
    let t = Right.destination(load.t, s, load.selem);
    t * size..(t + 1) * size
}

/// The outcome of LD1R for element s and its register alone; its base is X0, which has no stack rule.
fn alone(case: &Case, load: &Load, s: u64) -> Outcome {
    let base = case.bench.x[load.n].wrapping_add(s * load.esize / 8);
    with(case, |case| {
        let t = Right.destination(load.t, s, load.selem) as u32;
        case.word = case.word & !(MORE_THAN_ONE | 31 << 5 | 31) | t;
        case.bench.x[0] = base;
    })
}

/// As so many LD1R with post-index, one after the other.
pub fn one_by_one(case: &Case) -> Outcome {
    after(case, |load, outcome| {
        let read = outcome.report.answer == Answer::Ran.number() || faulted(outcome);
        if load.selem == 1 || load.family != Family::LdnrPostIndex || !read {
            return;
        }
        let mut turn = case.clone();
        for s in 0..load.selem {
            let t = Right.destination(load.t, s, load.selem) as u32;
            turn.word = case.word & !(MORE_THAN_ONE | 31) | t;
            let one = turn.outcome();
            if one.report.answer != Answer::Ran.number() {
                outcome.report = Report {
                    count: s,
                    element: if faulted(&one) { s } else { 0 },
                    ..one.report
                };
                outcome.z.clone_from(&case.bench.z);
                outcome.x.clone_from(&case.bench.x);
                return;
            }
            (turn.bench.z, turn.bench.x) = (one.z, one.x);
        }
        outcome.report = Report {
            answer: Answer::Ran.number(),
            count: load.selem,
            element: 0,
            address: 0,
        };
        (outcome.z, outcome.x) = (turn.bench.z, turn.bench.x);
        outcome.x[PC] = case.bench.x[PC].wrapping_add(4);
    })
}

pub fn xm_for_each(case: &Case) -> Outcome {
    post_index(case, |load, _| {
        (load.m != 31).then(|| case.bench.x[load.m].wrapping_mul(load.selem))
    })
}

pub fn written_before_fault(case: &Case) -> Outcome {
    several_faulted(case, |load, outcome| {
        for s in 0..outcome.report.element {
            let range = bytes_of(case, load, s);
            outcome.z[range.clone()].copy_from_slice(&alone(case, load, s).z[range]);
        }
    })
}

pub fn cleared_before_fault(case: &Case) -> Outcome {
    several_faulted(case, |load, outcome| {
        for s in 0..load.selem {
            outcome.z[bytes_of(case, load, s)].fill(0);
        }
    })
}

/// Every register holds what the one of element s holds.
fn all_take(case: &Case, load: &Load, outcome: &mut Outcome, s: u64) {
    let one = outcome.z[bytes_of(case, load, s)].to_vec();
    for s in 0..load.selem {
        outcome.z[bytes_of(case, load, s)].copy_from_slice(&one);
    }
}

pub fn all_take_first(case: &Case) -> Outcome {
    several_ran(case, |load, outcome| all_take(case, load, outcome, 0))
}

pub fn all_take_last(case: &Case) -> Outcome {
    several_ran(case, |load, outcome| {
        all_take(case, load, outcome, load.selem - 1)
    })
}

/// The elements follow each other in the lanes of each register.
pub fn structure_repeated(case: &Case) -> Outcome {
    several_ran(case, |load, outcome| {
        let ebytes = (load.esize / 8) as usize;
        let element = |s| outcome.z[bytes_of(case, load, s)][..ebytes].to_vec();
        let elements: Vec<Vec<u8>> = (0..load.selem).map(element).collect();
        for s in 0..load.selem {
            let filled = &mut outcome.z[bytes_of(case, load, s)][..(load.datasize / 8) as usize];
            for (lane, element) in filled.chunks_exact_mut(ebytes).zip(elements.iter().cycle()) {
                lane.copy_from_slice(element);
            }
        }
    })
}

/// The registers behind the first one, each with its bytes before and after.
fn later(case: &Case, change: impl Fn(&Load, &[u8], &mut [u8])) -> Outcome {
    several_ran(case, |load, outcome| {
        for s in 1..load.selem {
            let range = bytes_of(case, load, s);
            change(load, &case.bench.z[range.clone()], &mut outcome.z[range]);
        }
    })
}

pub fn later_q0_keeps_upper(case: &Case) -> Outcome {
    later(case, |load, old, z| {
        if load.datasize == 64 {
            z[8..].copy_from_slice(&old[8..]);
        }
    })
}

pub fn later_q0_fills_128(case: &Case) -> Outcome {
    later(case, |load, _, z| {
        if load.datasize == 64 {
            z.copy_within(0..8, 8);
        }
    })
}

pub fn later_keep_z(case: &Case) -> Outcome {
    later(case, |_, old, z| z[16..].copy_from_slice(&old[16..]))
}

pub fn only_first_written(case: &Case) -> Outcome {
    later(case, |_, old, z| z.copy_from_slice(old))
}

pub fn last_not_written(case: &Case) -> Outcome {
    several_ran(case, |load, outcome| {
        let range = bytes_of(case, load, load.selem - 1);
        outcome.z[range.clone()].copy_from_slice(&case.bench.z[range]);
    })
}

pub fn counts_one(case: &Case) -> Outcome {
    several_ran(case, |_, outcome| outcome.report.count = 1)
}

pub fn pc_for_each(case: &Case) -> Outcome {
    several_ran(case, |load, outcome| {
        outcome.x[PC] = case.bench.x[PC].wrapping_add(4 * load.selem);
    })
}

pub fn fault_at_element_0(case: &Case) -> Outcome {
    several_faulted(case, |_, outcome| outcome.report.element = 0)
}

pub fn fault_counts_none(case: &Case) -> Outcome {
    several_faulted(case, |_, outcome| outcome.report.count = 0)
}

pub fn register_told(case: &Case) -> Outcome {
    several_faulted(case, |load, outcome| {
        let t = Right.destination(load.t, outcome.report.element, load.selem);
        outcome.report.element = t as u64;
    })
}

pub fn base_told(case: &Case) -> Outcome {
    several_faulted(case, |load, outcome| {
        outcome.report.address = case.bench.x[load.n];
    })
}

/// From the last element down.
pub fn downward(case: &Case) -> Outcome {
    several_faulted(case, |load, outcome| {
        let mut turns = (0..load.selem).rev().map(|s| (s, alone(case, load, s)));
        if let Some((s, one)) = turns.find(|(_, one)| faulted(one)) {
            outcome.report = Report {
                element: s,
                count: load.selem - 1 - s,
                ..one.report
            };
        }
    })
}

/// All elements are looked for before the first right is asked.
pub fn no_memory_first(case: &Case) -> Outcome {
    several_faulted(case, |load, outcome| {
        let mut turns = (0..load.selem).map(|s| (s, alone(case, load, s).report));
        let no_memory = Answer::NoMemory.number();
        if let Some((s, report)) = turns.find(|(_, report)| report.answer == no_memory) {
            outcome.report = Report {
                element: s,
                count: s,
                ..report
            };
        }
    })
}
