//! Variants that do something of their own with the right interpreter's help.

use crate::cases::{Case, Outcome};
use crate::decode::{decode, Family, Load};
use crate::generate::distance;
use crate::machine::{Answer, PC, SCALARS, SP};
use crate::rules::{Right, Rules};

pub const RAN: u8 = Answer::Ran as u8;
const UNDEFINED: u8 = Answer::Undefined as u8;
const SWITCHED_OFF: u8 = Answer::SwitchedOff as u8;
pub const STACK: u8 = Answer::Stack as u8;
const NO_MEMORY: u8 = Answer::NoMemory as u8;
pub const DENIED: u8 = Answer::Denied as u8;

pub fn faulted(outcome: &Outcome) -> bool {
    matches!(outcome.report.answer, NO_MEMORY | DENIED)
}

/// The right outcome of a changed case.
pub fn with(case: &Case, change: impl FnOnce(&mut Case)) -> Outcome {
    let mut case = case.clone();
    change(&mut case);
    case.into_outcome(&Right)
}

/// The right outcome, changed if the word is a load at all.
pub fn after(case: &Case, change: impl FnOnce(&Load, &mut Outcome)) -> Outcome {
    let mut outcome = case.outcome();
    if let Ok(load) = decode(&Right, case.word, true) {
        change(&load, &mut outcome);
    }
    outcome
}

/// The right outcome, changed if the load ran.
pub fn after_ran(case: &Case, change: impl FnOnce(&Load, &mut Outcome)) -> Outcome {
    after(case, |load, outcome| {
        if outcome.report.answer == RAN {
            change(load, outcome);
        }
    })
}

/// The right outcome; if the load ran, the bytes of its first or only destination before and after are
/// handed over.
pub fn destination(case: &Case, change: impl FnOnce(&Load, &[u8], &mut [u8])) -> Outcome {
    after_ran(case, |load, outcome| {
        let size = (case.bench.vl / 8) as usize;
        let range = load.t * size..(load.t + 1) * size;
        change(load, &case.bench.z[range.clone()], &mut outcome.z[range]);
    })
}

/// The governing predicate's bytes, to be changed.
pub fn mask<'a>(case: &'a mut Case, load: &Load) -> &'a mut [u8] {
    let size = (case.bench.vl / 64) as usize;
    case.bench
        .p
        .get_mut(load.g * size..(load.g + 1) * size)
        .unwrap_or_default()
}

pub fn active(case: &Case, load: &Load, e: u64) -> bool {
    Right.active(case.bench.predicate(load.g), e, load.esize)
}

/// Calls with each lane of the destination: its number in the block or vector that was loaded,
/// its number in the register, and its bytes.
pub fn each_lane(
    case: &Case,
    load: &Load,
    z: &mut [u8],
    mut call: impl FnMut(u64, u64, &mut [u8]),
) {
    let lanes = load.lanes(case.bench.vl);
    let copies = case.bench.vl / load.esize / lanes;
    let size = (load.esize / 8) as usize;
    for (e, lane) in (0..copies * lanes).zip(z.chunks_exact_mut(size)) {
        call(e % lanes, e, lane);
    }
}

pub fn inactive_keeps(case: &Case) -> Outcome {
    destination(case, |load, old, z| {
        if load.family.is_ldnr() {
            return;
        }
        let size = (load.esize / 8) as usize;
        each_lane(case, load, z, |own, e, lane| {
            if !active(case, load, own) {
                let first = e as usize * size;
                lane.copy_from_slice(&old[first..first + size]);
            }
        });
    })
}

/// The outcome with all lanes active, if the SVE load reads at all.
pub fn all_active(case: &Case) -> Option<Outcome> {
    let load = decode(&Right, case.word, case.bench.f64mm).ok()?;
    (!load.family.is_ldnr()).then(|| with(case, |case| mask(case, &load).fill(0xFF)))
}

pub fn fetched_then_masked(case: &Case) -> Outcome {
    match all_active(case) {
        Some(outcome) if faulted(&outcome) => outcome,
        _ => case.outcome(),
    }
}

pub fn denied_inactive(case: &Case) -> Outcome {
    match all_active(case) {
        Some(outcome) if outcome.report.answer == DENIED => outcome,
        _ => case.outcome(),
    }
}

/// Lane by lane from the last one down.
pub fn downward(case: &Case) -> Outcome {
    after(case, |load, outcome| {
        if !faulted(outcome) || load.family.is_ldnr() || load.family == Family::Ld1rElement {
            return;
        }
        let lanes = (0..load.lanes(case.bench.vl)).rev();
        for e in lanes.filter(|e| active(case, load, *e)) {
            let alone = with(case, |case| {
                let bit = e * load.esize / 8;
                mask(case, load).fill(0);
                mask(case, load)[(bit / 8) as usize] = 1 << (bit % 8);
            });
            if faulted(&alone) {
                outcome.report.answer = alone.report.answer;
                outcome.report.element = e;
                outcome.report.address = alone.report.address;
                return;
            }
        }
    })
}

/// What the lanes below the faulting one would hold is already in the register.
pub fn written_before_fault(case: &Case) -> Outcome {
    after(case, |load, outcome| {
        if !faulted(outcome) || outcome.report.count == 0 || load.family.is_ldnr() {
            return;
        }
        let faulting = outcome.report.element;
        let before = with(case, |case| {
            let bits = (faulting * load.esize / 8) as usize;
            for (number, byte) in mask(case, load).iter_mut().enumerate() {
                let kept = bits.saturating_sub(8 * number).min(8);
                *byte &= ((1_u16 << kept) - 1) as u8;
            }
        });
        let first = load.t * (case.bench.vl / 8) as usize;
        let range = first..first + (faulting * load.esize / 8) as usize;
        outcome.z[range.clone()].copy_from_slice(&before.z[range]);
    })
}

pub fn q0_keeps_upper(case: &Case) -> Outcome {
    destination(case, |load, old, z| {
        if load.datasize == 64 {
            z[8..].copy_from_slice(&old[8..]);
        }
    })
}

pub fn q0_fills_128(case: &Case) -> Outcome {
    destination(case, |load, _, z| {
        if load.datasize == 64 {
            z.copy_within(0..8, 8);
        }
    })
}

pub fn ld1r_keeps_z(case: &Case) -> Outcome {
    destination(case, |load, old, z| {
        if load.family.is_ldnr() {
            z[16..].copy_from_slice(&old[16..]);
        }
    })
}

pub fn more_scalars(case: &Case) -> Outcome {
    let more = case.bench.x.get(SCALARS..).unwrap_or_default();
    let mut outcome = with(case, |case| case.bench.x.truncate(SCALARS));
    outcome.x.extend(more);
    outcome
}

pub fn long_vector_file(case: &Case) -> Outcome {
    let right = case.bench.vl.saturating_mul(4).min(65_536) as usize;
    let more = case.bench.z.get(right..).unwrap_or_default();
    let mut outcome = with(case, |case| case.bench.z.truncate(right));
    outcome.z.extend(more);
    outcome
}

pub fn dh_dl_swapped(case: &Case) -> Outcome {
    with(case, |case| {
        if Family::of(case.word) == Some(Family::Ld1rElement) {
            let (dh, dl) = (case.word >> 23 & 3, case.word >> 13 & 3);
            case.word = case.word & !(3 << 23 | 3 << 13) | dl << 23 | dh << 13;
        }
    })
}

/// Another word instead, if that one is of the family.
fn with_word(case: &Case, word: u32, family: Family) -> Outcome {
    with(case, |case| {
        if Family::of(word) == Some(family) {
            case.word = word;
        }
    })
}

pub fn ldnf1(case: &Case) -> Outcome {
    with_word(case, case.word & !(1 << 20), Family::Ld1Immediate)
}

pub fn any_rm(case: &Case) -> Outcome {
    with_word(case, case.word & !(31 << 16), Family::LdnrNoOffset)
}

fn is_ldnr(case: &Case) -> bool {
    Family::of(case.word).is_some_and(Family::is_ldnr)
}

pub fn s_tolerated(case: &Case) -> Outcome {
    with(case, |case| {
        if is_ldnr(case) {
            case.word &= !(1 << 12);
        }
    })
}

pub fn l_tolerated(case: &Case) -> Outcome {
    with(case, |case| {
        if is_ldnr(case) {
            case.word |= 1 << 22;
        }
    })
}

pub fn f64mm_not_asked(case: &Case) -> Outcome {
    with(case, |case| case.bench.f64mm = true)
}

pub fn ld1r_asks_sve(case: &Case) -> Outcome {
    with(case, |case| {
        if is_ldnr(case) {
            case.bench.simd = case.bench.sve;
        }
    })
}

pub fn sve_asks_simd(case: &Case) -> Outcome {
    with(case, |case| case.bench.sve &= case.bench.simd)
}

pub fn short_vl_first(case: &Case) -> Outcome {
    after(case, |load, outcome| {
        let short = load.family.is_ld1ro() && case.bench.vl < 256;
        if short && outcome.report.answer == SWITCHED_OFF {
            outcome.report.answer = UNDEFINED;
        }
    })
}

pub fn switch_first(case: &Case) -> Outcome {
    let mut outcome = case.outcome();
    let on = if is_ldnr(case) {
        case.bench.simd
    } else {
        case.bench.sve
    };
    if outcome.report.answer == UNDEFINED && !on {
        outcome.report.answer = SWITCHED_OFF;
    }
    outcome
}

pub fn stack_last(case: &Case) -> Outcome {
    let outcome = case.outcome();
    if outcome.report.answer != STACK {
        return outcome;
    }
    // The same load with its unaligned address in a register that has no stack rule
    let read = with(case, |case| {
        case.bench.x[0] = case.bench.x[SP];
        case.word &= !(31 << 5);
    });
    Outcome {
        report: if faulted(&read) {
            read.report
        } else {
            outcome.report
        },
        ..outcome
    }
}

/// The outcome with another number in SP, which the register itself does not get.
fn with_sp(case: &Case, sp: u64) -> Outcome {
    let n_is_31 = case.word >> 5 & 31 == 31;
    let Some(before) = case.bench.x.get(SP).copied().filter(|_| n_is_31) else {
        return case.outcome();
    };
    let mut outcome = with(case, |case| case.bench.x[SP] = sp);
    outcome.x[SP] = before;
    outcome
}

pub fn rn31_zero(case: &Case) -> Outcome {
    with_sp(case, 0)
}

pub fn rn31_x30(case: &Case) -> Outcome {
    with_sp(case, case.bench.x.get(30).copied().unwrap_or(0))
}

pub fn exchanged(case: &Case) -> Outcome {
    let mut outcome = case.outcome();
    if faulted(&outcome) {
        outcome.report.answer = NO_MEMORY + DENIED - outcome.report.answer;
    }
    outcome
}

pub fn count_as_lane(case: &Case) -> Outcome {
    let mut outcome = case.outcome();
    if faulted(&outcome) {
        outcome.report.element = outcome.report.count;
    }
    outcome
}

pub fn count_with_fault(case: &Case) -> Outcome {
    let mut outcome = case.outcome();
    outcome.report.count += u64::from(faulted(&outcome));
    outcome
}

pub fn first_address(case: &Case) -> Outcome {
    after(case, |load, outcome| {
        if faulted(outcome) {
            let distance = distance(load, &case.bench, outcome.report.element);
            outcome.report.address = case.bench.x[load.n].wrapping_add(distance);
        }
    })
}

/// The right outcome with another post-index: the sum of base and this.
pub fn post_index(case: &Case, offs: impl FnOnce(&Load, u64) -> Option<u64>) -> Outcome {
    after_ran(case, |load, outcome| {
        let base = case.bench.x[load.n];
        if load.family == Family::LdnrPostIndex {
            if let Some(offs) = offs(load, base) {
                outcome.x[load.n] = base.wrapping_add(offs);
            }
        }
    })
}

pub fn rm31_adds_1(case: &Case) -> Outcome {
    post_index(case, |load, _| (load.m == 31).then_some(1))
}

pub fn rm31_adds_nothing(case: &Case) -> Outcome {
    post_index(case, |load, _| (load.m == 31).then_some(0))
}

pub fn rm_after(case: &Case) -> Outcome {
    post_index(case, |load, base| {
        (load.m == load.n && load.m != 31).then(|| base.wrapping_add(sum_of_reads(load)))
    })
}

/// What a post-index with Rm = 31 adds.
fn sum_of_reads(load: &Load) -> u64 {
    load.selem * load.esize / 8
}

pub fn base_after_fault(case: &Case) -> Outcome {
    after(case, |load, outcome| {
        if faulted(outcome) && load.family == Family::LdnrPostIndex {
            let offs = match load.m {
                31 => sum_of_reads(load),
                m => case.bench.x[m],
            };
            outcome.x[load.n] = outcome.x[load.n].wrapping_add(offs);
        }
    })
}

pub fn sp_not_written(case: &Case) -> Outcome {
    after_ran(case, |_, outcome| outcome.x[SP] = case.bench.x[SP])
}

pub fn pc_stays(case: &Case) -> Outcome {
    after_ran(case, |_, outcome| outcome.x[PC] = case.bench.x[PC])
}

pub fn pc_stops(case: &Case) -> Outcome {
    after_ran(case, |_, outcome| {
        outcome.x[PC] = case.bench.x[PC].saturating_add(4)
    })
}

pub fn pc_after_fault(case: &Case) -> Outcome {
    let mut outcome = case.outcome();
    if faulted(&outcome) {
        outcome.x[PC] = outcome.x[PC].wrapping_add(4);
    }
    outcome
}
