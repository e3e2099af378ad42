//! Variants that are wrong about copies: of a block, or of a single element.

use super::instead::{active, after_ran, destination, each_lane, mask, with};
use crate::cases::{Case, Outcome};
use crate::decode::{decode, Family, Load};
use crate::rules::Right;

pub fn copies_ask(case: &Case) -> Outcome {
    destination(case, |load, _, z| {
        if load.family.block().is_some() {
            each_lane(case, load, z, |_, e, lane| {
                if !active(case, load, e) {
                    lane.fill(0);
                }
            });
        }
    })
}

pub fn left_over_filled(case: &Case) -> Outcome {
    destination(case, |load, _, z| {
        if load.family.is_ld1ro() {
            let whole = z.len() / 32 * 32;
            let rest = z.len() - whole;
            z.copy_within(0..rest, whole);
        }
    })
}

/// The right outcome; if a block load ran, its block and its other copies are handed over.
fn copies(case: &Case, change: impl FnOnce(&Load, &[u8], &mut [u8])) -> Outcome {
    destination(case, |load, _, z| {
        if let Some(bits) = load.family.block() {
            let size = (bits / 8) as usize;
            let whole = z.len() / size * size;
            let (block, others) = z[..whole].split_at_mut(size);
            change(load, block, others);
        }
    })
}

pub fn copies_a_lane_off(case: &Case) -> Outcome {
    copies(case, |load, block, others| {
        for copy in others.chunks_exact_mut(block.len()) {
            copy.rotate_left((load.esize / 8) as usize);
        }
    })
}

pub fn copies_of_second_half(case: &Case) -> Outcome {
    copies(case, |_, block, others| {
        let half = &block[block.len() / 2..];
        for part in others.chunks_exact_mut(half.len()) {
            part.copy_from_slice(half);
        }
    })
}

pub fn left_over_kept(case: &Case) -> Outcome {
    destination(case, |load, old, z| {
        if load.family.is_ld1ro() {
            let whole = z.len() / 32 * 32;
            z[whole..].copy_from_slice(&old[whole..]);
        }
    })
}

/// The block's lanes go by the predicate bits of the copy behind it.
pub fn bits_of_second_copy(case: &Case) -> Outcome {
    with(case, |case| {
        let Ok(load) = decode(&Right, case.word, case.bench.f64mm) else {
            return;
        };
        let Some(bits) = load.family.block() else {
            return;
        };
        let mask = mask(case, &load);
        let size = (bits / 64) as usize;
        if 2 * size <= mask.len() {
            mask.copy_within(size..2 * size, 0);
        }
    })
}

fn count_times(case: &Case, times: impl FnOnce(&Load) -> Option<u64>) -> Outcome {
    after_ran(case, |load, outcome| {
        outcome.report.count *= times(load).unwrap_or(1);
    })
}

pub fn ld1r_counts_copies(case: &Case) -> Outcome {
    count_times(case, |load| {
        load.family.is_ldnr().then(|| load.datasize / load.esize)
    })
}

pub fn element_counts_lanes(case: &Case) -> Outcome {
    count_times(case, |load| {
        let lanes = 0..load.lanes(case.bench.vl);
        let active = || lanes.filter(|e| active(case, load, *e)).count() as u64;
        (load.family == Family::Ld1rElement).then(active)
    })
}

pub fn block_counts_copies(case: &Case) -> Outcome {
    count_times(case, |load| {
        load.family.block().map(|bits| case.bench.vl / bits)
    })
}
