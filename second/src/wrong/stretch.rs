//! Variants that take all elements from one stretch of bytes where they should not, or that are wrong
//! only where all elements lie together.

use super::instead::{
    active, after_ran, all_active, destination, each_lane, inactive_keeps, pc_stays, with, DENIED,
    STACK,
};
use crate::cases::{Case, Outcome};
use crate::decode::decode;
use crate::loads::Report;
use crate::machine::{Area, Bench, PAGE, SP};
use crate::rules::Right;
use crate::together::{lies_together, readable, Stretch};

/// The right outcome, but where `bytes` gives what the stretch holds these are read, whatever lies there
/// and whether it may be read or not.
fn straight(case: &Case, bytes: impl Fn(Stretch, &Area) -> Option<Vec<u8>>) -> Outcome {
    let Bench { flash, ram, .. } = &case.bench;
    let given = Stretch::of_case(case).and_then(|stretch| {
        let bytes = bytes(stretch, flash).or_else(|| bytes(stretch, ram))?;
        (stretch.end() <= 1 << 64).then_some((stretch, bytes))
    });
    match given {
        Some((stretch, bytes)) => with(case, |case| {
            let before = (stretch.first % PAGE) as usize;
            case.bench.ram = Area::default();
            case.bench.flash = Area {
                start: stretch.first - stretch.first % PAGE,
                bytes: [vec![0; before], bytes].concat(),
                rights: vec![1; 2],
            };
            let flash = &mut case.bench.flash;
            flash.rights.truncate(flash.pages_begun() as usize);
        }),
        None => case.outcome(),
    }
}

/// The bytes of a stretch in an area that has its first one; behind the area's end all are zero.
fn bytes_of(stretch: Stretch, area: &Area) -> Option<Vec<u8>> {
    let first = area.offset_of(stretch.first)?;
    let mut bytes: Vec<u8> = area.bytes[first..].to_vec();
    bytes.resize(stretch.length as usize, 0);
    Some(bytes)
}

pub fn right_of_first_page(case: &Case) -> Outcome {
    straight(case, |stretch, area| {
        let asked = *stretch.pages(area).start();
        (stretch.lies_in(area) && readable(area, asked)).then(|| bytes_of(stretch, area))?
    })
}

pub fn right_of_last_page(case: &Case) -> Outcome {
    straight(case, |stretch, area| {
        let asked = *stretch.pages(area).end();
        (stretch.lies_in(area) && readable(area, asked)).then(|| bytes_of(stretch, area))?
    })
}

pub fn last_byte_not_asked(case: &Case) -> Outcome {
    straight(case, |stretch, area| {
        let asked = Stretch {
            length: stretch.length - 1,
            ..stretch
        };
        let taken = asked.length > 0 && stretch.lies_in(area) && asked.readable_in(area);
        taken.then(|| bytes_of(stretch, area))?
    })
}

pub fn first_byte_not_asked(case: &Case) -> Outcome {
    straight(case, |stretch, area| {
        let asked = Stretch {
            first: stretch.first.wrapping_add(1),
            length: stretch.length - 1,
        };
        let taken = asked.length > 0 && stretch.lies_in(area) && asked.readable_in(area);
        taken.then(|| bytes_of(stretch, area))?
    })
}

pub fn bounds_of_first_byte(case: &Case) -> Outcome {
    straight(case, |stretch, area| {
        let first = area.offset_of(stretch.first)?;
        let here = (area.len() - first as u64).min(stretch.length);
        let here = Stretch {
            length: here,
            ..stretch
        };
        here.readable_in(area).then(|| bytes_of(stretch, area))?
    })
}

pub fn one_byte_past_the_area(case: &Case) -> Outcome {
    straight(case, |stretch, area| {
        let past = stretch.end() == area.end() + 1;
        (past && stretch.length > 1).then(|| bytes_of(stretch, area))?
    })
}

/// The bytes of the other area, as far from its start.
pub fn from_the_other_area(case: &Case) -> Outcome {
    let Bench { flash, ram, .. } = &case.bench;
    straight(case, |stretch, area| {
        let other = if std::ptr::eq(area, flash) {
            ram
        } else {
            flash
        };
        let there = Stretch {
            first: stretch
                .first
                .wrapping_sub(area.start)
                .wrapping_add(other.start),
            ..stretch
        };
        let taken = stretch.readable_in(area) && there.lies_in(other);
        taken.then(|| bytes_of(there, other))?
    })
}

pub fn a_lane_apart(case: &Case) -> Outcome {
    let Ok(load) = decode(&Right, case.word, case.bench.f64mm) else {
        return case.outcome();
    };
    let (mbytes, ebytes) = ((load.msize / 8) as usize, load.esize / 8);
    straight(case, |stretch, area| {
        let wide = Stretch {
            length: load.elements(case.bench.vl) * ebytes,
            ..stretch
        };
        let bytes = wide.readable_in(area).then(|| bytes_of(wide, area))??;
        let elements = bytes
            .chunks(ebytes as usize)
            .flat_map(|lane| &lane[..mbytes]);
        Some(elements.copied().collect())
    })
}

/// Bytes that lie in another area than the first one are not found.
pub fn one_area_alone(case: &Case) -> Outcome {
    with(case, |case| {
        let Some(stretch) = Stretch::of_case(case) else {
            return;
        };
        let Bench { flash, ram, .. } = &mut case.bench;
        if flash.offset_of(stretch.first).is_some() {
            *ram = Area::default();
        } else if ram.offset_of(stretch.first).is_some() {
            *flash = Area::default();
        }
    })
}

/// A fault where a page beside the stretch, which does not touch it, is asked too and is denied.
fn asks_beside(case: &Case, beside: impl Fn(Stretch, &Area) -> Option<usize>) -> Outcome {
    let denied = |area: &Area| {
        let stretch = Stretch::of_case(case).filter(|stretch| stretch.readable_in(area))?;
        let page = beside(stretch, area)?;
        (page < area.rights.len() && !readable(area, page)).then_some(stretch.first)
    };
    let mut outcome = case.outcome();
    let Bench { flash, ram, .. } = &case.bench;
    if let Some(address) = denied(flash)
        .or_else(|| denied(ram))
        .filter(|_| lies_together(case))
    {
        outcome.z.clone_from(&case.bench.z);
        outcome.x.clone_from(&case.bench.x);
        outcome.report = Report {
            answer: DENIED,
            count: 0,
            element: 0,
            address,
        };
    }
    outcome
}

pub fn page_behind_asked(case: &Case) -> Outcome {
    asks_beside(case, |stretch, area| {
        let border = stretch.end() % u128::from(PAGE) == 0;
        border.then_some(stretch.pages(area).end() + 1)
    })
}

pub fn page_before_asked(case: &Case) -> Outcome {
    asks_beside(case, |stretch, area| {
        let border = stretch.first % PAGE == 0;
        border.then_some(stretch.pages(area).start().checked_sub(1)?)
    })
}

/// The wrong outcome where elements lie together, else the right one.
fn where_together(case: &Case, wrong: impl Fn(&Case) -> Outcome) -> Outcome {
    if lies_together(case) {
        wrong(case)
    } else {
        case.outcome()
    }
}

pub fn inactive_keeps_together(case: &Case) -> Outcome {
    where_together(case, inactive_keeps)
}

pub fn inactive_filled_together(case: &Case) -> Outcome {
    where_together(case, |case| {
        let right = case.outcome();
        match all_active(case) {
            Some(outcome) => Outcome {
                report: right.report,
                ..outcome
            },
            None => right,
        }
    })
}

pub fn all_counted_together(case: &Case) -> Outcome {
    where_together(case, |case| {
        after_ran(case, |load, outcome| {
            outcome.report.count = load.elements(case.bench.vl);
        })
    })
}

pub fn pc_stays_together(case: &Case) -> Outcome {
    where_together(case, pc_stays)
}

pub fn base_stays_together(case: &Case) -> Outcome {
    where_together(case, |case| {
        after_ran(case, |load, outcome| {
            outcome.x[load.n] = case.bench.x[load.n]
        })
    })
}

/// A load from the stack runs, SP aligned or not, where all that it can ask for is readable.
pub fn stack_not_asked_together(case: &Case) -> Outcome {
    no_stack_rule_together(case, case.outcome())
}

/// A block load runs from the stack where no lane of the block is active and all of it is readable.
pub fn block_lanes_only_together(case: &Case) -> Outcome {
    let outcome = case.outcome();
    let load = decode(&Right, case.word, case.bench.f64mm);
    let Some(load) = load.ok().filter(|load| load.family.block().is_some()) else {
        return outcome;
    };
    if (0..load.lanes(case.bench.vl)).any(|e| active(case, &load, e)) {
        return outcome;
    }
    no_stack_rule_together(case, outcome)
}

fn no_stack_rule_together(case: &Case, outcome: Outcome) -> Outcome {
    if outcome.report.answer != STACK {
        return outcome;
    }
    // The same load with its unaligned address in a register that has no stack rule
    let mut other = case.clone();
    other.bench.x[0] = case.bench.x[SP];
    other.word &= !(31 << 5);
    if !lies_together(&other) {
        return outcome;
    }
    let mut ran = other.into_outcome(&Right);
    ran.x[..].swap(0, SP);
    ran.x[0] = case.bench.x[0];
    ran
}

/// What lies above the memory size in lane 0 lies there in every active lane.
pub fn sign_of_lane_0(case: &Case) -> Outcome {
    where_together(case, |case| {
        destination(case, |load, _, z| {
            let (mbytes, ebytes) = ((load.msize / 8) as usize, (load.esize / 8) as usize);
            let above = z[mbytes..ebytes].to_vec();
            each_lane(case, load, z, |own, _, lane| {
                if !load.unsigned && active(case, load, own) {
                    lane[mbytes..].copy_from_slice(&above);
                }
            });
        })
    })
}
