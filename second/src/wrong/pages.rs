//! Variants that take the right of a page from another page, or that do not know all sixteen of them.

use super::instead::with;
use crate::cases::{Case, Outcome};
use crate::machine::{Area, Bench, PAGE};

/// The outcome where the right of each page is another one, given the rights of its area.
fn by_rights(case: &Case, right: impl Fn(&[u8], usize) -> u8) -> Outcome {
    with_areas(case, |area| {
        let rights = area.rights.clone();
        for (page, own) in area.rights.iter_mut().enumerate() {
            *own = right(&rights, page);
        }
    })
}

fn with_areas(case: &Case, change: impl Fn(&mut Area)) -> Outcome {
    with(case, |case| {
        change(&mut case.bench.flash);
        change(&mut case.bench.ram);
    })
}

pub fn modulo_8(case: &Case) -> Outcome {
    by_rights(case, |rights, page| rights[page % 8])
}

pub fn page_0(case: &Case) -> Outcome {
    by_rights(case, |rights, _| rights[0])
}

/// The last page has none behind it and keeps its own.
pub fn page_behind(case: &Case) -> Outcome {
    by_rights(case, |rights, page| {
        rights[(page + 1).min(rights.len() - 1)]
    })
}

pub fn page_before(case: &Case) -> Outcome {
    by_rights(case, |rights, page| rights[page.saturating_sub(1)])
}

pub fn turned_around(case: &Case) -> Outcome {
    by_rights(case, |rights, page| rights[rights.len() - 1 - page])
}

pub fn last_page_free(case: &Case) -> Outcome {
    by_rights(case, |rights, page| {
        if page + 1 == rights.len() {
            1
        } else {
            rights[page]
        }
    })
}

pub fn free_from_8_on(case: &Case) -> Outcome {
    by_rights(
        case,
        |rights, page| if page >= 8 { 1 } else { rights[page] },
    )
}

pub fn denied_from_8_on(case: &Case) -> Outcome {
    by_rights(
        case,
        |rights, page| if page >= 8 { 0 } else { rights[page] },
    )
}

/// The sixteenth page, which only an area near its limit has.
pub fn sixteenth_free(case: &Case) -> Outcome {
    by_rights(
        case,
        |rights, page| if page == 15 { 1 } else { rights[page] },
    )
}

/// What lies behind the eighth page is not found.
pub fn eight_pages_at_most(case: &Case) -> Outcome {
    with_areas(case, |area| {
        let right = area.rights.len() as u64 == area.pages_begun();
        if right && area.len() > 8 * PAGE && area.len() <= 16 * PAGE {
            area.bytes.truncate(8 * PAGE as usize);
            area.rights.truncate(8);
        }
    })
}

/// The rights of an area's pages are those of the other area, as far as it has them.
pub fn of_the_other_area(case: &Case) -> Outcome {
    with(case, |case| {
        let Bench { flash, ram, .. } = &mut case.bench;
        for (a, b) in flash.rights.iter_mut().zip(&mut ram.rights) {
            std::mem::swap(a, b);
        }
    })
}
