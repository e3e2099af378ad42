//! The pages that a load's active elements touch.

use crate::cases::Case;
use crate::decode::{Family, Load};
use crate::generate::distance;
use crate::machine::{Bench, PAGE};
use crate::rules::{Right, Rules};

/// A page of the flash or of the RAM, counted from its area's start.
#[derive(Clone, Copy, Debug, PartialEq, Eq, Hash)]
pub struct PageOf {
    pub ram: bool,
    pub page: usize,
}

impl PageOf {
    /// The page that an address lies in.
    pub fn address(bench: &Bench, address: u64) -> Option<PageOf> {
        [&bench.flash, &bench.ram]
            .into_iter()
            .zip([false, true])
            .find_map(|(area, ram)| {
                let page = area.offset_of(address)? / PAGE as usize;
                Some(PageOf { ram, page })
            })
    }

    /// The read rights of its area, page by page.
    pub fn rights(self, bench: &Bench) -> Vec<bool> {
        let area = if self.ram { &bench.ram } else { &bench.flash };
        let readable = |right: &u8| Right.readable(*right);
        area.rights.iter().map(readable).collect()
    }
}

/// The pages that hold a byte of an active element of a load that ran.
pub fn pages_read(case: &Case, load: &Load) -> Vec<PageOf> {
    let bench = &case.bench;
    let mask = bench.predicate(load.g);
    let active = |e: &u64| load.family.is_ldnr() || Right.active(mask, *e, load.esize);
    let mut pages = Vec::new();
    let mut add = |address| {
        if let Some(page) = PageOf::address(bench, address) {
            if !pages.contains(&page) {
                pages.push(page);
            }
        }
    };
    for e in (0..load.lanes(bench.vl)).filter(active) {
        let first = bench.scalar(load.n).wrapping_add(distance(load, bench, e));
        add(first);
        // An element is shorter than a page, so that its two ends are enough
        add(first.wrapping_add(load.msize / 8 - 1));
        if load.family == Family::Ld1rElement {
            break;
        }
    }
    pages
}
