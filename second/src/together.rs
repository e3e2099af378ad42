//! Where the bytes of all elements lie that a load can ask for, active or not. Where they lie together,
//! a bench may fill the destination straight from them, without a look at each element alone; the
//! outcome must be the same. So cases of both kinds are needed, and most of all those at the edge.

use std::ops::RangeInclusive;

use crate::cases::Case;
use crate::decode::{decode, Load};
use crate::generate::distance;
use crate::loads::answer_of;
use crate::machine::{accepted, Answer, Area, Bench, PAGE};
use crate::rules::{Right, Rules};

/// The bytes from the address of element 0 on, as many as all elements take that a load can ask for.
#[derive(Clone, Copy, Debug, PartialEq, Eq)]
pub struct Stretch {
    pub first: u64,
    pub length: u64,
}

impl Stretch {
    pub fn of(load: &Load, bench: &Bench) -> Stretch {
        Stretch {
            first: bench.scalar(load.n).wrapping_add(distance(load, bench, 0)),
            length: load.elements(bench.vl) * (load.msize / 8),
        }
    }

    /// The stretch of an accepted set-up whose word is a load.
    pub fn of_case(case: &Case) -> Option<Stretch> {
        let load = decode(&Right, case.word, case.bench.f64mm).ok()?;
        accepted(&Right, &case.bench).then(|| Stretch::of(&load, &case.bench))
    }

    /// The first address behind it, as an integer that may be 2^64 or more.
    pub fn end(self) -> u128 {
        u128::from(self.first) + u128::from(self.length)
    }

    /// Whether an area has all of its bytes; one that runs over 2^64 is in no area.
    pub fn lies_in(self, area: &Area) -> bool {
        area.start <= self.first && self.end() <= area.end()
    }

    /// The pages of an area that the stretch touches, if it lies there.
    pub fn pages(self, area: &Area) -> RangeInclusive<usize> {
        let first = self.first.wrapping_sub(area.start);
        let last = first.wrapping_add(self.length).wrapping_sub(1);
        (first / PAGE) as usize..=(last / PAGE) as usize
    }

    /// Whether it lies in an accepted area, on pages that have the read right.
    pub fn readable_in(self, area: &Area) -> bool {
        self.lies_in(area) && self.pages(area).all(|page| readable(area, page))
    }
}

/// Whether an area has this page, with the read right.
pub fn readable(area: &Area, page: usize) -> bool {
    area.rights
        .get(page)
        .is_some_and(|right| Right.readable(*right))
}

/// Whether the elements of a case lie together: the set-up is accepted, the word is a load that comes
/// to read (no answer 2, 3, 4 or 5), and all bytes that it can ask for, active or not, lie in one area
/// on pages that have the read right. It is about where the bytes lie, not about which are active: a
/// load without an active lane may lie together too.
pub fn lies_together(case: &Case) -> bool {
    let Bench { flash, ram, .. } = &case.bench;
    let readable = |stretch: Stretch| stretch.readable_in(flash) || stretch.readable_in(ram);
    // Where no byte can be bad, a load that comes to read runs
    Stretch::of_case(case).is_some_and(readable) && answer_of(case.word, &case.bench) == Answer::Ran
}
