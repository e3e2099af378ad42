//! Set-ups whose elements lie together, or miss it by a little: an area is laid around the stretch of
//! all bytes that the load can ask for, so that the stretch meets an edge of the area or of a page.
//! A stretch has 256 bytes at most, so that it touches one page or two.

use std::ops::RangeInclusive;

use super::areas;
use crate::decode::Load;
use crate::machine::{Area, Bench, PAGE};
use crate::rng::Rng;
use crate::together::Stretch;

/// Where in its area a stretch lies.
#[derive(Clone, Copy, PartialEq, Eq)]
enum Place {
    AreaStart,
    AreaEnd,
    WholeArea,
    /// At a page border inside the area.
    PageStart,
    PageEnd,
    AcrossPages,
    /// Over the area's end, behind which the other area begins.
    AcrossAreas,
    Anywhere,
}

/// A place named more often comes more often.
const PLACES: [Place; 20] = [
    Place::AreaStart,
    Place::AreaStart,
    Place::AreaEnd,
    Place::AreaEnd,
    Place::AreaEnd,
    Place::WholeArea,
    Place::PageStart,
    Place::PageStart,
    Place::PageStart,
    Place::PageEnd,
    Place::PageEnd,
    Place::PageEnd,
    Place::AcrossPages,
    Place::AcrossPages,
    Place::AcrossPages,
    Place::AcrossAreas,
    Place::Anywhere,
    Place::Anywhere,
    Place::Anywhere,
    Place::Anywhere,
];

/// Where it lies in an area of all sixteen pages: mostly on two of them.
const SIXTEEN_PLACES: [Place; 5] = [
    Place::AcrossPages,
    Place::AcrossPages,
    Place::AcrossPages,
    Place::PageStart,
    Place::PageEnd,
];

/// Which pages of the area may be read.
#[derive(Clone, Copy)]
enum Manner {
    All,
    /// Only those that the stretch touches, and perhaps some of the others.
    Touched,
    TouchedAndSome,
    /// All but the one before those touched, or behind them.
    NotBefore,
    NotBehind,
    /// All but the first of those touched, or the last.
    NotFirst,
    NotLast,
    /// All but those touched.
    NotTouched,
}

const MANNERS: [Manner; 10] = [
    Manner::All,
    Manner::All,
    Manner::All,
    Manner::Touched,
    Manner::Touched,
    Manner::Touched,
    Manner::Touched,
    Manner::TouchedAndSome,
    Manner::NotBefore,
    Manner::NotBehind,
];

/// In so many of a hundred areas the stretch may lie in any of sixteen pages.
const FAR: u64 = 8;
/// And in so many all sixteen are lent, with rights that only those touched have, or only they have not.
const SIXTEEN: u64 = 2;

/// How large an area is laid around a stretch.
#[derive(Clone, Copy, PartialEq, Eq)]
enum Size {
    /// Some three pages at most.
    Small,
    /// As many as it takes to have the stretch in some page.
    Far,
    Sixteen,
}

/// Gives the bench two areas, one of them around the stretch; where the stretch begins. In one of six
/// cases something is amiss: a page that it touches is denied, or it slips over the edge it was laid at.
pub fn areas(rng: &mut Rng, load: &Load, bench: &mut Bench) -> u64 {
    let length = Stretch::of(load, bench).length;
    let size = match rng.below(100) {
        part if part < SIXTEEN => Size::Sixteen,
        part if part < SIXTEEN + FAR => Size::Far,
        _ => Size::Small,
    };
    let place = match size {
        Size::Sixteen => rng.pick(SIXTEEN_PLACES),
        _ => rng.pick(PLACES),
    };
    let amiss = rng.below(6) == 0;
    let offset = before(rng, place, size, length);
    let mut home = home(rng, (place, size), amiss, offset..=offset + length - 1);
    let mut other = other(rng, place);
    if place == Place::AcrossAreas {
        areas::arrange(rng, &mut home, &mut other, 0);
    } else {
        let gap = areas::gap(rng);
        let (first, second) = rng.in_either_order(&mut home, &mut other);
        areas::arrange(rng, first, second, gap);
    }
    let first = home.start.wrapping_add(offset);
    (bench.flash, bench.ram) = rng.in_either_order(home, other);
    if amiss {
        first.wrapping_add(slip(rng, load, place, length))
    } else {
        first
    }
}

/// How many bytes of the area lie before the stretch.
fn before(rng: &mut Rng, place: Place, size: Size, length: u64) -> u64 {
    let border = match size {
        Size::Small => rng.pick([1, 1, 1, 2]) * PAGE,
        _ => (1 + rng.below(15)) * PAGE,
    };
    match place {
        Place::AreaStart | Place::WholeArea => 0,
        Place::PageStart => border,
        Place::PageEnd => border - length,
        // A single byte lies on one page
        Place::AcrossPages | Place::AcrossAreas => border - 1 - rng.below(length - 1),
        Place::Anywhere if size == Size::Far => rng.below(areas::LIMIT - length),
        Place::AreaEnd if rng.per_mille(15) => areas::LIMIT - length,
        Place::AreaEnd => match rng.below(6) {
            0 | 1 => rng.below(130),
            2 => rng.below(PAGE),
            3 => border - rng.below(length + 16),
            // The area has whole pages, and may end at 2^64
            _ => border - length,
        },
        // At any alignment, whatever the size of an element
        Place::Anywhere if rng.percent(75) => rng.below(130),
        Place::Anywhere => rng.below(2 * PAGE),
    }
}

/// The area around a stretch, of which the first and the last byte are given as they lie in it.
fn home(
    rng: &mut Rng,
    (place, size): (Place, Size),
    amiss: bool,
    stretch: RangeInclusive<u64>,
) -> Area {
    let end = stretch.end() + 1;
    let length = match place {
        // The sixteenth page is begun, mostly not much more
        _ if size == Size::Sixteen => end.max(15 * PAGE + rng.pick([1, 9, 100, PAGE])),
        Place::AreaEnd | Place::WholeArea => end,
        Place::AcrossAreas => end / PAGE * PAGE,
        _ => (end + behind(rng, end)).min(areas::LIMIT),
    };
    let manner = match place {
        _ if size == Size::Sixteen => {
            rng.pick([Manner::Touched, Manner::Touched, Manner::NotTouched])
        }
        _ if size == Size::Far && rng.percent(40) => Manner::NotTouched,
        Place::AcrossPages if amiss => rng.pick([Manner::NotFirst, Manner::NotLast]),
        // Over the edge the stretch is denied
        Place::PageStart | Place::PageEnd if amiss => Manner::Touched,
        _ => rng.pick(MANNERS),
    };
    let touched = stretch.start() / PAGE..=stretch.end() / PAGE;
    Area {
        start: 0,
        bytes: rng.bytes(length as usize),
        rights: rights(rng, manner, touched, length.div_ceil(PAGE)),
    }
}

/// How many bytes of the area lie behind the stretch, which ends there in the area.
fn behind(rng: &mut Rng, end: u64) -> u64 {
    match rng.below(80) {
        0..=49 => 1 + rng.below(64),
        50..=69 => PAGE - end % PAGE,
        // Any number of pages that are not touched
        70 => 1 + rng.below(areas::LIMIT - end),
        _ => 1 + rng.below(PAGE),
    }
}

fn rights(rng: &mut Rng, manner: Manner, touched: RangeInclusive<u64>, pages: u64) -> Vec<u8> {
    let (first, last) = (*touched.start(), *touched.end());
    let right = |page| {
        let readable = match manner {
            Manner::All => true,
            Manner::Touched => touched.contains(&page),
            Manner::TouchedAndSome => touched.contains(&page) || rng.percent(50),
            Manner::NotBefore => page + 1 != first,
            Manner::NotBehind => page != last + 1,
            Manner::NotFirst => page != first,
            Manner::NotLast => page != last,
            Manner::NotTouched => !touched.contains(&page),
        };
        areas::right(rng, readable)
    };
    (0..pages).map(right).collect()
}

/// The other area, which is small: empty, some bytes, or a page, so that it can touch the first.
fn other(rng: &mut Rng, place: Place) -> Area {
    let length = match rng.below(10) {
        // As much as a stretch can have there
        _ if place == Place::AcrossAreas => 256 + rng.below(64),
        0..=3 => 0,
        4..=6 => 1 + rng.below(64),
        7 | 8 => PAGE,
        _ => rng.below(PAGE),
    };
    let right = areas::right(rng, true);
    Area {
        start: 0,
        bytes: rng.bytes(length as usize),
        rights: vec![right; length.div_ceil(PAGE) as usize],
    }
}

/// How far a stretch slips over the edge that it was laid at: by one byte, or by some.
fn slip(rng: &mut Rng, load: &Load, place: Place, length: u64) -> u64 {
    let by = if load.family.is_ldnr() {
        // So that each element comes to be the bad one
        1 + rng.below(length)
    } else {
        rng.pick([1, 1, 1, load.msize / 8, length / 2, length])
    };
    match place {
        Place::AreaStart | Place::PageStart => by.wrapping_neg(),
        Place::AreaEnd | Place::PageEnd => by,
        Place::WholeArea | Place::Anywhere => rng.pick([by, by.wrapping_neg()]),
        Place::AcrossPages | Place::AcrossAreas => 0,
    }
}
