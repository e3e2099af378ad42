//! Two areas that are accepted: touching, around 2^64, with holes, empty, far away.

use crate::machine::{Area, PAGE};
use crate::rng::Rng;

/// 2^64 bytes in pages.
const PAGES: u64 = 1 << 52;
/// The longest area that is accepted.
pub const LIMIT: u64 = 65_536;

/// Flash and RAM, in either order of addresses; now and then both are empty.
pub fn two(rng: &mut Rng) -> (Area, Area) {
    let (mut first, mut second) = if rng.percent(3) {
        (Area::default(), Area::default())
    } else {
        (contents(rng), contents(rng))
    };
    let gap = gap(rng);
    arrange(rng, &mut first, &mut second, gap);
    rng.in_either_order(first, second)
}

/// How many pages lie between two areas: mostly none.
pub fn gap(rng: &mut Rng) -> u64 {
    rng.pick([0, 0, 0, 0, 0, 0, 1, 2, 1000, 1 << 40])
}

/// Gives two areas their starts: the second lies behind the first, which may be around 2^64.
pub fn arrange(rng: &mut Rng, first: &mut Area, second: &mut Area, gap: u64) {
    let (first_pages, second_pages) = (first.pages_begun(), second.pages_begun());
    let page = place(rng, first_pages);
    first.start = page.wrapping_mul(PAGE);
    let behind = (page + first_pages + gap) % PAGES;
    // Where there is no room behind the first area it lies near the top, and page 0 is free
    let behind = if behind + second_pages > PAGES {
        0
    } else {
        behind
    };
    second.start = behind.wrapping_mul(PAGE);
    if second.is_empty() && rng.percent(50) {
        second.start = inside(rng, first);
    } else if first.is_empty() && rng.percent(50) {
        first.start = inside(rng, second);
    }
}

/// A page of the area or the one behind it.
fn inside(rng: &mut Rng, area: &Area) -> u64 {
    let page = rng.below(area.pages_begun() + 1);
    area.start.wrapping_add(page * PAGE)
}

/// The page number of an area of this many pages: 0, the very top, near it, or anywhere.
fn place(rng: &mut Rng, pages: u64) -> u64 {
    let top = PAGES - pages;
    let place = match rng.below(10) {
        0 | 1 => 0,
        2..=4 => top,
        5 => top - rng.below(4),
        6 => (PAGES / 2 - 1) - rng.below(3),
        7 => rng.below(16),
        8 => rng.below(1 << 20),
        _ => rng.below(PAGES),
    };
    place.min(top)
}

fn contents(rng: &mut Rng) -> Area {
    let length = length(rng);
    let bytes = rng.bytes(length as usize);
    let rights = rights(rng, length.div_ceil(PAGE));
    Area {
        start: 0,
        bytes,
        rights,
    }
}

/// A byte of rights: junk above bit 0, which is the read right.
pub fn right(rng: &mut Rng, readable: bool) -> u8 {
    rng.next_u64() as u8 & 0xFE | u8::from(readable)
}

/// Mostly up to three pages, whole pages often; in a few of a hundred up to sixteen, and the limit itself.
fn length(rng: &mut Rng) -> u64 {
    if rng.per_mille(5) {
        return LIMIT - rng.below(2);
    }
    if rng.percent(3) {
        let part = rng.below(PAGE);
        return (4 + rng.below(13)) * PAGE - rng.pick([0, part]);
    }
    match rng.below(20) {
        0 | 1 => 0,
        2..=5 => PAGE,
        6..=10 => 2 * PAGE,
        11 => 3 * PAGE,
        12 => 1 + rng.below(64),
        13..=15 => rng.pick([1, 2]) * PAGE - 8 + rng.below(17),
        16 => rng.below(3 * PAGE),
        _ => rng.below(2 * PAGE),
    }
}

/// Rights with junk above bit 0: all readable, some denied, one denied, all denied, all but one denied.
fn rights(rng: &mut Rng, pages: u64) -> Vec<u8> {
    let manner = rng.below(21);
    let one = rng.below(pages);
    let manner_of = |page| {
        let readable = match manner {
            0..=8 => true,
            9..=14 => rng.percent(60),
            15..=18 => page != one,
            19 => false,
            _ => page == one,
        };
        right(rng, readable)
    };
    (0..pages).map(manner_of).collect()
}
