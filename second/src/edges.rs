//! The edges that a load's elements meet: where they just lie together, and where they just do not.

use crate::cases::Case;
use crate::loads::answer_of;
use crate::machine::{Answer, Area, Bench, PAGE};
use crate::together::{readable, Stretch};

/// Where the stretch of a load that comes to read meets an edge.
#[derive(Clone, Copy, Debug, PartialEq, Eq, Hash)]
pub enum Edge {
    // Of elements that lie together
    AreaStart,
    AreaEnd,
    /// The area's end is that of all addresses.
    Top,
    /// In the last page of an area that has a part of it only.
    PartOfPage,
    /// At a page border inside the area.
    PageStart,
    PageEnd,
    /// The same, and the page on the other side has no read right.
    AfterDenied,
    BeforeDenied,
    AcrossPages,
    // Of elements that would lie together but for a little
    /// One byte lies outside of the area.
    BeforeArea,
    PastArea,
    /// One byte lies on a page of the area that has no read right.
    BeforeReadable,
    PastReadable,
    /// Of two pages only the other one has the read right.
    FirstDenied,
    LastDenied,
    /// All can be read, but out of two areas.
    AcrossAreas,
}

impl Edge {
    pub const ALL: [Edge; 16] = [
        Edge::AreaStart,
        Edge::AreaEnd,
        Edge::Top,
        Edge::PartOfPage,
        Edge::PageStart,
        Edge::PageEnd,
        Edge::AfterDenied,
        Edge::BeforeDenied,
        Edge::AcrossPages,
        Edge::BeforeArea,
        Edge::PastArea,
        Edge::BeforeReadable,
        Edge::PastReadable,
        Edge::FirstDenied,
        Edge::LastDenied,
        Edge::AcrossAreas,
    ];

    /// Those of elements that do not lie together.
    pub const MISSED: &'static [Edge] = {
        let all: &[Edge] = &Edge::ALL;
        all.split_at(9).1
    };

    /// Whether a stretch that lies in the area, all readable, meets this edge of it.
    fn met(self, stretch: Stretch, area: &Area) -> bool {
        let (first, end) = (u128::from(stretch.first), stretch.end());
        let pages = stretch.pages(area);
        let (a, b) = (*pages.start(), *pages.end());
        let page_start = first % u128::from(PAGE) == 0 && a > 0;
        let page_end = end % u128::from(PAGE) == 0 && end < area.end();
        match self {
            Edge::AreaStart => first == u128::from(area.start),
            Edge::AreaEnd => end == area.end(),
            Edge::Top => end == 1 << 64,
            Edge::PartOfPage => area.len() % PAGE != 0 && b + 1 == area.rights.len(),
            Edge::PageStart => page_start,
            Edge::PageEnd => page_end,
            Edge::AfterDenied => page_start && !readable(area, a - 1),
            Edge::BeforeDenied => page_end && !readable(area, b + 1),
            Edge::AcrossPages => a < b,
            _ => false,
        }
    }

    /// Whether a stretch that does not lie together misses the area by this.
    fn missed(self, stretch: Stretch, area: &Area, other: &Area) -> bool {
        let inside = stretch.lies_in(area);
        let later = beginning(stretch, stretch.first.wrapping_add(1));
        let earlier = beginning(stretch, stretch.first.wrapping_sub(1));
        let pages = stretch.pages(area);
        let two = |first, last| {
            let rights = (readable(area, *pages.start()), readable(area, *pages.end()));
            inside && rights == (first, last)
        };
        match self {
            Edge::BeforeArea => !inside && later.readable_in(area),
            Edge::PastArea => !inside && earlier.readable_in(area),
            Edge::BeforeReadable => inside && later.readable_in(area),
            Edge::PastReadable => inside && earlier.readable_in(area),
            Edge::FirstDenied => two(false, true),
            Edge::LastDenied => two(true, false),
            Edge::AcrossAreas => goes_over(stretch, area, other),
            _ => false,
        }
    }
}

/// A stretch of the same length that begins elsewhere.
fn beginning(stretch: Stretch, first: u64) -> Stretch {
    Stretch { first, ..stretch }
}

/// Whether a stretch leaves an area over its end and goes on in the other, all readable.
fn goes_over(stretch: Stretch, area: &Area, other: &Area) -> bool {
    let Some(offset) = area.offset_of(stretch.first) else {
        return false;
    };
    let here = (area.len() - offset as u64).min(stretch.length);
    let there = Stretch {
        first: stretch.first.wrapping_add(here),
        length: stretch.length - here,
    };
    let here = Stretch {
        length: here,
        ..stretch
    };
    there.length > 0 && here.readable_in(area) && there.readable_in(other)
}

/// The edges that a case meets.
pub fn edges_of(case: &Case) -> Vec<Edge> {
    let Bench { flash, ram, .. } = &case.bench;
    let Some(stretch) = Stretch::of_case(case) else {
        return Vec::new();
    };
    let read = [Answer::Ran, Answer::NoMemory, Answer::Denied];
    if !read.contains(&answer_of(case.word, &case.bench)) {
        return Vec::new();
    }
    let together = stretch.readable_in(flash) || stretch.readable_in(ram);
    let meets = |edge: &Edge| {
        [(flash, ram), (ram, flash)].iter().any(|(area, other)| {
            if together {
                stretch.readable_in(area) && edge.met(stretch, area)
            } else {
                edge.missed(stretch, area, other)
            }
        })
    };
    Edge::ALL.into_iter().filter(meets).collect()
}
