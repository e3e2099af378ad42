//! What the steps of a sample must have.

use super::structures::{all_structures, structures_of, Structure};
use crate::cases::{Case, Outcome};
use crate::coverage::{pairs, pairs_of, Pair};
use crate::decode::{decode, Family, Load};
use crate::edges::{edges_of, Edge};
use crate::generate;
use crate::machine::{Answer, Refusal, SP};
use crate::rules::{Right, Rules};
use crate::stack::{Active, FromStack, BLOCKS};
use crate::together::lies_together;
use crate::touched::{pages_read, PageOf};
use crate::wrong::VARIANTS;

/// How many cases at least of each cell that is not rare.
pub const EACH: usize = 3;
/// As many pages as an area of 65,536 bytes has.
const PAGES_AT_MOST: usize = 16;

/// Why a word or a set-up is undefined, as far as the family can have it.
#[derive(Clone, Copy, Debug, PartialEq, Eq, Hash)]
pub enum Cause {
    LoadBit,
    SBit,
    Rm31,
    F64mm,
    ShortVl,
}

/// Something that a sample must have.
#[derive(Clone, Copy, Debug, PartialEq, Eq, Hash)]
pub enum Cell {
    /// A family with an answer.
    Pair(Family, Answer),
    /// Any pair of family, answer, VL and pages lent.
    Pairwise(Pair),
    /// A family with a cause of answer 3, the only one.
    Undefined(Family, Cause),
    /// A set-up that is refused for this cause alone.
    Refused(Refusal),
    Outside,
    /// A load that ran, of this row of dtype, msz, or Q and size.
    Row(Family, u32),
    /// A load that ran at this VL.
    Length(u64),
    /// A load of this row that read, and whose elements lie together.
    Together(Family, u32),
    /// The same at this VL.
    TogetherAt(Family, u64),
    /// A load whose elements meet this edge.
    Meets(Family, Edge),
    /// One whose elements lie together but for a little, and which ran or did not.
    Missed(Edge, bool),
    /// A load that ran with no active lane.
    NoneActive(Family),
    /// A fault behind elements that were read.
    LaterFault(Family),
    /// A load that ran from the stack.
    FromStack(Family),
    /// A block load from the stack with this active, that the stack rule refused or that ran.
    BlockFromStack(Family, Active, bool),
    /// The same with an SP that is no multiple of 16, at this lane size.
    BlockAskew(Family, Active, u64),
    /// A read around 2^64.
    Wrapped,
    Level(u32),
    /// An area of exactly 65,536 bytes, accepted.
    AtLimit,
    /// A read in this page that ran, or that was denied.
    PageRan(PageOf),
    PageDenied(PageOf),
    /// One that hangs on the right of its own page, which is not that of another page of the area.
    OwnRight {
        own: usize,
        other: usize,
    },
    /// Something of LD1R to LD4R by their number of registers.
    Structure(Structure),
    /// A case that tells the wrong variant of this number from the right interpreter.
    Tells(usize),
}

impl Cell {
    /// Cases with an area at or over the limit are large: one of each is enough.
    pub fn wanted(self) -> usize {
        match self {
            Cell::AtLimit | Cell::Refused(Refusal::FlashLimit | Refusal::RamLimit) => 1,
            Cell::Tells(_) | Cell::TogetherAt(..) | Cell::Meets(..) | Cell::Pairwise(_) => 1,
            Cell::PageRan(_) | Cell::PageDenied(_) | Cell::OwnRight { .. } => 1,
            Cell::BlockFromStack(..) | Cell::BlockAskew(..) => 1,
            Cell::Structure(structure) => structure.wanted(),
            _ => EACH,
        }
    }
}

/// The answers that a family can have.
pub fn answers(family: Family) -> Vec<Answer> {
    let undefined = !causes(family).is_empty();
    let possible = |answer: &Answer| match answer {
        Answer::Outside => false,
        Answer::Undefined => undefined,
        _ => true,
    };
    Answer::ALL.into_iter().filter(possible).collect()
}

/// The causes of answer 3 that a family can have.
pub fn causes(family: Family) -> &'static [Cause] {
    match family {
        Family::LdnrNoOffset | Family::LdnrPostIndex => &[Cause::LoadBit, Cause::SBit],
        Family::Ld1Scalar | Family::Ld1rqScalar => &[Cause::Rm31],
        Family::Ld1roImmediate => &[Cause::F64mm, Cause::ShortVl],
        Family::Ld1roScalar => &[Cause::Rm31, Cause::F64mm, Cause::ShortVl],
        _ => &[],
    }
}

/// How many rows of sizes a family has.
pub fn rows(family: Family) -> u32 {
    match family {
        Family::LdnrNoOffset | Family::LdnrPostIndex => 8,
        Family::Ld1rElement | Family::Ld1Immediate | Family::Ld1Scalar => 16,
        _ => 4,
    }
}

/// Everything that a sample must have.
pub fn all_cells() -> Vec<Cell> {
    let mut cells = vec![Cell::Outside, Cell::Wrapped, Cell::AtLimit];
    cells.extend((0..=4).map(Cell::Level));
    cells.extend((1..=16).map(|n| Cell::Length(128 * n)));
    cells.extend(Refusal::ALL.map(Cell::Refused));
    cells.extend((0..VARIANTS.len()).map(Cell::Tells));
    cells.extend(pairs().into_iter().map(Cell::Pairwise));
    cells.extend(cells_of_pages());
    cells.extend(BLOCKS.into_iter().flat_map(cells_from_stack));
    cells.extend(all_structures().into_iter().map(Cell::Structure));
    for &edge in Edge::MISSED {
        cells.push(Cell::Missed(edge, true));
        // Elements in two areas can all be read
        if edge != Edge::AcrossAreas {
            cells.push(Cell::Missed(edge, false));
        }
    }
    for family in Family::ALL {
        cells.extend(cells_together(family));
        cells.extend(
            answers(family)
                .into_iter()
                .map(|answer| Cell::Pair(family, answer)),
        );
        cells.extend(
            causes(family)
                .iter()
                .map(|cause| Cell::Undefined(family, *cause)),
        );
        cells.extend((0..rows(family)).map(|row| Cell::Row(family, row)));
        cells.push(Cell::FromStack(family));
        if !family.is_ldnr() {
            cells.push(Cell::NoneActive(family));
        }
        if family != Family::Ld1rElement {
            cells.push(Cell::LaterFault(family));
        }
    }
    cells
}

/// What a sample must have of each of the sixteen pages: of both areas, and of either of them.
fn cells_of_pages() -> Vec<Cell> {
    let mut cells = Vec::new();
    for own in 0..PAGES_AT_MOST {
        for ram in [false, true] {
            let page = PageOf { ram, page: own };
            cells.extend([Cell::PageRan(page), Cell::PageDenied(page)]);
        }
        let others = (0..PAGES_AT_MOST).filter(|other| *other != own);
        cells.extend(others.map(|other| Cell::OwnRight { own, other }));
    }
    cells
}

/// What a sample must have of block loads from the stack: all that can be active, with an SP that is no
/// multiple of 16 at each lane size, unless the block's own lanes decide or no bit is set; and lanes past the block
/// with one that is.
fn cells_from_stack(family: Family) -> Vec<Cell> {
    let mut cells = Vec::new();
    for active in Active::ALL
        .into_iter()
        .filter(|active| active.can_be(family, 64))
    {
        cells.push(Cell::BlockFromStack(family, active, active.lane()));
        if active.lane() {
            cells.push(Cell::BlockFromStack(family, active, false));
        }
        if !matches!(active, Active::InBlock | Active::NoBit) {
            let sizes = [8, 16, 32, 64].into_iter();
            let sizes = sizes.filter(|esize| active.can_be(family, *esize));
            cells.extend(sizes.map(|esize| Cell::BlockAskew(family, active, esize)));
        }
    }
    cells
}

/// What a sample must have of a family's elements that lie together, or nearly so.
fn cells_together(family: Family) -> Vec<Cell> {
    let shortest = if family.is_ld1ro() { 2 } else { 1 };
    let rows = (0..rows(family)).map(|row| Cell::Together(family, row));
    let lengths = (shortest..=16).map(|n| Cell::TogetherAt(family, 128 * n));
    let edges = Edge::ALL.map(|edge| Cell::Meets(family, edge));
    rows.chain(lengths).chain(edges).collect()
}

/// The cells that a case with this outcome belongs to.
pub fn cells_of(case: &Case, outcome: &Outcome) -> Vec<Cell> {
    let bench = &case.bench;
    let answer = Answer::ALL[usize::from(outcome.report.answer & 7)];
    let mut cells = vec![Cell::Level(case.level)];
    let pairs = pairs_of(case, outcome.report.answer);
    cells.extend(pairs.into_iter().map(Cell::Pairwise));
    if answer == Answer::SetUp {
        let mut causes = Refusal::ALL
            .into_iter()
            .filter(|cause| cause.applies(&Right, bench));
        if let (Some(cause), None) = (causes.next(), causes.next()) {
            cells.push(Cell::Refused(cause));
        }
    } else if bench.flash.len().max(bench.ram.len()) == Right.area_limit() {
        cells.push(Cell::AtLimit);
    }
    match Family::of(case.word) {
        None if answer == Answer::Outside => cells.push(Cell::Outside),
        None => {}
        Some(family) => {
            cells.push(Cell::Pair(family, answer));
            if answer == Answer::Undefined {
                cells.extend(only_cause(case, family).map(|cause| Cell::Undefined(family, cause)));
            }
            cells.extend(cells_of_a_read(case, outcome, answer));
        }
    }
    let structures = structures_of(case, outcome, answer);
    cells.extend(structures.into_iter().map(Cell::Structure));
    cells
}

/// The cells of a load that read, or ran without a read.
fn cells_of_a_read(case: &Case, outcome: &Outcome, answer: Answer) -> Vec<Cell> {
    let mut cells = Vec::new();
    let count = outcome.report.count;
    let Ok(load) = decode(&Right, case.word, case.bench.f64mm) else {
        return cells;
    };
    for edge in edges_of(case) {
        cells.push(Cell::Meets(load.family, edge));
        if Edge::MISSED.contains(&edge) {
            cells.push(Cell::Missed(edge, answer == Answer::Ran));
        }
    }
    if matches!(answer, Answer::NoMemory | Answer::Denied) && count > 0 {
        cells.push(Cell::LaterFault(load.family));
    }
    if answer == Answer::Ran {
        cells.extend(cells_of_a_run(case, &load, count));
    }
    if matches!(answer, Answer::Ran | Answer::Stack) {
        cells.extend(cells_of_a_block(case, answer));
    }
    cells.extend(cells_of_rights(case, outcome, answer, &load));
    cells
}

/// The cells of a block load from the stack; without a lane only one that ran with SP no multiple of 16 counts.
fn cells_of_a_block(case: &Case, answer: Answer) -> Vec<Cell> {
    let Some(from_stack) = FromStack::of(case, answer.number()) else {
        return Vec::new();
    };
    let FromStack {
        family,
        esize,
        active,
        askew,
    } = from_stack;
    let mut cells = Vec::new();
    if askew || active.lane() {
        cells.push(Cell::BlockFromStack(
            family,
            active,
            answer == Answer::Stack,
        ));
    }
    if askew {
        cells.push(Cell::BlockAskew(family, active, esize));
    }
    cells
}

/// The cells of the pages whose rights decided: those read, or the one that was denied.
fn cells_of_rights(case: &Case, outcome: &Outcome, answer: Answer, load: &Load) -> Vec<Cell> {
    let bench = &case.bench;
    let (pages, ran) = match answer {
        Answer::Ran => (pages_read(case, load), true),
        Answer::Denied => {
            let page = PageOf::address(bench, outcome.report.address);
            (page.into_iter().collect(), false)
        }
        _ => return Vec::new(),
    };
    let mut cells = Vec::new();
    for page in pages {
        cells.push(if ran {
            Cell::PageRan(page)
        } else {
            Cell::PageDenied(page)
        });
        let own = page.page;
        let others = page.rights(bench).into_iter().enumerate();
        let other = others.filter(|(_, readable)| *readable != ran);
        cells.extend(other.map(|(other, _)| Cell::OwnRight { own, other }));
    }
    cells
}

/// The cells of a load that ran with so many reads.
fn cells_of_a_run(case: &Case, load: &Load, count: u64) -> Vec<Cell> {
    let bench = &case.bench;
    let row = row(case.word, load.family);
    let mut cells = vec![Cell::Length(bench.vl)];
    cells.push(match count {
        0 => Cell::NoneActive(load.family),
        _ => Cell::Row(load.family, row),
    });
    if count > 0 && lies_together(case) {
        cells.push(Cell::Together(load.family, row));
        cells.push(Cell::TogetherAt(load.family, bench.vl));
    }
    if load.n == SP && count > 0 {
        cells.push(Cell::FromStack(load.family));
    }
    let lanes = load.lanes(bench.vl);
    let address = |e| bench.x[load.n].wrapping_add(generate::distance(load, bench, e));
    let last = address(lanes - 1).wrapping_add(load.msize / 8 - 1);
    if last < address(0) && count == lanes {
        cells.push(Cell::Wrapped);
    }
    cells
}

/// The row of sizes of a word: dtype, msz, or Q above size.
pub fn row(word: u32, family: Family) -> u32 {
    match family {
        Family::LdnrNoOffset | Family::LdnrPostIndex => word >> 30 << 2 | word >> 10 & 3,
        Family::Ld1rElement => (word >> 23 & 3) << 2 | word >> 13 & 3,
        Family::Ld1Immediate | Family::Ld1Scalar => word >> 21 & 15,
        _ => word >> 23 & 3,
    }
}

/// The cause of answer 3, if there is one alone.
pub fn only_cause(case: &Case, family: Family) -> Option<Cause> {
    let applies = |cause: &&Cause| match cause {
        Cause::LoadBit => case.word >> 22 & 1 == 0,
        Cause::SBit => case.word >> 12 & 1 == 1,
        Cause::Rm31 => case.word >> 16 & 31 == 31,
        Cause::F64mm => !case.bench.f64mm,
        Cause::ShortVl => case.bench.vl < 256,
    };
    let mut causes = causes(family).iter().filter(applies);
    match (causes.next(), causes.next()) {
        (Some(cause), None) => Some(*cause),
        _ => None,
    }
}
