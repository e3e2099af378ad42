//! What the windows of a sample must have.

use crate::floats::Sort;
use crate::loads::Report;
use crate::machine::{Area, Bench, Refusal, PAGE};
use crate::questions::{Kind, Question};
use crate::rules::{Right, Rules};
use crate::windows::{AS_DOUBLE, AS_SINGLE, AS_WHOLE, FLASH, OF_AREAS, RAM};
use crate::wrong::WINDOW_VARIANTS;

/// Where an address lies in an area, or just not; where a lane lies in its register.
#[derive(Clone, Copy, Debug, PartialEq, Eq, Hash)]
pub enum At {
    First,
    Last,
    OneBefore,
    OneBehind,
}

/// Something that the windows of a sample must have.
#[derive(Clone, Copy, Debug, PartialEq, Eq, Hash)]
pub enum WindowCell {
    Answer(Kind, u8),
    /// An address at an edge of the flash, or of the RAM.
    Address(bool, At),
    /// Shown at the border of two areas that touch, in this one of them.
    Touching(u8, At),
    /// The last of all addresses in an area that ends there, and address 0 in one that starts there.
    Top,
    Bottom,
    /// The ends of all addresses, and nothing there.
    NothingAt(u64),
    /// The start of an empty area: in no other, or inside of the other, which is shown.
    EmptyArea,
    EmptyInside,
    /// Shown though its page has no read right, behind the first page, and near an area's limit.
    Denied,
    LaterPage,
    AtLimit,
    /// What would be shown, were it not for this cause alone.
    Refused(Refusal),
    /// Shown although the set-up is refused for this cause.
    NotAsked(Refusal),
    /// A lane that is shown at this VL.
    Length(u64),
    /// A way of asking at a width, all else right.
    Asked(u64, u64),
    Register(u64),
    LargeRegister,
    /// The first and the last lane, one past it, and the largest number.
    Lane(At),
    LaneMost,
    /// A pattern that is asked for as a single or as a double: its sort, and whether it is negative.
    Float(u64, Sort, bool),
    /// The same pattern as a whole number.
    Whole(u64, Sort),
    FileShort,
    FileLong,
    WrongLength,
    /// A question that tells the wrong window of this number from the right one.
    Tells(usize),
}

const WIDTHS: [u64; 4] = [8, 16, 32, 64];
const NO_WIDTHS: [u64; 5] = [0, 1, 24, 128, (1 << 32) + 32];
const REGISTERS: [u64; 4] = [0, 31, 32, 1 << 32];
const FILES: [Refusal; 4] = [
    Refusal::VectorLength,
    Refusal::VectorFile,
    Refusal::PredicateFile,
    Refusal::Scalars,
];

/// Everything that the windows of a sample must have.
pub fn all_cells() -> Vec<WindowCell> {
    let mut cells: Vec<WindowCell> = (0..WINDOW_VARIANTS.len()).map(WindowCell::Tells).collect();
    cells.extend((0..3).map(|answer| WindowCell::Answer(Kind::AddressWindow, answer)));
    cells.extend((0..4).map(|answer| WindowCell::Answer(Kind::LaneWindow, answer)));
    cells.extend(address_cells());
    cells.extend(lane_cells());
    cells
}

fn address_cells() -> Vec<WindowCell> {
    let mut cells = vec![
        WindowCell::Top,
        WindowCell::Bottom,
        WindowCell::NothingAt(0),
        WindowCell::NothingAt(u64::MAX),
        WindowCell::EmptyArea,
        WindowCell::EmptyInside,
        WindowCell::Denied,
        WindowCell::LaterPage,
        WindowCell::AtLimit,
    ];
    for ram in [false, true] {
        let edges = [At::First, At::Last, At::OneBefore, At::OneBehind];
        cells.extend(edges.map(|at| WindowCell::Address(ram, at)));
    }
    for area in [FLASH, RAM] {
        cells.extend([At::First, At::Last].map(|at| WindowCell::Touching(area, at)));
    }
    cells.extend(OF_AREAS.map(WindowCell::Refused));
    cells.extend(FILES.map(WindowCell::NotAsked));
    cells
}

fn lane_cells() -> Vec<WindowCell> {
    let mut cells = vec![
        WindowCell::LargeRegister,
        WindowCell::LaneMost,
        WindowCell::FileShort,
        WindowCell::FileLong,
        WindowCell::WrongLength,
    ];
    cells.extend([At::First, At::Last, At::OneBehind].map(WindowCell::Lane));
    cells.extend((1..=16).map(|n| WindowCell::Length(128 * n)));
    cells.extend(REGISTERS.map(WindowCell::Register));
    for way in AS_WHOLE..=AS_DOUBLE + 1 {
        cells.extend(WIDTHS.map(|width| WindowCell::Asked(way, width)));
        if way <= AS_DOUBLE {
            cells.extend(NO_WIDTHS.map(|width| WindowCell::Asked(way, width)));
        }
    }
    for width in [32, 64] {
        for sort in Sort::ALL {
            cells.extend([false, true].map(|sign| WindowCell::Float(width, sort, sign)));
            cells.push(WindowCell::Whole(width, sort));
        }
    }
    cells
}

/// The cells that a question with this answer belongs to.
pub fn cells_of(question: &Question, report: &Report) -> Vec<WindowCell> {
    let mut cells = vec![WindowCell::Answer(question.kind, report.answer)];
    let bench = &question.lent.bench;
    if question.kind == Kind::LaneWindow {
        cells.extend(cells_of_a_lane(bench, question.numbers, report));
        return cells;
    }
    let address = question.numbers[0];
    let causes: Vec<Refusal> = (OF_AREAS.into_iter())
        .filter(|cause| cause.applies(&Right, bench))
        .collect();
    let somewhere = [&bench.flash, &bench.ram]
        .iter()
        .any(|area| area.offset_of(address).is_some());
    match causes[..] {
        [] => cells.extend(cells_of_an_address(bench, address, report)),
        [cause] if somewhere => cells.push(WindowCell::Refused(cause)),
        _ => {}
    }
    cells
}

fn cells_of_an_address(bench: &Bench, address: u64, report: &Report) -> Vec<WindowCell> {
    let mut cells = Vec::new();
    let areas = [(&bench.flash, &bench.ram), (&bench.ram, &bench.flash)];
    for (ram, (area, other)) in [false, true].into_iter().zip(areas) {
        if area.is_empty() && area.start == address {
            cells.push(match report.answer {
                0 => WindowCell::EmptyArea,
                _ => WindowCell::EmptyInside,
            });
        }
        if !area.is_empty() {
            let at = at_edge(area, address);
            cells.extend(at.map(|at| WindowCell::Address(ram, at)));
        }
        if area.offset_of(address).is_some() {
            cells.extend(cells_of_what_is_shown(
                bench,
                (area, other),
                address,
                report,
            ));
        }
    }
    if report.answer == 0 {
        cells.push(WindowCell::NothingAt(address));
    }
    cells
}

fn at_edge(area: &Area, address: u64) -> Option<At> {
    let last = area.end().wrapping_sub(1) as u64;
    match address {
        _ if address == area.start => Some(At::First),
        _ if address == last => Some(At::Last),
        _ if address == area.start.wrapping_sub(1) => Some(At::OneBefore),
        _ if address == last.wrapping_add(1) => Some(At::OneBehind),
        _ => None,
    }
}

fn cells_of_what_is_shown(
    bench: &Bench,
    (area, other): (&Area, &Area),
    address: u64,
    report: &Report,
) -> Vec<WindowCell> {
    let mut cells = Vec::new();
    let touch = |a: &Area, b: &Area| !b.is_empty() && a.end() == u128::from(b.start);
    if touch(area, other) && report.element == 1 {
        cells.push(WindowCell::Touching(report.answer, At::Last));
    }
    if touch(other, area) && report.count == 0 && !other.is_empty() {
        cells.push(WindowCell::Touching(report.answer, At::First));
    }
    let page = report.count / PAGE;
    let right = area.rights.get(page as usize).copied().unwrap_or(0);
    let found = [
        (address == u64::MAX, WindowCell::Top),
        (address == 0, WindowCell::Bottom),
        (!Right.readable(right), WindowCell::Denied),
        (page > 0, WindowCell::LaterPage),
        (area.len() == Right.area_limit(), WindowCell::AtLimit),
    ];
    cells.extend(
        found
            .into_iter()
            .filter(|(met, _)| *met)
            .map(|(_, cell)| cell),
    );
    let files = FILES
        .into_iter()
        .filter(|cause| cause.applies(&Right, bench));
    cells.extend(files.map(WindowCell::NotAsked));
    cells
}

fn cells_of_a_lane(bench: &Bench, numbers: [u64; 4], report: &Report) -> Vec<WindowCell> {
    let [register, way, width, lane] = numbers;
    let wrong = [Refusal::VectorLength, Refusal::VectorFile];
    if wrong.iter().any(|cause| cause.applies(&Right, bench)) {
        return cells_of_a_wrong_file(bench).into_iter().collect();
    }
    let mut cells = Vec::new();
    let lanes = bench.vl.checked_div(width).unwrap_or(0);
    let [register_is, lane_is] = [register < 32, lane < lanes];
    if register_is && (lane_is || !WIDTHS.contains(&width)) {
        cells.push(WindowCell::Asked(way, width));
    }
    if lane_is && way <= AS_DOUBLE {
        cells.push(WindowCell::Register(register));
        let large = register > 32 && register < 1 << 32;
        cells.extend(large.then_some(WindowCell::LargeRegister));
    }
    if register_is && WIDTHS.contains(&width) && way <= AS_DOUBLE {
        cells.extend(cells_of_a_lane_number(lanes, lane));
    }
    if report.answer != 0 {
        cells.push(WindowCell::Length(bench.vl));
        cells.extend(cells_of_a_pattern(way, width, report.count));
    }
    cells
}

/// A VL that is not allowed with the file that it asks for, or a file that is a byte off.
fn cells_of_a_wrong_file(bench: &Bench) -> Option<WindowCell> {
    let (should, had) = (u128::from(bench.vl) * 4, bench.z.len() as u128);
    match Right.vl_allowed(bench.vl) {
        false => (had == should).then_some(WindowCell::WrongLength),
        true if had + 1 == should => Some(WindowCell::FileShort),
        true => (had == should + 1).then_some(WindowCell::FileLong),
    }
}

fn cells_of_a_lane_number(lanes: u64, lane: u64) -> Vec<WindowCell> {
    let found = [
        (lane == 0, WindowCell::Lane(At::First)),
        (lane == lanes.wrapping_sub(1), WindowCell::Lane(At::Last)),
        (lane == lanes, WindowCell::Lane(At::OneBehind)),
        (lane == u64::MAX, WindowCell::LaneMost),
    ];
    let met = found.into_iter().filter(|(met, _)| *met);
    met.map(|(_, cell)| cell).collect()
}

fn cells_of_a_pattern(way: u64, width: u64, bits: u64) -> Option<WindowCell> {
    if width < 32 {
        return None;
    }
    let (sort, negative) = Sort::of(width, bits)?;
    Some(match way {
        AS_SINGLE | AS_DOUBLE => WindowCell::Float(width, sort, negative),
        _ => WindowCell::Whole(width, sort),
    })
}
