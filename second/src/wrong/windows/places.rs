//! What is wrong about where an address lies.

use super::nothing;
use crate::loads::Report;
use crate::machine::{Area, Bench, Refusal, PAGE};
use crate::questions::Question;
use crate::rules::{Right, Rules};
use crate::windows::{FLASH, OF_AREAS, RAM};

/// The area that the right window shows, and the other one.
fn areas<'a>(question: &'a Question, report: &Report) -> Option<(&'a Area, &'a Area)> {
    let Bench { flash, ram, .. } = &question.lent.bench;
    match report.answer {
        FLASH => Some((flash, ram)),
        RAM => Some((ram, flash)),
        _ => None,
    }
}

/// The right report, changed where an area is shown.
fn shown(question: &Question, change: impl FnOnce(&Area, &Area, &mut Report)) -> Report {
    let mut report = question.window();
    if let Some((area, other)) = areas(question, &report) {
        change(area, other, &mut report);
    }
    report
}

pub fn right_asked(question: &Question) -> Report {
    shown(question, |area, _, report| {
        let right = area.rights[(report.count / PAGE) as usize];
        if !Right.readable(right) {
            *report = nothing();
        }
    })
}

pub fn offset_from_0(question: &Question) -> Report {
    shown(question, |_, _, report| report.count = question.numbers[0])
}

pub fn other_length(question: &Question) -> Report {
    shown(question, |_, other, report| {
        report.element = other.len().saturating_sub(report.count);
    })
}

pub fn whole_length(question: &Question) -> Report {
    shown(question, |area, _, report| report.element = area.len())
}

pub fn length_in_page(question: &Question) -> Report {
    shown(question, |_, _, report| {
        report.element = report.element.min(PAGE - report.count % PAGE);
    })
}

pub fn a_byte_short(question: &Question) -> Report {
    shown(question, |_, _, report| report.element -= 1)
}

pub fn last_byte_hidden(question: &Question) -> Report {
    shown(question, |_, _, report| {
        if report.element == 1 {
            *report = nothing();
        }
    })
}

pub fn ram_as_flash(question: &Question) -> Report {
    shown(question, |_, _, report| report.answer = FLASH)
}

pub fn address_told(question: &Question) -> Report {
    shown(question, |_, _, report| {
        report.address = question.numbers[0]
    })
}

pub fn touching_as_one(question: &Question) -> Report {
    shown(question, |area, other, report| {
        if area.end() == u128::from(other.start) {
            report.element += other.len();
        }
    })
}

/// Something is shown where the right window, of accepted areas, shows nothing.
fn instead_of_empty(
    question: &Question,
    taken: impl Fn(&Area, u64) -> bool,
    offset: impl Fn(&Area) -> u64,
) -> Report {
    let report = question.window();
    let bench = &question.lent.bench;
    let refused = OF_AREAS.iter().any(|cause| cause.applies(&Right, bench));
    if report.answer != 0 || refused {
        return report;
    }
    for (answer, area) in [(FLASH, &bench.flash), (RAM, &bench.ram)] {
        if taken(area, question.numbers[0]) {
            return Report {
                answer,
                count: offset(area),
                ..report
            };
        }
    }
    report
}

pub fn byte_behind_shown(question: &Question) -> Report {
    let behind = |area: &Area, address| !area.is_empty() && area.end() == u128::from(address);
    instead_of_empty(question, behind, Area::len)
}

pub fn empty_shown(question: &Question) -> Report {
    let start = |area: &Area, address| area.is_empty() && area.start == address;
    instead_of_empty(question, start, |_| 0)
}

/// The window that refuses by these causes alone.
pub fn found_unless(question: &Question, causes: &[Refusal]) -> Report {
    let bench = &question.lent.bench;
    if causes.iter().any(|cause| cause.applies(&Right, bench)) {
        return nothing();
    }
    for (answer, area) in [(FLASH, &bench.flash), (RAM, &bench.ram)] {
        if let Some(offset) = area.offset_of(question.numbers[0]) {
            let offset = offset as u64;
            return Report {
                answer,
                count: offset,
                element: area.len() - offset,
                address: 0,
            };
        }
    }
    nothing()
}

/// The window that refuses by all causes but these.
pub fn found_unless_but(question: &Question, left: &[Refusal]) -> Report {
    let causes: Vec<Refusal> = (OF_AREAS.into_iter())
        .filter(|cause| !left.contains(cause))
        .collect();
    found_unless(question, &causes)
}

/// What is wrong with RAM alone does not hide flash.
pub fn own_area_asked(question: &Question) -> Report {
    let of_flash = [
        Refusal::FlashLimit,
        Refusal::FlashRights,
        Refusal::FlashStart,
        Refusal::FlashEnd,
        Refusal::Overlap,
    ];
    match found_unless(question, &of_flash) {
        report if report.answer == FLASH => report,
        _ => question.window(),
    }
}

pub fn empty_if(question: &Question, hidden: impl Fn(&Bench) -> bool) -> Report {
    if hidden(&question.lent.bench) {
        nothing()
    } else {
        question.window()
    }
}

pub fn top_refused(question: &Question) -> Report {
    empty_if(question, |bench| {
        let top = |area: &Area| !area.is_empty() && area.end() == 1 << 64;
        top(&bench.flash) || top(&bench.ram)
    })
}

pub fn touching_refused(question: &Question) -> Report {
    empty_if(question, |bench| {
        let touch = |a: &Area, b: &Area| !a.is_empty() && a.end() == u128::from(b.start);
        touch(&bench.flash, &bench.ram) || touch(&bench.ram, &bench.flash)
    })
}
