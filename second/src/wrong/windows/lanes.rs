//! What is wrong about what a lane holds.

use super::{changed, nothing, with};
use crate::loads::Report;
use crate::questions::Question;
use crate::rules::{Right, Rules};
use crate::windows::{
    is_nan_double, is_nan_single, AS_DOUBLE, AS_SINGLE, AS_WHOLE, DOUBLE, SINGLE, WHOLE,
};

/// The right report, changed where a lane is shown.
fn seen(question: &Question, change: impl FnOnce([u64; 4], &mut Report)) -> Report {
    let mut report = question.window();
    if report.answer != 0 {
        change(question.numbers, &mut report);
    }
    report
}

/// The bytes of a lane that is shown, taken from another place of the file.
pub fn read_at(question: &Question, first: impl FnOnce([u64; 4], u64) -> u64) -> Report {
    seen(question, |numbers, report| {
        let bench = &question.lent.bench;
        let first = first(numbers, bench.vl) as usize;
        let bytes = bench.z.iter().skip(first).take((numbers[2] / 8) as usize);
        let bits = bytes
            .rev()
            .fold(0, |bits, byte| bits << 8 | u64::from(*byte));
        report.count = bits;
    })
}

pub fn from_high_end(question: &Question) -> Report {
    let vl = question.lent.bench.vl;
    seen(question, |[_, _, width, lane], report| {
        *report = with(question, |numbers| numbers[3] = vl / width - 1 - lane);
    })
}

pub fn bytes_turned(question: &Question) -> Report {
    seen(question, |[_, _, width, _], report| {
        report.count = report.count.swap_bytes() >> (64 - width);
    })
}

pub fn sign_extended(question: &Question) -> Report {
    seen(question, |[_, way, width, _], report| {
        if way == AS_WHOLE && width < 64 && report.count >> (width - 1) == 1 {
            report.count |= u64::MAX << width;
        }
    })
}

/// The answer that a float of the way asked would have.
pub fn float_of(question: &Question) -> u8 {
    match question.numbers[1] {
        AS_SINGLE => SINGLE,
        _ => DOUBLE,
    }
}

pub fn quiet_bit(question: &Question) -> u64 {
    match question.numbers[1] {
        AS_SINGLE => 1 << 22,
        _ => 1 << 51,
    }
}

/// The report of a NaN that was asked for as a float.
pub fn on_nan(question: &Question, change: impl FnOnce(Report) -> Report) -> Report {
    let report = question.window();
    let nan = match question.numbers[1] {
        AS_SINGLE => is_nan_single(report.count),
        AS_DOUBLE => is_nan_double(report.count),
        _ => false,
    };
    if nan && report.answer == WHOLE {
        change(report)
    } else {
        report
    }
}

/// The report of a float, given its bits without the sign.
fn on_float(question: &Question, change: impl FnOnce(u64, u32, &mut Report)) -> Report {
    seen(question, |_, report| match report.answer {
        SINGLE => change(report.count & 0x7FFF_FFFF, 23, report),
        DOUBLE => change(report.count & (u64::MAX >> 1), 52, report),
        _ => {}
    })
}

pub fn infinity_as_nan(question: &Question) -> Report {
    on_float(question, |bits, fraction, report| {
        let infinity = if fraction == 23 {
            0x7F80_0000
        } else {
            0x7FF0 << 48
        };
        if bits == infinity {
            report.answer = WHOLE;
        }
    })
}

pub fn minus_zero(question: &Question) -> Report {
    on_float(question, |bits, _, report| {
        if bits == 0 {
            report.count = 0;
        }
    })
}

pub fn subnormal(question: &Question) -> Report {
    on_float(question, |bits, fraction, report| {
        if bits >> fraction == 0 {
            report.count &= !bits;
        }
    })
}

pub fn past_the_last(question: &Question) -> Report {
    let vl = question.lent.bench.vl;
    let [.., width, lane] = question.numbers;
    if vl.checked_div(width) != Some(lane) || lane == 0 {
        return question.window();
    }
    with(question, |numbers| numbers[3] -= 1)
}

pub fn above_v(question: &Question) -> Report {
    seen(question, |[_, _, width, lane], report| {
        if (lane + 1) * width > 128 {
            *report = nothing();
        }
    })
}

pub fn whole_as_single(question: &Question) -> Report {
    seen(question, |[_, way, width, _], report| {
        if (way, width) == (AS_WHOLE, 32) {
            report.answer = SINGLE;
        }
    })
}

pub fn file_not_asked(question: &Question) -> Report {
    changed(question, |bench| {
        if Right.vl_allowed(bench.vl) {
            bench.z.resize((bench.vl * 4) as usize, 0);
        }
    })
}

/// A VL that is not allowed is taken; the file is as long as it asks. Only the lanes that 2,048 bits
/// have are told: they are what the right window shows of the first registers.
pub fn vl_taken(question: &Question, taken: impl Fn(u64) -> bool) -> Report {
    let bench = &question.lent.bench;
    let vl = bench.vl;
    let [register, _, width, lane] = question.numbers;
    let fits = vl > 0 && vl <= 16_384 && bench.z.len() as u64 == 4 * vl && taken(vl);
    let there = register < 32 && lane.checked_mul(width).is_some_and(|first| first < vl);
    if Right.vl_allowed(vl) || !fits || !there {
        return question.window();
    }
    let first = ((register * vl + lane * width) / 8) as usize;
    let mut other = question.clone();
    other.lent.bench.z = bench.z[first..].to_vec();
    other.lent.bench.z.resize(512, 0);
    other.lent.bench.vl = 128;
    other.numbers = [0, question.numbers[1], width, 0];
    other.window()
}
