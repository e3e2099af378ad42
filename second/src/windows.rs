//! "Two windows for the operator" of document 01. They look and change nothing.

use crate::loads::Report;
use crate::machine::{Bench, Refusal, VECTORS};
use crate::rules::Right;

/// The answers of the address window.
pub const EMPTY: u8 = 0;
pub const FLASH: u8 = 1;
pub const RAM: u8 = 2;

/// The answers of the lane window, and the ways of asking (a1).
pub const NO_SUCH_LANE: u8 = 0;
pub const WHOLE: u8 = 1;
pub const SINGLE: u8 = 2;
pub const DOUBLE: u8 = 3;
pub const AS_WHOLE: u64 = 0;
pub const AS_SINGLE: u64 = 1;
pub const AS_DOUBLE: u64 = 2;

/// "areas that earn answer 1 by limit, number of rights bytes, start, end or overlap": VL, the files and
/// the number of scalars are not asked.
pub const OF_AREAS: [Refusal; 9] = [
    Refusal::FlashLimit,
    Refusal::RamLimit,
    Refusal::FlashRights,
    Refusal::RamRights,
    Refusal::FlashStart,
    Refusal::RamStart,
    Refusal::FlashEnd,
    Refusal::RamEnd,
    Refusal::Overlap,
];

/// "Where does an address lie?" The offset in its area, and the length of the stretch from there on.
pub fn address_window(bench: &Bench, address: u64) -> Report {
    // "areas that earn answer 1 ...: an empty part"
    if OF_AREAS.iter().any(|cause| cause.applies(&Right, bench)) {
        return shown(EMPTY, 0, 0);
    }
    for (answer, area) in [(FLASH, &bench.flash), (RAM, &bench.ram)] {
        // "rights ignored"
        if let Some(offset) = area.offset_of(address) {
            let offset = offset as u64;
            // "the stretch from that byte to the area's end"
            return shown(answer, offset, area.len() - offset);
        }
    }
    // "No such byte"
    shown(EMPTY, 0, 0)
}

/// "What does a lane hold?"
pub fn lane_window(bench: &Bench, register: u64, way: u64, width: u64, lane: u64) -> Report {
    // "Wrong VL, file length"
    let wrong = [Refusal::VectorLength, Refusal::VectorFile]
        .iter()
        .any(|cause| cause.applies(&Right, bench));
    // "register over 31, width or lane"; the lanes are those of an allowed VL
    if wrong || register >= VECTORS || !width_fits(way, width) || lane >= bench.vl / width {
        return shown(NO_SUCH_LANE, 0, 0);
    }
    let first = register * (bench.vl / 8) + lane * (width / 8);
    let bytes = bench
        .z
        .iter()
        .skip(first as usize)
        .take((width / 8) as usize);
    // "lowest byte first"
    let bits = bytes
        .rev()
        .fold(0, |bits, byte| bits << 8 | u64::from(*byte));
    // "with exactly the lane's bits"
    let answer = match way {
        AS_SINGLE if !is_nan_single(bits) => SINGLE,
        AS_DOUBLE if !is_nan_double(bits) => DOUBLE,
        // "A NaN asked for as a float comes as 1 with its bits"
        _ => WHOLE,
    };
    shown(answer, bits, 0)
}

/// "whole at 8, 16, 32, 64 bits, single at 32, double at 64"
fn width_fits(way: u64, width: u64) -> bool {
    match way {
        AS_WHOLE => matches!(width, 8 | 16 | 32 | 64),
        AS_SINGLE => width == 32,
        AS_DOUBLE => width == 64,
        _ => false,
    }
}

/// Above infinity, the sign aside: decided by the bits, so that no float can quieten them.
pub fn is_nan_single(bits: u64) -> bool {
    bits & 0x7FFF_FFFF > 0x7F80_0000
}

pub fn is_nan_double(bits: u64) -> bool {
    bits & 0x7FFF_FFFF_FFFF_FFFF > 0x7FF0_0000_0000_0000
}

/// A window's address is always 0.
fn shown(answer: u8, count: u64, element: u64) -> Report {
    Report {
        answer,
        count,
        element,
        address: 0,
    }
}
