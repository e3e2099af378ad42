//! Block loads from the stack: where their governing predicate has a lane, which is all that the stack rule
//! asks of it. Request Two of document 02: "LD1RQ and LD1RO with SP as base check it if any lane at that lane
//! size is active anywhere in VL."

use std::ops::Range;

use crate::cases::Case;
use crate::decode::{decode, Family, Load};
use crate::machine::{Answer, Bench, SP};
use crate::rules::{Right, Rules};

/// The families that load a block.
pub const BLOCKS: [Family; 4] = [
    Family::Ld1rqImmediate,
    Family::Ld1rqScalar,
    Family::Ld1roImmediate,
    Family::Ld1roScalar,
];

/// The first part of a predicate that has an active lane, or what it has instead.
#[derive(Clone, Copy, Debug, PartialEq, Eq, Hash)]
pub enum Active {
    /// A lane of the block's own.
    InBlock,
    /// None of these, but one of a later copy.
    InLaterCopy,
    /// Only lanes behind the last whole copy.
    InLeftOver,
    /// No lane, but other bits of their groups.
    OtherBits,
    NoBit,
}

impl Active {
    pub const ALL: [Active; 5] = [
        Active::InBlock,
        Active::InLaterCopy,
        Active::InLeftOver,
        Active::OtherBits,
        Active::NoBit,
    ];

    pub fn name(self) -> &'static str {
        match self {
            Active::InBlock => "in the block",
            Active::InLaterCopy => "in a later copy",
            Active::InLeftOver => "in what is left over",
            Active::OtherBits => "no lane, other bits",
            Active::NoBit => "no bit",
        }
    }

    /// Whether there is a lane, which makes a load from the stack check SP.
    pub fn lane(self) -> bool {
        !matches!(self, Active::OtherBits | Active::NoBit)
    }

    /// Whether a family can have it at some VL and with lanes of so many bits: VL has no part of an LD1RQ block
    /// left over, and at 8 bits each bit of a predicate is a lane's first.
    pub fn can_be(self, family: Family, esize: u64) -> bool {
        match self {
            Active::InLeftOver => family.is_ld1ro(),
            Active::OtherBits => esize > 8,
            _ => true,
        }
    }

    /// What the governing predicate of a block load has.
    fn of(load: &Load, bench: &Bench) -> Active {
        let [block, later, left_over] = lanes(load, bench.vl);
        let mask = bench.predicate(load.g);
        let any = |mut lanes: Range<u64>| lanes.any(|e| Right.active(mask, e, load.esize));
        match mask.0.iter().all(|byte| *byte == 0) {
            true => Active::NoBit,
            _ if any(block) => Active::InBlock,
            _ if any(later) => Active::InLaterCopy,
            _ if any(left_over) => Active::InLeftOver,
            _ => Active::OtherBits,
        }
    }
}

/// The lanes of a block, of its later copies, and of what is left over behind the last whole copy. For a
/// load without a block all are of the first kind.
pub fn lanes(load: &Load, vl: u64) -> [Range<u64>; 3] {
    let block = load.family.block().unwrap_or(vl);
    let whole = vl.checked_div(block).unwrap_or(0) * block;
    let [own, whole, all] = [block, whole, vl].map(|bits| bits / load.esize);
    [0..own, own..whole, whole..all]
}

/// A block load with SP as base that came as far as the stack rule.
#[derive(Clone, Copy, Debug, PartialEq, Eq, Hash)]
pub struct FromStack {
    pub family: Family,
    /// The lane size in bits.
    pub esize: u64,
    pub active: Active,
    /// Whether SP is no multiple of 16.
    pub askew: bool,
}

impl FromStack {
    /// What a case with this answer is of it.
    pub fn of(case: &Case, answer: u8) -> Option<FromStack> {
        let came = [Answer::Ran, Answer::Stack, Answer::NoMemory, Answer::Denied];
        came.iter().find(|came| came.number() == answer)?;
        let load = decode(&Right, case.word, case.bench.f64mm).ok()?;
        let from_stack = load.n == SP && load.family.block().is_some();
        from_stack.then(|| FromStack {
            family: load.family,
            esize: load.esize,
            active: Active::of(&load, &case.bench),
            askew: case.bench.scalar(SP) % 16 != 0,
        })
    }
}
