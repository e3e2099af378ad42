//! The governing predicate of a case.

use super::aim::distance;
use crate::decode::{Family, Load};
use crate::machine::{Bench, Machine};
use crate::rng::Rng;
use crate::rules::Right;

/// Which lanes are active. Where only lanes are named, the other bits of their groups stay random.
#[derive(Clone, Copy, PartialEq, Eq)]
enum Manner {
    AsItWas,
    NoBit,
    EveryBit,
    EveryLane,
    /// Only other bits of the groups.
    NoLane,
    OneLane,
    /// The last lane of the block, or of all.
    LastLane,
    /// Only lanes beyond the block, or the upper half.
    Beyond,
    /// The lower half of the block or of all, or every second lane.
    LowerHalf,
    EverySecond,
    FirstLanes,
    SomeLanes,
    SomeOfBlock,
    /// Exactly those whose bytes can be read: forbidden pages lie under inactive lanes.
    Readable,
}

/// A manner named more often comes more often.
const MANNERS: [Manner; 24] = [
    Manner::AsItWas,
    Manner::AsItWas,
    Manner::NoBit,
    Manner::EveryBit,
    Manner::EveryLane,
    Manner::EveryLane,
    Manner::EveryLane,
    Manner::NoLane,
    Manner::OneLane,
    Manner::OneLane,
    Manner::LastLane,
    Manner::Beyond,
    Manner::Beyond,
    Manner::LowerHalf,
    Manner::EverySecond,
    Manner::FirstLanes,
    Manner::SomeLanes,
    Manner::SomeOfBlock,
    Manner::SomeOfBlock,
    Manner::Readable,
    Manner::Readable,
    Manner::Readable,
    Manner::Readable,
    Manner::Readable,
];

/// Sets P[g], which was random before, in one of the manners.
pub fn govern(rng: &mut Rng, load: &Load, bench: &mut Bench) {
    let all = bench.vl / load.esize;
    let lanes = load.lanes(bench.vl);
    let manner = rng.pick(MANNERS);
    let chosen = rng.below(lanes);
    let density = rng.pick([10, 50, 90]);
    let first = load.g as u64 * (bench.vl / 8);
    for e in 0..all {
        let active = match manner {
            Manner::AsItWas => return,
            Manner::EveryBit | Manner::EveryLane => true,
            Manner::NoBit | Manner::NoLane => false,
            Manner::OneLane => e == chosen,
            Manner::LastLane => e == lanes - 1,
            Manner::Beyond => e >= lanes || lanes == all && e >= all / 2,
            Manner::LowerHalf => e < lanes / 2,
            Manner::EverySecond => e % 2 == chosen % 2,
            Manner::FirstLanes => e <= chosen,
            Manner::SomeLanes => rng.percent(density),
            Manner::SomeOfBlock => e < lanes && rng.percent(density),
            Manner::Readable => can_be_read(load, bench, e),
        };
        let whole_group = matches!(manner, Manner::EveryBit | Manner::NoBit);
        let group = load.esize / 8;
        for bit in 0..if whole_group { group } else { 1 } {
            set_bit(&mut bench.p, first + e * group + bit, active);
        }
    }
}

/// Whether all bytes of lane `e` could be read.
fn can_be_read(load: &Load, bench: &Bench, e: u64) -> bool {
    let address = bench.scalar(load.n).wrapping_add(distance(load, bench, e));
    let mut machine = Machine::new(&Right, bench);
    load.family == Family::Ld1rElement || machine.mem(e, address, load.msize / 8).is_ok()
}

/// Sets or clears a bit of the predicate file.
pub fn set_bit(file: &mut [u8], bit: u64, value: bool) {
    if let Some(byte) = file.get_mut((bit / 8) as usize) {
        *byte = *byte & !(1 << (bit % 8)) | u8::from(value) << (bit % 8);
    }
}
