//! Predicate and SP of loads from the stack that read nothing, so that all hangs on the stack rule: a block
//! load has no lane of the block's own active, and the rule asks those past it too (request Two of document
//! 02). Other SVE loads have no lane active at all.

use std::ops::Range;

use super::predicate::set_bit;
use crate::decode::Load;
use crate::machine::{Bench, SP};
use crate::rng::Rng;
use crate::stack::{lanes, Active};

/// How many of a hundred block loads have SP as base.
pub const FROM_STACK: u64 = 37;
/// How many of a hundred of these read nothing, and how many SVE loads from the stack that have no lanes past
/// a block.
const UNREAD: u64 = 54;
const UNREAD_ALONE: u64 = 8;
/// And how many of a hundred such have an SP that is no multiple of 16.
const ASKEW: u64 = 55;

/// What is active instead; one named more often comes more often.
const INSTEAD: [Active; 13] = [
    Active::InLaterCopy,
    Active::InLaterCopy,
    Active::InLaterCopy,
    Active::InLeftOver,
    Active::InLeftOver,
    Active::InLeftOver,
    Active::InLeftOver,
    Active::InLeftOver,
    Active::OtherBits,
    Active::OtherBits,
    Active::OtherBits,
    Active::NoBit,
    Active::NoBit,
];

/// Whether a load is to read nothing.
pub fn governs(rng: &mut Rng, load: &Load, vl: u64) -> bool {
    let unread = if load.lanes(vl) < vl / load.esize {
        UNREAD
    } else {
        UNREAD_ALONE
    };
    load.n == SP && !load.family.is_ldnr() && rng.percent(unread)
}

/// Sets P[g] anew, and makes SP a multiple of 16 or not.
pub fn govern(rng: &mut Rng, load: &Load, bench: &mut Bench) {
    let parts = lanes(load, bench.vl);
    let instead = instead(rng, load, &parts);
    let group = load.esize / 8;
    let first = load.g as u64 * (bench.vl / 8);
    let mut set = |bit, value| set_bit(&mut bench.p, first + bit, value);
    // In one half of the cases the other bits of the lanes' groups stay as they were, mostly random
    let all_cleared = instead == Active::NoBit || rng.percent(50);
    for bit in (0..bench.vl / 8).filter(|bit| all_cleared || bit % group == 0) {
        set(bit, false);
    }
    let [block, later, left_over] = parts;
    match instead {
        Active::OtherBits => {
            let lane = rng.below(left_over.end.max(block.end));
            set(lane * group + 1 + rng.below(group - 1), true);
        }
        Active::InLaterCopy => some(rng, later, left_over, |e| set(e * group, true)),
        Active::InLeftOver => some(rng, left_over, 0..0, |e| set(e * group, true)),
        Active::InBlock | Active::NoBit => {}
    }
    bench.x[SP] &= !15;
    if rng.percent(ASKEW) {
        bench.x[SP] |= rng.pick([1, 2, 4, 8, 8, 12]);
    }
}

/// One of those that can be at this VL and lane size.
fn instead(rng: &mut Rng, load: &Load, [_, later, left_over]: &[Range<u64>; 3]) -> Active {
    let can_be = |active: &Active| match active {
        Active::InLaterCopy => !later.is_empty(),
        Active::InLeftOver => !left_over.is_empty(),
        _ => active.can_be(load.family, load.esize),
    };
    let possible: Vec<Active> = INSTEAD.into_iter().filter(can_be).collect();
    possible[rng.below(possible.len() as u64) as usize]
}

/// Names one of the lanes for certain, mostly alone: the first, the last or any. Now and then some or all
/// of them, and of those that may be active besides.
fn some(rng: &mut Rng, lanes: Range<u64>, besides: Range<u64>, mut name: impl FnMut(u64)) {
    let chosen = match rng.below(6) {
        0 => lanes.start,
        1 | 2 => lanes.end - 1,
        _ => lanes.start + rng.below(lanes.end - lanes.start),
    };
    let density = rng.pick([0, 0, 0, 30, 100]);
    for e in lanes.chain(besides) {
        if e == chosen || rng.percent(density) {
            name(e);
        }
    }
}
