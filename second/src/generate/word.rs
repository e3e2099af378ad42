//! Words: of a family, nearly of a family, and of no family.

use super::stack;
use crate::decode::Family;
use crate::rng::Rng;

/// The lowest bit of the fields Rm, imm6 or imm4, Rn and Rt, and the bits L and S of LD1R to LD4R.
const RM: u32 = 16;
const IMM: u32 = 16;
const RN: u32 = 5;
const RT: u32 = 0;
const L: u32 = 1 << 22;
const S: u32 = 1 << 12;

fn register(word: u32, low: u32) -> u32 {
    (word >> low) & 31
}

fn set_register(word: &mut u32, low: u32, number: u32) {
    *word = *word & !(31 << low) | number << low;
}

/// A word of one of the nine families, all fields random, so LD1R to LD4R in equal parts; Rn = 31,
/// Rn = Rm and what makes a word undefined are more frequent or rarer than chance would have them.
pub fn of_a_family(rng: &mut Rng) -> u32 {
    let family = rng.pick(Family::ALL);
    let pattern = family.pattern();
    let mut word = rng.next_u64() as u32 & !pattern.mask | pattern.value;
    let from_stack = family.block().map_or(22, |_| stack::FROM_STACK);
    if rng.percent(from_stack) {
        set_register(&mut word, RN, 31);
    }
    if family.is_ldnr() {
        word = (word | L) & !S;
        if rng.percent(4) {
            word &= !L;
        }
        if rng.percent(4) {
            word |= S;
        }
        if rng.percent(40) {
            // Near the last register, so that 31 is often followed by 0
            set_register(&mut word, RT, 28 + rng.below(4) as u32);
        }
    }
    if family.is_scalar() || family == Family::LdnrPostIndex {
        index_register(rng, family, &mut word);
    } else if !family.is_ldnr() && rng.percent(12) {
        immediate_at_an_end(rng, family, &mut word);
    }
    word
}

/// imm6 0 or 63, imm4 -8 or 7.
fn immediate_at_an_end(rng: &mut Rng, family: Family, word: &mut u32) {
    let (field, ends) = match family {
        Family::Ld1rElement => (63, [0, 63]),
        _ => (15, [8, 7]),
    };
    *word = *word & !(field << IMM) | rng.pick(ends) << IMM;
}

/// Rm = 31 (undefined, or the post-index by the size), Rm = Rn, or any other.
fn index_register(rng: &mut Rng, family: Family, word: &mut u32) {
    let rm_31 = if family.is_scalar() { 5 } else { 30 };
    let own = register(*word, RN);
    let number = match rng.below(100) {
        part if part < rm_31 => 31,
        part if part < rm_31 + 12 && own != 31 => own,
        _ => rng.below(31) as u32,
    };
    set_register(word, RM, number);
}

/// One fixed bit flipped, any bit flipped, some of the fixed bits random, or wholly random.
pub fn near_miss(rng: &mut Rng, word: u32) -> u32 {
    let family = Family::of(word);
    let fixed = family.map_or(u32::MAX, |family| family.pattern().mask);
    match rng.below(10) {
        // Opcodes 10x and 01x, next to those of LD1R to LD4R
        4 | 5 if family.is_some_and(Family::is_ldnr) => word ^ rng.pick([1 << 14, 1 << 15]),
        0..=4 => {
            let which = rng.below(u64::from(fixed.count_ones())) as usize;
            let bit = (0..32).filter(|bit| fixed >> bit & 1 == 1).nth(which);
            word ^ 1 << bit.unwrap_or(0)
        }
        5 => word ^ 1 << rng.below(32),
        // The highest bits tell SVE loads from all else; below them lie the other loads
        6 | 7 => word ^ (rng.next_u64() as u32 & rng.next_u64() as u32 & fixed & 0x03FF_FFFF),
        _ => rng.next_u64() as u32,
    }
}
