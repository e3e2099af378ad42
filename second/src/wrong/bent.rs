//! Variants that override one small rule.

use crate::decode::{Family, Load};
use crate::machine::{Area, Mask};
use crate::rules::{Dtype, Right, Rules, DTYPES};

/// `Name: fn rule(...) { ... }` makes a variant that has this rule of its own.
macro_rules! bent {
    ($($name:ident: $rule:item)*) => {
        $(pub struct $name; impl Rules for $name { $rule })*
    };
}

fn swapped(row: u32, a: u32, b: u32) -> Dtype {
    let row = match row {
        row if row == a => b,
        row if row == b => a,
        row => row,
    };
    DTYPES[(row & 15) as usize]
}

bent! {
    AnyBit:
    fn active(&self, mask: Mask, e: u64, esize: u64) -> bool {
        let group = esize / 8;
        (e * group..(e + 1) * group).any(|bit| mask.bit(bit))
    }

    ByActiveLanes:
    fn immediate_scale(&self, mask: Mask, elements: u64, mbytes: u64, ebytes: u64) -> u64 {
        let active = (0..elements).filter(|e| Right.active(mask, *e, 8 * ebytes));
        active.count() as u64 * mbytes
    }

    ByOneLane:
    fn immediate_scale(&self, _: Mask, _: u64, _: u64, ebytes: u64) -> u64 {
        ebytes
    }

    ByRegister:
    fn immediate_scale(&self, _: Mask, elements: u64, _: u64, ebytes: u64) -> u64 {
        elements * ebytes
    }

    Vl2176:
    fn vl_allowed(&self, vl: u64) -> bool {
        vl == 2176 || Right.vl_allowed(vl)
    }

    PowerOfTwo:
    fn vl_allowed(&self, vl: u64) -> bool {
        vl.is_power_of_two() && Right.vl_allowed(vl)
    }

    LimitPlusOne:
    fn area_limit(&self) -> u64 {
        Right.area_limit() + 1
    }

    LimitMinusOne:
    fn area_limit(&self) -> u64 {
        Right.area_limit() - 1
    }

    EightPages:
    fn area_limit(&self) -> u64 {
        Right.area_limit() / 2
    }

    RightsMore:
    fn rights_fit(&self, rights: u64, pages_begun: u64) -> bool {
        rights == pages_begun || rights == pages_begun + 1
    }

    RightsLess:
    fn rights_fit(&self, rights: u64, pages_begun: u64) -> bool {
        rights == pages_begun || rights + 1 == pages_begun
    }

    AnyStart:
    fn start_allowed(&self, _: u64) -> bool {
        true
    }

    EndRefused:
    fn end_allowed(&self, end: u128) -> bool {
        end < 1 << 64
    }

    AnyEnd:
    fn end_allowed(&self, _: u128) -> bool {
        true
    }

    OverlapAccepted:
    fn share_an_address(&self, _: &Area, _: &Area) -> bool {
        false
    }

    TouchingRefused:
    fn share_an_address(&self, a: &Area, b: &Area) -> bool {
        let full = !a.is_empty() && !b.is_empty();
        full && u128::from(a.start.max(b.start)) <= a.end().min(b.end())
    }

    EmptyOverlap:
    fn share_an_address(&self, a: &Area, b: &Area) -> bool {
        let inside = |a: &Area, b: &Area| b.offset_of(a.start).is_some();
        inside(a, b) || inside(b, a) || Right.share_an_address(a, b)
    }

    Rows4And8:
    fn dtype(&self, row: u32) -> Dtype {
        swapped(row, 4, 8)
    }

    Rows2And6:
    fn dtype(&self, row: u32) -> Dtype {
        swapped(row, 2, 6)
    }

    Unsigned4:
    fn sint4(&self, imm4: u32) -> i64 {
        i64::from(imm4)
    }

    Rm31:
    fn index_allowed(&self, _: usize) -> bool {
        true
    }

    SpEight:
    fn sp_aligned(&self, sp: u64) -> bool {
        sp % 8 == 0
    }

    PostNoSp:
    fn ldnr_checks_sp(&self, load: &Load) -> bool {
        load.family != Family::LdnrPostIndex
    }

    SpNoneActive:
    fn check_sp_none_active(&self, _: &Load) -> bool {
        true
    }

    Imm6ByLane:
    fn element_scale(&self, _: u64, ebytes: u64) -> u64 {
        ebytes
    }

    XmByLane:
    fn scalar_scale(&self, _: u64, ebytes: u64) -> u64 {
        ebytes
    }

    XmNotScaled:
    fn scalar_scale(&self, _: u64, _: u64) -> u64 {
        1
    }

    BlockSixteen:
    fn block_scale(&self, _: u64) -> u64 {
        16
    }

    NoWrap:
    fn address(&self, base: u64, offset: i128) -> u64 {
        (i128::from(base) + offset).clamp(0, i128::from(u64::MAX)) as u64
    }

    NoByteWrap:
    fn byte_address(&self, address: u64, i: u64) -> u64 {
        address.saturating_add(i)
    }

    HighestFirst:
    fn byte_in_turn(&self, turn: u64, mbytes: u64) -> u64 {
        mbytes - 1 - turn
    }

    BigEndian:
    fn byte_place(&self, i: u64, mbytes: u64) -> u64 {
        mbytes - 1 - i
    }

    RightBit1:
    fn readable(&self, right: u8) -> bool {
        right & 2 == 2
    }

    AnyRight:
    fn readable(&self, right: u8) -> bool {
        right != 0
    }

    NoSign:
    fn extend(&self, data: u64, _: u64, _: bool) -> u64 {
        data
    }

    SignBelow:
    fn extend(&self, data: u64, msize: u64, unsigned: bool) -> u64 {
        if unsigned || (data >> (msize - 2)) & 1 == 0 {
            data
        } else {
            data | (u64::MAX << (msize - 1))
        }
    }

    LargestNegative:
    fn extend(&self, data: u64, msize: u64, unsigned: bool) -> u64 {
        if !unsigned && data == (1 << (msize - 1)) - 1 {
            data | (u64::MAX << msize)
        } else {
            Right.extend(data, msize, unsigned)
        }
    }

    SmallestPositive:
    fn extend(&self, data: u64, msize: u64, unsigned: bool) -> u64 {
        if data == 1 << (msize - 1) {
            data
        } else {
            Right.extend(data, msize, unsigned)
        }
    }

    LanesAtMemorySize:
    fn element_lane_size(&self, msize: u64, _: u64) -> u64 {
        msize
    }
}
