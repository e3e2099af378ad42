//! The small decisions of document 01 and of requests One and Two, one method each. The methods as they stand are
//! the right ones; a deliberately wrong variant overrides one of them (`wrong/`).

use crate::decode::Load;
use crate::machine::{Area, Mask, PAGE};

/// One row of the dtype table: memory size to lane size in bits, and whether the value is
/// extended with zeros.
#[derive(Clone, Copy, Debug, PartialEq, Eq)]
pub struct Dtype {
    pub msize: u64,
    pub esize: u64,
    pub unsigned: bool,
}

const fn zeros(msize: u64, esize: u64) -> Dtype {
    Dtype {
        msize,
        esize,
        unsigned: true,
    }
}

const fn sign(msize: u64, esize: u64) -> Dtype {
    Dtype {
        msize,
        esize,
        unsigned: false,
    }
}

/// "Its sixteen rows, 0 to 15, memory size to lane size in bits, s for sign extension."
pub const DTYPES: [Dtype; 16] = [
    zeros(8, 8),
    zeros(8, 16),
    zeros(8, 32),
    zeros(8, 64),
    sign(32, 64),
    zeros(16, 16),
    zeros(16, 32),
    zeros(16, 64),
    sign(16, 64),
    sign(16, 32),
    zeros(32, 32),
    zeros(32, 64),
    sign(8, 64),
    sign(8, 32),
    sign(8, 16),
    zeros(64, 64),
];

pub trait Rules: Sync {
    /// "Vector length VL in bits: a multiple of 128, 128 to 2,048."
    fn vl_allowed(&self, vl: u64) -> bool {
        vl % 128 == 0 && (128..=2048).contains(&vl)
    }

    /// "0 to 65,536 bytes each"
    fn area_limit(&self) -> u64 {
        65_536
    }

    /// "one rights byte per 4,096-byte page begun"
    fn rights_fit(&self, rights: u64, pages_begun: u64) -> bool {
        rights == pages_begun
    }

    /// "a start not a multiple of 4,096" is refused, of an empty area too.
    fn start_allowed(&self, start: u64) -> bool {
        start % PAGE == 0
    }

    /// "start + length over 2^64" is refused; 2^64 itself is not over.
    fn end_allowed(&self, end: u128) -> bool {
        end <= 1 << 64
    }

    /// "an address in both areas": an empty area has no address.
    fn share_an_address(&self, a: &Area, b: &Area) -> bool {
        u128::from(a.start.max(b.start)) < a.end().min(b.end())
    }

    fn dtype(&self, row: u32) -> Dtype {
        DTYPES[(row & 15) as usize]
    }

    /// `SInt(imm4)`: "A four-bit field becomes a signed number from -8 to 7".
    fn sint4(&self, imm4: u32) -> i64 {
        let imm4 = i64::from(imm4 & 15);
        if imm4 < 8 {
            imm4
        } else {
            imm4 - 16
        }
    }

    /// "an SVE scalar form with Rm = 31" is undefined.
    fn index_allowed(&self, m: usize) -> bool {
        m != 31
    }

    /// Page 004: `selem = UInt(opcode<0>:R) + 1`, so LD1R, LD2R, LD3R and LD4R in this order.
    fn selem(&self, opcode_0: u32, r: u32) -> u64 {
        u64::from(opcode_0 << 1 | r) + 1
    }

    /// "L=0 or S=1 stays undefined", for each number of registers.
    fn replicate_allowed(&self, _selem: u64, l: u32, s: u32) -> bool {
        l == 1 && s == 0
    }

    /// "successive elements go to registers t, t+1 and on, 31 followed by 0": where element s goes.
    fn destination(&self, t: usize, s: u64, _selem: u64) -> usize {
        (t + s as usize) % 32
    }

    /// Page 004: `Mem[address+offs, ebytes]`, where `offs` grows by `ebytes` with each element.
    fn element_offset(&self, offs: u64, _s: u64, _load: &Load) -> u64 {
        offs
    }

    /// "the post-index immediate is the sum of the reads": `offs` as the loop leaves it.
    fn post_index_immediate(&self, offs: u64, _load: &Load) -> u64 {
        offs
    }

    /// "SP as base must be a multiple of 16."
    fn sp_aligned(&self, sp: u64) -> bool {
        sp % 16 == 0
    }

    /// "LD1R always checks" SP, with and without write-back, and so do LD2R to LD4R: page 004 has one
    /// operation text for all of them.
    fn ldnr_checks_sp(&self, _load: &Load) -> bool {
        true
    }

    /// `ConstrainUnpredictableBool(Unpredictable_CHECKSPNONEACTIVE)`: "The others check only when
    /// one of the lanes they consult is active".
    fn check_sp_none_active(&self, _load: &Load) -> bool {
        false
    }

    /// Whether an SVE load checks SP as base, given `AnyActiveElement(mask, esize)`, which speaks of all lanes.
    /// Request Two of document 02: "LD1RQ and LD1RO with SP as base check it if any lane at that lane size
    /// is active anywhere in VL", so one of a later copy too, or of what is left over behind the copies.
    fn stack_asks(&self, _load: &Load, _mask: Mask, any_active: bool) -> bool {
        any_active
    }

    /// "Memory is still read for the block's lanes only" (request Two of document 02).
    fn block_lanes_read(&self, block_lanes: u64, _all_lanes: u64) -> u64 {
        block_lanes
    }

    /// "Lane e is active exactly if predicate bit e x (lane size / 8) is 1."
    fn active(&self, mask: Mask, e: u64, esize: u64) -> bool {
        mask.bit(e * (esize / 8))
    }

    /// "All address arithmetic is modulo 2^64": the integer sum of a base and an offset.
    fn address(&self, base: u64, offset: i128) -> u64 {
        base.wrapping_add(offset as u64)
    }

    /// "byte by byte too"
    fn byte_address(&self, address: u64, i: u64) -> u64 {
        address.wrapping_add(i)
    }

    /// "bytes upward within a lane": which byte of an element is looked at in which turn.
    fn byte_in_turn(&self, turn: u64, _mbytes: u64) -> u64 {
        turn
    }

    /// Data is little-endian: the byte at the lowest address is the lowest of the value.
    fn byte_place(&self, i: u64, _mbytes: u64) -> u64 {
        i
    }

    /// "Bit 0 is the read right; other bits are not looked at."
    fn readable(&self, right: u8) -> bool {
        right & 1 == 1
    }

    /// `Extend(data, esize, unsigned)`: the lane's low `esize` bits count.
    fn extend(&self, data: u64, msize: u64, unsigned: bool) -> u64 {
        if unsigned || msize >= 64 || (data >> (msize - 1)) & 1 == 0 {
            data
        } else {
            data | (u64::MAX << msize)
        }
    }

    /// LD1R by element: one read at base + imm6 x m.
    fn element_scale(&self, mbytes: u64, _ebytes: u64) -> u64 {
        mbytes
    }

    /// LD1R by element: the lanes have the lane size of the dtype row.
    fn element_lane_size(&self, _msize: u64, esize: u64) -> u64 {
        esize
    }

    /// LD1 immediate: what one step of imm4 adds to the address. Page 003: "multiplied by the
    /// vector's in-memory size, irrespective of predication".
    fn immediate_scale(&self, _mask: Mask, elements: u64, mbytes: u64, _ebytes: u64) -> u64 {
        elements * mbytes
    }

    /// LD1 scalar: base + (Xm + e) x m.
    fn scalar_scale(&self, mbytes: u64, _ebytes: u64) -> u64 {
        mbytes
    }

    /// LD1RQ and LD1RO: "immediates counting whole blocks".
    fn block_scale(&self, block_bytes: u64) -> u64 {
        block_bytes
    }
}

/// The rules as document 01 has them, with requests One and Two of document 02.
pub struct Right;

impl Rules for Right {}
