//! What the memory, the vector file and the scalars hold.

use crate::decode::Load;
use crate::machine::Bench;
use crate::rng::Rng;
use crate::together::Stretch;

/// Puts numbers at the edges of the sign where the load can read: 7F, 80 and FF, and as wide as an
/// element is 7FFF, 8000, FFFF and so on. The others stay random, so that no two lanes need be equal.
pub fn sign_edges(rng: &mut Rng, load: &Load, bench: &mut Bench) {
    let mbytes = load.msize / 8;
    let lowest = 1_u64 << (load.msize - 1);
    let first = Stretch::of(load, bench).first;
    for e in 0..load.elements(bench.vl) {
        let value = rng.pick([lowest - 1, lowest - 1, lowest, lowest, u64::MAX, lowest + 1]);
        if rng.percent(60) {
            let value = &value.to_le_bytes()[..mbytes as usize];
            put(bench, first.wrapping_add(e * mbytes), value);
        }
    }
}

/// The bytes that lie in an area; the others have no place.
fn put(bench: &mut Bench, address: u64, bytes: &[u8]) {
    for (i, byte) in (0..).zip(bytes) {
        let address = address.wrapping_add(i);
        for area in [&mut bench.flash, &mut bench.ram] {
            if let Some(offset) = area.offset_of(address) {
                area.bytes[offset] = *byte;
            }
        }
    }
}

/// Old bytes of the vector file. None of them is zero, so that each one shows that should become zero.
pub fn old(rng: &mut Rng, length: usize) -> Vec<u8> {
    let mut bytes = rng.bytes(length);
    for byte in &mut bytes {
        *byte = (*byte).max(1);
    }
    bytes
}

/// Any number; now and then one at an end of the unsigned or of the signed numbers.
pub fn scalar(rng: &mut Rng) -> u64 {
    if rng.percent(6) {
        rng.pick([0, 1, u64::MAX, 1 << 63, (1 << 63) - 1])
    } else {
        rng.next_u64()
    }
}
