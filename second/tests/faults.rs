//! "Faults we have already paid for" in document 01, each as a test.

mod common;

use common::*;
use second::machine::PC;

/// A load of doubles of each kind that a predicate governs.
const PREDICATED: [u32; 5] = [
    0x85C0_E000,
    0xA5E0_A000,
    0xA5E1_4000,
    0xA580_2000,
    0xA5A0_2000,
];

#[test]
fn an_inactive_lane_becomes_zero() {
    let mut bench = bench(256);
    p0(&mut bench, &[8]);
    for word in PREDICATED {
        let (z, _) = ran(word, &bench);
        assert_eq!(z[..8], [0; 8], "{word:08x}");
        assert_ne!(z[8..16], [0; 8], "{word:08x}");
    }
}

#[test]
fn only_the_lowest_bit_of_a_group_makes_its_lane_active() {
    let mut bench = bench(256);
    let others: Vec<u64> = (0..32).filter(|bit| bit % 8 != 0).collect();
    p0(&mut bench, &others);
    for word in PREDICATED {
        assert_eq!(ran(word, &bench), (vec![0; 32], 0), "{word:08x}");
    }
}

#[test]
fn a_forbidden_page_under_an_inactive_lane_is_not_looked_at() {
    let mut bench = bench(256);
    bench.flash.rights[5] = 0;
    bench.x[0] = FLASH + 5 * 4096 - 8;
    p0(&mut bench, &[0]);
    let (z, count) = ran(0xA5E0_A000, &bench);
    assert_eq!((z[8..].to_vec(), count), (vec![0; 24], 1));
}

#[test]
fn the_immediate_is_scaled_by_all_lanes() {
    let mut bench = bench(512);
    p0(&mut bench, &[8]);
    let (z, count) = ran(0xA5E3_A000, &bench);
    assert_eq!(z[8..16], flash_bytes(X0 + 3 * 64 + 8, 8));
    assert_eq!(count, 1);
    // ld1b to 64-bit lanes: eight lanes of one byte each
    let (z, _) = ran(0xA463_A000, &bench);
    assert_eq!(z[8..16], [flash_byte(X0 + 3 * 8 + 1), 0, 0, 0, 0, 0, 0, 0]);
}

#[test]
fn lanes_before_a_fault_are_not_written() {
    let mut bench = bench(256);
    bench.x[0] = FLASH + 0x8000 - 16;
    let outcome = step(0xA5E0_A000, &bench);
    assert_eq!((outcome.report.answer, outcome.report.count), (6, 2));
    assert_eq!(outcome.z, bench.z);
    assert_eq!(outcome.x[PC], PC_BEFORE);
}

#[test]
fn ld1r_with_q_0_clears_the_upper_part() {
    let (z, _) = ran(0x0D40_C000, &bench(256));
    assert_eq!(z, [vec![flash_byte(X0); 8], vec![0; 24]].concat());
}
