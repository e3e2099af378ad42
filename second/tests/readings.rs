//! The readings of document 01: its table row by row, the sentence below it, and the answers.

mod common;

use common::*;
use second::machine::{Bench, SP};

const BYTES: [u8; 8] = [1, 2, 3, 4, 5, 6, 7, 8];

/// VL 256, bytes 01..08 at X0, P0 bits 0 and 16.
fn first_reading() -> Bench {
    let mut bench = bench(256);
    poke(&mut bench, X0, &BYTES);
    p0(&mut bench, &[0, 16]);
    bench
}

#[test]
fn ld1rd_fills_active_lanes_and_clears_the_others() {
    let (z, count) = ran(0x85C0_E000, &first_reading());
    assert_eq!(z, [BYTES, [0; 8], BYTES, [0; 8]].concat());
    assert_eq!(count, 1);
}

#[test]
fn ld1rd_with_the_largest_immediate_reads_at_x0_plus_504() {
    let mut bench = first_reading();
    let (z, _) = ran(0x85FF_E000, &bench);
    assert_eq!(z[..8], flash_bytes(X0 + 504, 8));
    bench.x[0] = FLASH + 0x8000 - 504;
    assert_eq!(answer(0x85FF_E000, &bench), (6, 0, 0, FLASH + 0x8000));
}

#[test]
fn ld1rsb_of_80_gives_eight_lanes_ff80() {
    let mut bench = bench(128);
    poke(&mut bench, X0, &[0x80]);
    let (z, count) = ran(0x85C0_C000, &bench);
    assert_eq!(z, [0x80, 0xFF].repeat(8));
    assert_eq!(count, 1);
}

#[test]
fn ld1d_with_immediate_minus_8_at_vl_2048_starts_2048_below() {
    let (z, count) = ran(0xA5E8_A000, &bench(2048));
    assert_eq!(z, flash_bytes(X0 - 2048, 256));
    assert_eq!(count, 32);
}

#[test]
fn ld1d_with_immediate_7_at_vl_128_starts_112_above() {
    let (z, count) = ran(0xA5E7_A000, &bench(128));
    assert_eq!(z, flash_bytes(X0 + 112, 16));
    assert_eq!(count, 2);
}

#[test]
fn ld1d_scalar_scales_modulo_2_to_the_64() {
    let mut bench = bench(128);
    bench.x[1] = (1 << 61) + 2;
    let (z, _) = ran(0xA5E1_4000, &bench);
    assert_eq!(z, flash_bytes(X0 + 16, 16));
}

#[test]
fn scalar_forms_with_rm_31_are_undefined() {
    for word in [0xA5FF_4000, 0xA59F_0000, 0xA5BF_0000] {
        assert_plain(3, word, &bench(256));
    }
}

#[test]
fn ld1rqd_repeats_its_block_four_times_at_vl_512() {
    let (z, count) = ran(0xA580_2000, &bench(512));
    assert_eq!(z, flash_bytes(X0, 16).repeat(4));
    assert_eq!(count, 2);
}

#[test]
fn ld1rod_at_vl_384_leaves_16_zero_bytes() {
    let (z, count) = ran(0xA5A0_2000, &bench(384));
    assert_eq!(z, [flash_bytes(X0, 32), vec![0; 16]].concat());
    assert_eq!(count, 4);
}

#[test]
fn ld1rod_at_vl_128_is_undefined_behind_the_switch() {
    let mut bench = bench(128);
    assert_plain(3, 0xA5A0_2000, &bench);
    bench.sve = false;
    assert_plain(4, 0xA5A0_2000, &bench);
    bench.f64mm = false;
    assert_plain(3, 0xA5A0_2000, &bench);
}

#[test]
fn ld1r_post_index_at_the_last_byte_wraps_its_base() {
    let mut bench = bench(256);
    bench.x[0] = u64::MAX;
    let mut last_page = vec![0; 4096];
    last_page[4095] = 0x5C;
    bench.ram = area(0_u64.wrapping_sub(4096), last_page);
    let (z, count) = ran(0x0DDF_C000, &bench);
    assert_eq!(z, [vec![0x5C; 8], vec![0; 24]].concat());
    assert_eq!(count, 1);
    assert_eq!(step(0x0DDF_C000, &bench).x[0], 0);
}

#[test]
fn ld1r_post_index_by_its_own_base_doubles_it() {
    let bench = bench(128);
    let (z, _) = ran(0x4DC0_C000, &bench);
    assert_eq!(z, [flash_byte(X0); 16]);
    assert_eq!(step(0x4DC0_C000, &bench).x[0], 2 * X0);
}

#[test]
fn ld1r_with_s_1_or_l_0_is_undefined() {
    for word in [0x4D40_D000, 0x4D00_C000, 0x4DC0_D000, 0x4D80_C000] {
        assert_plain(3, word, &bench(128));
    }
}

#[test]
fn words_outside_the_families() {
    for word in [0xA5F0_A000, 0xA5C0_2000, 0x0000_0000] {
        assert_plain(2, word, &bench(128));
    }
}

/// As request Two of document 02 amends it: "the reading A58023E0, which now answers 5".
#[test]
fn ld1rqd_with_a_lane_active_beyond_its_block_checks_sp_and_reads_nothing() {
    let mut bench = bench(256);
    bench.x[SP] = 8;
    p0(&mut bench, &[16]);
    assert_plain(5, 0xA580_23E0, &bench);
    p0(&mut bench, &[8]);
    assert_plain(5, 0xA580_23E0, &bench);
    // At an SP that is a multiple of 16, in no area, memory is read for the block's lanes only
    bench.x[SP] = 16;
    p0(&mut bench, &[16]);
    assert_eq!(ran(0xA580_23E0, &bench), (vec![0; 32], 0));
}

/// Flash at 0 of 8,192 bytes with page 1 denied, X0 = 4,084.
fn denied_page() -> Bench {
    let mut bench = bench(256);
    bench.flash = area(0, (0..8192).map(flash_byte).collect());
    bench.flash.rights = vec![1, 0];
    bench.x[0] = 4084;
    bench
}

#[test]
fn ld1d_into_a_denied_page() {
    let mut bench = denied_page();
    p0(&mut bench, &[0, 8]);
    assert_eq!(answer(0xA5E0_A000, &bench), (7, 1, 1, 4096));
}

#[test]
fn ld1d_beside_a_denied_page() {
    let mut bench = denied_page();
    p0(&mut bench, &[0]);
    let lane_0: Vec<u8> = (4084..4092).map(flash_byte).collect();
    let (z, count) = ran(0xA5E0_A000, &bench);
    assert_eq!(z, [lane_0, vec![0; 24]].concat());
    assert_eq!(count, 1);
}

#[test]
fn the_largest_area_and_vector_length() {
    for (length, answer) in [(65_536, 0), (65_537, 1)] {
        let mut bench = bench(128);
        bench.ram = area(0x4000_0000, vec![7; length]);
        assert_eq!(step(0xA5E0_A000, &bench).report.answer, answer);
    }
    for (vl, answer) in [(2048, 0), (2176, 1), (0, 1)] {
        assert_eq!(step(0xA5E0_A000, &bench(vl)).report.answer, answer);
    }
}
