//! Request One: LD2R, LD3R and LD4R beside LD1R, one rule over the number of registers.

mod common;

use common::*;
use second::machine::{Bench, SP};

/// The word of LD1R to LD4R that loads so many registers from t on, on X0: Q=1 or not, 1 << size bytes.
fn no_offset(registers: usize, t: usize, q: u32, size: u32) -> u32 {
    let (opcode_0, r) = [(0, 0), (0, 1), (1, 0), (1, 1)][registers - 1];
    0x0D40_C000 | q << 30 | r << 21 | opcode_0 << 13 | size << 10 | t as u32
}

/// The same with post-index by Rm.
fn post_index(registers: usize, m: u32, size: u32) -> u32 {
    no_offset(registers, 0, 1, size) | 1 << 23 | m << 16
}

/// t, t+1 and on, 31 followed by 0.
fn destinations(registers: usize, t: usize) -> Vec<usize> {
    let all: Vec<usize> = (0..32).chain(0..32).collect();
    all[t..t + registers].to_vec()
}

/// What a register holds that was filled with the element at this address.
fn filled(bench: &Bench, address: u64, q: u32, size: u32) -> Vec<u8> {
    let bytes = 1 << size;
    let element = flash_bytes(address, bytes);
    let mut z = element.repeat((8 << q) / bytes as usize);
    z.resize((bench.vl / 8) as usize, 0);
    z
}

#[test]
fn ld2r_4d60c000_was_outside_and_now_runs() {
    let bench = bench(256);
    let (z, count) = ran_to(0x4D60_C000, &bench, &[0, 1]);
    let half = |byte: u8| [vec![byte; 16], vec![0; 16]].concat();
    assert_eq!(z, [half(flash_byte(X0)), half(flash_byte(X0 + 1))]);
    assert_eq!(count, 2);
}

#[test]
fn every_number_of_registers_at_every_size_and_target() {
    for vl in [128, 384, 2048] {
        let bench = bench(vl);
        for registers in 1..=4 {
            for t in 0..32 {
                for (q, size) in (0..8).map(|row| (row >> 2, row & 3)) {
                    let word = no_offset(registers, t, q, size);
                    let (z, count) = ran_to(word, &bench, &destinations(registers, t));
                    for (e, z) in (0..).zip(z) {
                        let address = X0 + (e << size);
                        assert_eq!(z, filled(&bench, address, q, size), "{word:08x} {e}");
                    }
                    assert_eq!(count, registers as u64);
                }
            }
        }
    }
}

#[test]
fn register_31_is_followed_by_0() {
    // ld4r {v30.2d, v31.2d, v0.2d, v1.2d}, [x0]
    let bench = bench(128);
    let (z, _) = ran_to(0x4D60_EC1E, &bench, &[30, 31, 0, 1]);
    let expected = [0, 8, 16, 24].map(|further| flash_bytes(X0 + further, 8).repeat(2));
    assert_eq!(z, expected);
}

#[test]
fn the_post_index_immediate_is_the_sum_of_the_reads() {
    for registers in 1..=4 {
        for size in 0..4 {
            let word = post_index(registers, 31, size);
            let sum = (registers as u64) << size;
            assert_eq!(step(word, &bench(256)).x[0], X0 + sum, "{word:08x}");
            let from_stack = step(word | 31 << 5, &bench(256));
            assert_eq!(from_stack.x[SP], X0 + sum, "{word:08x}");
        }
    }
}

#[test]
fn a_post_index_register_is_added_once_and_as_it_was() {
    for registers in 1..=4 {
        let mut bench = bench(256);
        bench.x[7] = 0_u64.wrapping_sub(5);
        let word = post_index(registers, 7, 2);
        let (_, count) = ran_to(word, &bench, &destinations(registers, 0));
        assert_eq!(count, registers as u64);
        assert_eq!(step(word, &bench).x[0], X0 - 5);
        assert_eq!(step(post_index(registers, 0, 2), &bench).x[0], 2 * X0);
    }
}

#[test]
fn l_0_or_s_1_is_undefined_for_each_of_them() {
    let mut off = bench(128);
    off.simd = false;
    for registers in 1..=4 {
        for word in [no_offset(registers, 0, 1, 0), post_index(registers, 31, 0)] {
            for undefined in [word & !(1 << 22), word | 1 << 12] {
                assert_plain(3, undefined, &bench(128));
                assert_plain(3, undefined, &off);
            }
        }
    }
    // 4D20C000 moved from 2 to 3
    assert_plain(3, 0x4D20_C000, &bench(128));
}

#[test]
fn the_simd_switch_and_the_stack_come_before_memory() {
    for registers in 1..=4 {
        for word in [no_offset(registers, 0, 0, 3), post_index(registers, 31, 3)] {
            let mut bench = bench(256);
            bench.x[SP] = 8;
            assert_plain(5, word | 31 << 5, &bench);
            bench.simd = false;
            assert_plain(4, word | 31 << 5, &bench);
            bench.simd = true;
            bench.sve = false;
            bench.f64mm = false;
            assert_eq!(step(word, &bench).report.answer, 0);
        }
    }
}

/// A fault at each element in turn, past the area's end and on a denied page. That nothing changes is
/// what `step` asks of every answer other than 0.
#[test]
fn a_fault_on_any_element_changes_no_register() {
    for registers in 1..=4 {
        for element in 0..registers as u64 {
            for (size, into) in (0..4).flat_map(|size| (0..1 << size).map(move |into| (size, into)))
            {
                for word in [
                    no_offset(registers, 30, 1, size),
                    post_index(registers, 31, size),
                ] {
                    let mut bench = bench(256);
                    let end = FLASH + 0x8000;
                    // So many bytes of the faulting element lie before the edge
                    bench.x[0] = end - (element << size) - into;
                    assert_eq!(
                        answer(word, &bench),
                        (6, element, element, end),
                        "{word:08x}"
                    );
                    bench.flash.rights[5] = 0xFE;
                    let edge = FLASH + 5 * 4096;
                    bench.x[0] = edge - (element << size) - into;
                    assert_eq!(
                        answer(word, &bench),
                        (7, element, element, edge),
                        "{word:08x}"
                    );
                }
            }
        }
    }
}

#[test]
fn the_earlier_element_comes_first_whatever_its_answer() {
    // ld2r {v0.2d, v1.2d}, [x0]: element 0 denied, element 1 in no area
    let mut bench = bench(256);
    bench.flash.rights[7] = 0;
    bench.x[0] = FLASH + 0x8000 - 8;
    assert_eq!(answer(0x4D60_CC00, &bench), (7, 0, 0, bench.x[0]));
    // Element 0 in no area, element 1 denied
    bench.flash.rights[0] = 0;
    bench.x[0] = FLASH - 8;
    assert_eq!(answer(0x4D60_CC00, &bench), (6, 0, 0, FLASH - 8));
}

#[test]
fn elements_lie_in_both_areas_and_around_2_to_the_64() {
    let mut bench = bench(128);
    bench.flash = area(0, (0..4096).map(|i| i as u8).collect());
    bench.ram = area(0_u64.wrapping_sub(4096), vec![0xEE; 4096]);
    bench.x[0] = 0_u64.wrapping_sub(6);
    // ld3r {v31.4s, v0.4s, v1.4s}, [x0], #12
    let (z, count) = ran_to(0x4DDF_E81F, &bench, &[31, 0, 1]);
    let four = |bytes: [u8; 4]| bytes.repeat(4);
    let expected = [[0xEE; 4], [0xEE, 0xEE, 0, 1], [2, 3, 4, 5]].map(four);
    assert_eq!((z, count), (expected.to_vec(), 3));
    assert_eq!(step(0x4DDF_E81F, &bench).x[0], 6);
    bench.flash.rights[0] = 2;
    assert_eq!(answer(0x4DDF_E81F, &bench), (7, 1, 1, 0));
    bench.flash = area(0, vec![]);
    assert_eq!(answer(0x4DDF_E81F, &bench), (6, 1, 1, 0));
}
