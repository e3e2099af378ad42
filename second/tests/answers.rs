//! Each answer 0 to 7, when it is given and in which order.

mod common;

use common::*;
use second::machine::{Area, Bench, SP};

/// One word of each family, on X0 and P0, all of which run on `bench(256)`.
const FAMILIES: [u32; 9] = [
    0x0D40_C000,
    0x0DDF_C000,
    0x85C0_E000,
    0xA5E0_A000,
    0xA5E1_4000,
    0xA580_2000,
    0xA581_0000,
    0xA5A0_2000,
    0xA5A1_0000,
];
const SP_BASE: u32 = 31 << 5;

fn is_ldnr(word: u32) -> bool {
    word >> 31 == 0
}

#[test]
fn answer_0_ran() {
    let counts = FAMILIES.map(|word| ran(word, &bench(256)).1);
    assert_eq!(counts, [1, 1, 1, 4, 4, 2, 2, 4, 4]);
}

/// A change that makes an accepted bench one that is refused.
type Spoil = fn(&mut Bench);

#[test]
fn answer_1_set_up() {
    let spoils: [Spoil; 18] = [
        |b| b.vl = 255,
        |b| b.vl = 128,
        |b| b.vl = (1 << 62) + 256,
        |b| b.z.truncate(1023),
        |b| b.z.push(0),
        |b| b.z.clear(),
        |b| b.p.truncate(63),
        |b| b.p.push(0),
        |b| b.x.truncate(32),
        |b| b.x.push(0),
        |b| b.flash.rights.push(1),
        |b| b.flash.rights.truncate(7),
        |b| b.ram.rights.push(1),
        |b| b.flash.start += 8,
        |b| b.ram.start = 1,
        |b| b.flash.start = 0_u64.wrapping_sub(4096),
        |b| b.ram = area(b.flash.start + 4096, vec![0; 1]),
        |b| b.ram = area(0, vec![0; 65_537]),
    ];
    for spoil in spoils {
        let mut bench = bench(256);
        spoil(&mut bench);
        for word in FAMILIES.into_iter().chain([0]) {
            assert_plain(1, word, &bench);
        }
    }
}

#[test]
fn areas_that_only_look_wrong_are_accepted() {
    let areas: [Area; 6] = [
        area(FLASH + 0x8000, vec![9; 4096]),
        area(FLASH - 4096, vec![9; 4096]),
        area(0_u64.wrapping_sub(8192), vec![9; 8192]),
        area(FLASH, vec![]),
        area(FLASH + 4096, vec![]),
        area(FLASH - 4096, vec![9; 1]),
    ];
    for ram in areas {
        let mut bench = bench(256);
        bench.ram = ram;
        ran(0xA5E0_A000, &bench);
    }
}

#[test]
fn every_vector_length_is_judged() {
    for vl in 0..=2200 {
        let right = vl > 0 && vl <= 2048 && vl % 128 == 0;
        let answer = step(0xA5E0_A000, &bench(vl)).report.answer;
        assert_eq!(answer, if right { 0 } else { 1 }, "VL {vl}");
    }
}

#[test]
fn answer_2_outside() {
    let mut bench = bench(256);
    bench.sve = false;
    // gather, ldff1, ldnf1, prefetch, no offset with an Rm, opcodes 0xx and 10x
    for word in [
        0xC5C0_C000,
        0xA5E1_6000,
        0xA5F0_A000,
        0x85C0_0000,
        0x4D41_C000,
        0x4D61_C000,
        0x4D50_E000,
        0x4D60_4000,
        0x4DFF_6000,
        0x4D60_8000,
        0x4DFF_A000,
    ] {
        assert_plain(2, word, &bench);
    }
}

#[test]
fn answer_3_undefined_before_the_switches() {
    let mut bench = bench(256);
    bench.f64mm = false;
    bench.simd = false;
    bench.sve = false;
    for word in [
        0x4D40_D000,
        0x4D00_C000,
        0x4DC0_D000,
        0x4D80_C000,
        0x4D20_C000,
        0x4D60_D000,
        0x4D80_E000,
        0x4DE0_F000,
        0xA5FF_4000,
        0xA59F_0000,
        0xA5BF_0000,
        0xA5A0_2000,
        0xA5A1_0000,
    ] {
        assert_plain(3, word, &bench);
    }
}

#[test]
fn answer_4_switched_off_before_the_stack() {
    for word in FAMILIES {
        let mut off = bench(256);
        off.x[SP] = 8;
        if is_ldnr(word) {
            off.simd = false;
        } else {
            off.sve = false;
        }
        assert_plain(4, word | SP_BASE, &off);
        // The other switch does not matter
        let mut other = bench(256);
        other.simd = is_ldnr(word);
        other.sve = !is_ldnr(word);
        ran(word, &other);
    }
}

#[test]
fn answer_5_stack_before_memory() {
    for word in FAMILIES {
        for sp in [1, 8, 15, u64::MAX] {
            let mut bench = bench(256);
            bench.x[SP] = sp;
            assert_plain(5, word | SP_BASE, &bench);
            p0(&mut bench, &[]);
            let answer = step(word | SP_BASE, &bench).report.answer;
            assert_eq!(answer, if is_ldnr(word) { 5 } else { 0 });
        }
        ran(word | SP_BASE, &bench(256));
    }
}

#[test]
fn answer_6_no_memory_and_7_denied() {
    let end = FLASH + 0x8000;
    for word in FAMILIES {
        let mut bench = bench(256);
        bench.x[0] = end;
        assert_eq!(answer(word, &bench), (6, 0, 0, end), "{word:08x}");
        bench.flash.rights[7] = 0xFE;
        bench.x[0] = end - 1;
        assert_eq!(answer(word, &bench), (7, 0, 0, end - 1), "{word:08x}");
    }
}

#[test]
fn an_element_may_lie_in_both_areas_and_around_2_to_the_64() {
    let mut bench = bench(128);
    bench.flash = area(0, (0..4096).map(|i| i as u8).collect());
    bench.ram = area(0_u64.wrapping_sub(4096), vec![0xEE; 4096]);
    bench.x[0] = 0_u64.wrapping_sub(4);
    let (z, _) = ran(0xA5E0_A000, &bench);
    assert_eq!(z[..8], [0xEE, 0xEE, 0xEE, 0xEE, 0, 1, 2, 3]);
    bench.flash.rights[0] = 2;
    assert_eq!(answer(0xA5E0_A000, &bench), (7, 0, 0, 0));
    bench.flash = Area::default();
    assert_eq!(answer(0xA5E0_A000, &bench), (6, 0, 0, 0));
}

#[test]
fn sp_is_written_back_and_rm_31_adds_the_size() {
    for (word, size) in [
        (0x0DDF_C3E0, 1),
        (0x0DDF_C7E0, 2),
        (0x4DDF_CBE0, 4),
        (0x4DDF_CFE0, 8),
    ] {
        let outcome = step(word, &bench(256));
        assert_eq!((outcome.report.answer, outcome.x[SP]), (0, X0 + size));
    }
}
