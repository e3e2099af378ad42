//! Which cases lie together.

mod common;

use common::*;
use second::cases::Case;
use second::decode::{decode, Family};
use second::edges::{edges_of, Edge};
use second::generate::{case, distance};
use second::machine::{Area, Bench, SP};
use second::rules::{Right, Rules};
use second::together::lies_together;

fn together(word: u32, bench: &Bench) -> bool {
    let bench = bench.clone();
    lies_together(&Case {
        word,
        level: 0,
        bench,
    })
}

/// Flash of two pages and 64 bytes, RAM right behind its last page.
fn two_areas(vl: u64) -> Bench {
    let mut bench = bench(vl);
    bench.flash = area(FLASH, vec![7; 2 * 4096 + 64]);
    bench.ram = area(FLASH + 3 * 4096, vec![9; 4096]);
    bench
}

/// A word of each family on X0 (and X1, which is 0), with the bytes that it can ask for at VL 512.
const WORDS: [(u32, u64); 16] = [
    (0x0D40_C000, 1),
    (0x4D40_CC00, 8),
    (0x0DDF_C800, 4),
    (0x4D60_C000, 2),
    (0x0D40_E400, 6),
    (0x4DFF_EC1F, 32),
    (0x85C0_E000, 8),
    (0x85C0_C000, 1),
    (0xA5E0_A000, 64),
    (0xA460_A000, 8),
    (0xA5E1_4000, 64),
    (0xA420_A000, 32),
    (0xA580_2000, 16),
    (0xA401_0000, 16),
    (0xA5A0_2000, 32),
    (0xA421_0000, 32),
];

#[test]
fn a_stretch_has_the_bytes_of_all_elements() {
    for (word, length) in WORDS {
        let mut bench = two_areas(512);
        let end = FLASH + 2 * 4096 + 64;
        for (x0, expected) in [
            (FLASH, true),
            (FLASH - 1, false),
            (end - length, true),
            (end - length + 1, false),
            (FLASH + 3 * 4096, true),
            (FLASH + 4 * 4096 - length, true),
            (FLASH + 4 * 4096 - length + 1, false),
            (0, false),
        ] {
            bench.x[0] = x0;
            assert_eq!(together(word, &bench), expected, "{word:08x} at {x0:x}");
        }
    }
}

#[test]
fn every_page_that_it_touches_must_be_readable() {
    for (word, length) in WORDS {
        for denied in 0..2 {
            let mut bench = two_areas(512);
            bench.flash.rights[denied] = 0xFE;
            for (x0, touched) in [
                (FLASH, vec![0]),
                (FLASH + 4096 - length, vec![0]),
                (FLASH + 4096 - length / 2, vec![0, 1]),
                (FLASH + 4096 - length + 1, vec![0, 1]),
                (FLASH + 4096, vec![1]),
                (FLASH + 2 * 4096 - length, vec![1]),
                (FLASH + 2 * 4096, vec![]),
            ] {
                if length > 1 || touched.len() < 2 {
                    bench.x[0] = x0;
                    let expected = !touched.contains(&denied);
                    assert_eq!(together(word, &bench), expected, "{word:08x} at {x0:x}");
                }
            }
        }
    }
}

#[test]
fn which_lanes_are_active_does_not_matter() {
    for (word, length) in WORDS {
        let mut bench = two_areas(512);
        for bits in [&[][..], &[0], &[1], &[63]] {
            p0(&mut bench, bits);
            bench.x[0] = FLASH + 5;
            assert!(together(word, &bench));
            bench.x[0] = FLASH + 2 * 4096 + 64 - length + 1;
            assert!(!together(word, &bench), "{word:08x} {bits:?}");
        }
    }
}

#[test]
fn it_is_one_area_and_not_around_2_to_the_64() {
    let mut bench = bench(512);
    bench.flash = area(0, vec![7; 4096]);
    bench.ram = area(4096, vec![9; 4096]);
    for (word, length) in WORDS {
        bench.x[0] = 4096 - length;
        assert!(together(word, &bench));
        bench.x[0] += 1;
        assert_eq!(together(word, &bench), length == 1);
    }
    // The bytes behind 2^64 are those of the flash at 0
    bench.ram.start = 0_u64.wrapping_sub(4096);
    for (word, length) in WORDS {
        bench.x[0] = 0_u64.wrapping_sub(length);
        assert!(together(word, &bench));
        bench.x[0] = bench.x[0].wrapping_add(1);
        assert_eq!(together(word, &bench), length == 1);
        assert_eq!(step(word, &bench).report.answer, 0);
    }
}

#[test]
fn only_a_load_that_comes_to_read_lies_together() {
    for (word, _) in WORDS {
        let good = bench(512);
        assert!(together(word, &good));
        let (mut refused, mut off, mut stack) = (good.clone(), good.clone(), good.clone());
        refused.x.push(0);
        (off.simd, off.sve) = (false, false);
        stack.x[SP] += 8;
        assert!(!together(word, &refused) && !together(word, &off));
        assert!(!together(word | 31 << 5, &stack));
        // A lane past every block is enough
        p0(&mut stack, &[48]);
        assert!(!together(word | 31 << 5, &stack));
        // Without an active lane SP is checked by LD1R alone
        p0(&mut stack, &[]);
        let ld1r = Family::of(word).is_some_and(Family::is_ldnr);
        assert_eq!(together(word | 31 << 5, &stack), !ld1r);
    }
    for word in [0, 0xA5F0_A000, 0x4D40_D000, 0xA5FF_4000] {
        assert!(!together(word, &bench(512)));
    }
    assert!(!together(0xA5A0_2000, &bench(128)));
    assert!(!together(0xA5E0_A000, &bench(0)));
}

/// Byte by byte, of a load whose answer is 0, 6 or 7.
fn byte_by_byte(case: &Case) -> bool {
    let bench = &case.bench;
    let Ok(load) = decode(&Right, case.word, bench.f64mm) else {
        return false;
    };
    let single = load.family == Family::Ld1rElement;
    let elements = if single { 1 } else { load.lanes(bench.vl) };
    let first = bench.x[load.n].wrapping_add(distance(&load, bench, 0));
    let all_in = |area: &Area| {
        (0..elements * load.msize / 8).all(|i| {
            let offset = first.checked_add(i).and_then(|a| area.offset_of(a));
            offset.is_some_and(|offset| Right.readable(area.rights[offset / 4096]))
        })
    };
    all_in(&bench.flash) || all_in(&bench.ram)
}

#[test]
fn generated_cases_are_judged_as_byte_by_byte() {
    let mut found = [0; 2];
    for number in 0..20_000 {
        let case = case(12, number);
        let answer = both(&case).report.answer;
        let expected = matches!(answer, 0 | 6 | 7) && byte_by_byte(&case);
        assert_eq!(lies_together(&case), expected, "case {number}");
        assert!(answer == 0 || !expected, "case {number}");
        found[usize::from(expected)] += 1;
    }
    assert!(found[0] > 5_000 && found[1] > 5_000, "{found:?}");
}

/// The edges that LD1D (scalar plus immediate) meets at VL 256, so with 32 bytes, at an address.
fn edges(bench: &Bench, x0: u64) -> Vec<Edge> {
    let mut bench = bench.clone();
    bench.x[0] = x0;
    edges_of(&Case {
        word: 0xA5E0_A000,
        level: 0,
        bench,
    })
}

#[test]
fn the_edges_of_what_lies_together() {
    let mut bench = two_areas(256);
    let border = FLASH + 4096;
    let end = FLASH + 2 * 4096 + 64;
    assert_eq!(edges(&bench, FLASH), [Edge::AreaStart]);
    assert_eq!(edges(&bench, FLASH + 1), []);
    assert_eq!(edges(&bench, border - 33), []);
    assert_eq!(edges(&bench, border - 32), [Edge::PageEnd]);
    assert_eq!(edges(&bench, border - 31), [Edge::AcrossPages]);
    assert_eq!(edges(&bench, border - 1), [Edge::AcrossPages]);
    assert_eq!(edges(&bench, border), [Edge::PageStart]);
    assert_eq!(edges(&bench, end - 33), [Edge::PartOfPage]);
    assert_eq!(edges(&bench, end - 32), [Edge::AreaEnd, Edge::PartOfPage]);
    bench.flash.rights[1] = 0;
    let before = [Edge::PageEnd, Edge::BeforeDenied];
    assert_eq!(edges(&bench, border - 32), before);
    let after = [Edge::PartOfPage, Edge::PageStart, Edge::AfterDenied];
    assert_eq!(edges(&bench, border + 4096), after);
    bench.ram.start = 0_u64.wrapping_sub(4096);
    let top = [Edge::AreaEnd, Edge::Top];
    assert_eq!(edges(&bench, 0_u64.wrapping_sub(32)), top);
}

#[test]
fn the_edges_of_what_just_does_not() {
    let mut bench = two_areas(256);
    let border = FLASH + 4096;
    let end = FLASH + 2 * 4096 + 64;
    assert_eq!(edges(&bench, FLASH - 1), [Edge::BeforeArea]);
    assert_eq!(edges(&bench, FLASH - 2), []);
    assert_eq!(edges(&bench, end - 31), [Edge::PastArea]);
    assert_eq!(edges(&bench, end - 30), []);
    bench.flash.rights = vec![1, 0, 1];
    let past = [Edge::PastReadable, Edge::LastDenied];
    assert_eq!(edges(&bench, border - 31), past);
    assert_eq!(edges(&bench, border - 30), [Edge::LastDenied]);
    assert_eq!(edges(&bench, border), []);
    let before = [Edge::BeforeReadable, Edge::FirstDenied];
    assert_eq!(edges(&bench, border + 4095), before);
    assert_eq!(edges(&bench, border + 4094), [Edge::FirstDenied]);
    // What lies behind the RAM is the flash, and behind the flash nothing
    bench.ram.start = FLASH - 4096;
    let one_each = [Edge::PastArea, Edge::AcrossAreas];
    assert_eq!(edges(&bench, FLASH - 31), one_each);
    assert_eq!(edges(&bench, FLASH - 16), [Edge::AcrossAreas]);
    bench.flash.rights[0] = 0;
    assert_eq!(edges(&bench, FLASH - 16), []);
    // Around 2^64
    bench.flash = area(0, vec![7; 64]);
    bench.ram.start = 0_u64.wrapping_sub(4096);
    assert_eq!(edges(&bench, 0_u64.wrapping_sub(8)), [Edge::AcrossAreas]);
}

#[test]
fn a_load_that_does_not_come_to_read_meets_no_edge() {
    let mut bench = two_areas(256);
    bench.sve = false;
    assert_eq!(edges(&bench, FLASH), []);
    bench.sve = true;
    bench.x.push(0);
    assert_eq!(edges(&bench, FLASH), []);
}
