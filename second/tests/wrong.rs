//! The deliberately wrong variants about elements that lie together, about the stack rule of block loads,
//! and about LD2R to LD4R: wrong just where they should be.

mod common;

use common::*;
use second::cases::Case;
use second::decode::{decode, registers, Family};
use second::generate::case;
use second::machine::{Bench, SP};
use second::rules::Right;
use second::sharp::sharp;
use second::together::lies_together;
use second::wrong::{Variant, VARIANTS};

fn variant(name: &str) -> &'static Variant {
    let mut variants = VARIANTS.iter();
    variants
        .find(|variant| variant.name == name)
        .unwrap_or_else(|| panic!("no variant {name}"))
}

/// Whether LD1D (scalar plus immediate) on X0 tells a variant from the right interpreter.
fn told(name: &str, bench: &Bench) -> bool {
    let case = Case {
        word: 0xA5E0_A000,
        level: 0,
        bench: bench.clone(),
    };
    variant(name).outcome(&case) != both(&case)
}

const FIRST_PAGE: &str = "the right of the first page alone is asked";
const LAST_PAGE: &str = "the right of the last page alone is asked";
const FIRST_BYTE: &str = "the right of the first byte is not asked";
const LAST_BYTE: &str = "the right of the last byte is not asked";
const BEFORE: &str = "the page before all elements is asked too";
const BEHIND: &str = "the page behind all elements is asked too";
const BOUNDS: &str = "the bounds of the first byte alone are asked";
const ONE_PAST: &str = "one byte past an area's end is read";
const TWO_AREAS: &str = "elements in two areas fault";

/// Which of the variants about rights are told apart at VL 256, whose 32 bytes begin so far from the
/// border of two pages, with these rights.
fn told_by_rights(from_border: i64, rights: [u8; 2]) -> Vec<&'static str> {
    let mut bench = bench(256);
    bench.flash = area(FLASH, vec![0x5C; 2 * 4096]);
    bench.flash.rights = rights.to_vec();
    bench.x[0] = (FLASH + 4096).wrapping_add_signed(from_border);
    let names = [FIRST_PAGE, LAST_PAGE, FIRST_BYTE, LAST_BYTE, BEFORE, BEHIND];
    names
        .into_iter()
        .filter(|name| told(name, &bench))
        .collect()
}

#[test]
fn rights_that_are_not_asked_or_asked_too_often() {
    const NONE: [&str; 0] = [];
    for across in [-31, -16, -1] {
        assert_eq!(told_by_rights(across, [1, 1]), NONE);
        assert_eq!(told_by_rights(across, [0, 0]), NONE);
    }
    assert_eq!(told_by_rights(-16, [1, 0]), [FIRST_PAGE]);
    assert_eq!(told_by_rights(-31, [1, 0]), [FIRST_PAGE, LAST_BYTE]);
    assert_eq!(told_by_rights(-16, [0, 1]), [LAST_PAGE]);
    assert_eq!(told_by_rights(-1, [0, 1]), [LAST_PAGE, FIRST_BYTE]);
    assert_eq!(told_by_rights(-32, [1, 0]), [BEHIND]);
    assert_eq!(told_by_rights(-33, [1, 0]), NONE);
    assert_eq!(told_by_rights(0, [0, 1]), [BEFORE]);
    assert_eq!(told_by_rights(1, [0, 1]), NONE);
}

#[test]
fn bounds_that_are_not_asked() {
    let names = [BOUNDS, ONE_PAST, TWO_AREAS];
    let mut bench = bench(256);
    bench.flash = area(FLASH, vec![0x5C; 4096]);
    for (past, expected) in [(0, vec![]), (1, vec![BOUNDS, ONE_PAST]), (2, vec![BOUNDS])] {
        bench.x[0] = FLASH + 4096 - 32 + past;
        let told = names.into_iter().filter(|name| told(name, &bench));
        assert_eq!(told.collect::<Vec<_>>(), expected);
    }
    bench.ram = area(FLASH + 4096, vec![0xC5; 4096]);
    let told = names.into_iter().filter(|name| told(name, &bench));
    assert_eq!(told.collect::<Vec<_>>(), [BOUNDS, TWO_AREAS]);
}

#[test]
fn what_is_wrong_together_is_right_elsewhere() {
    let together: Vec<&Variant> = VARIANTS
        .iter()
        .filter(|variant| variant.name.starts_with("together: "))
        .collect();
    assert!(together.len() >= 9);
    for number in 0..3_000 {
        let case = case(21, number);
        let right = both(&case);
        for variant in &together {
            let stack = right.report.answer == 5 && variant.name.contains("stack");
            if variant.outcome(&case) != right {
                assert!(lies_together(&case) || stack, "{} {number}", variant.name);
            }
        }
    }
}

#[test]
fn those_about_elements_that_lie_together_are_told_soon() {
    let soon = [
        (FIRST_PAGE, 2_000),
        (LAST_PAGE, 2_000),
        (FIRST_BYTE, 4_000),
        (LAST_BYTE, 4_000),
        (BEFORE, 500),
        (BEHIND, 500),
        (BOUNDS, 500),
        (ONE_PAST, 2_000),
        (TWO_AREAS, 500),
        ("the largest number of a size taken as negative", 500),
        ("the smallest number of a size taken as positive", 500),
        ("copies of a block a lane off", 100),
        ("copies of a block made from its second half", 100),
        ("a block asks the predicate bits of its second copy", 100),
        ("copies of a block ask their own predicate bit", 100),
        ("left-over bytes of LD1RO kept", 200),
        ("LD1R counts its copies", 100),
        ("LD1R by element counts its lanes", 200),
        ("a block load counts all its copies", 100),
        ("together: an inactive lane keeps its old value", 100),
        ("denied page under an inactive lane faults", 500),
    ];
    for seed in [1, 2, 3] {
        let told = sharp(seed, 4_000);
        for (name, within) in soon {
            let told = told.iter().find(|told| told.name == name);
            let first = told.and_then(|told| told.by.as_ref()).map(|by| by.number);
            assert!(
                first.is_some_and(|first| first < within),
                "{name} {first:?}"
            );
        }
    }
}

/// The variants from one name to another, both among them.
fn from_to(first: &str, last: &str) -> &'static [Variant] {
    let place = |name: &str| {
        let mut variants = VARIANTS.iter();
        variants.position(|variant| variant.name == name)
    };
    let (first, last) = (place(first).expect("it is there"), place(last).expect("so"));
    &VARIANTS[first..=last]
}

/// Those about the stack rule of block loads, and about what lanes past the block do.
fn about_the_stack() -> &'static [Variant] {
    from_to(
        "block loads check SP for the block's lanes alone",
        "lanes past a block make its first element looked at",
    )
}

#[test]
fn what_is_wrong_about_the_stack_of_block_loads_is_right_elsewhere() {
    assert_eq!(about_the_stack().len(), 23);
    for number in 0..6_000 {
        let case = case(23, number);
        let right = both(&case);
        for variant in about_the_stack() {
            let wrong = variant.outcome(&case);
            if wrong == right {
                continue;
            }
            let load = decode(&Right, case.word, case.bench.f64mm).expect("a load");
            let name = variant.name;
            let block = load.family.block().is_some();
            assert_eq!(block, !name.ends_with("checks SP for any bit"), "{name}");
            // What makes the check is wrong for SP as base alone, what is read for any
            if name.contains("SP") {
                let answers = [right.report.answer, wrong.report.answer];
                assert!(load.n == SP && answers.contains(&5), "{name} {number}");
                assert!(case.bench.x[SP] % 16 != 0, "{name} {number}");
            }
        }
    }
}

/// Which variants about the check a block load from SP = 8 tells, whose governing predicate has these bits.
fn told_by_bits(word: u32, vl: u64, bits: &[u64]) -> Vec<&'static str> {
    let mut bench = bench(vl);
    bench.x[SP] = 8;
    p0(&mut bench, bits);
    let case = Case {
        word: word | 31 << 5,
        level: 0,
        bench,
    };
    let right = both(&case);
    let told = about_the_stack().iter();
    told.filter(|variant| variant.outcome(&case) != right)
        .map(|variant| variant.name)
        .collect()
}

#[test]
fn the_check_that_is_made_for_other_bits() {
    const OWN: &str = "block loads check SP for the block's lanes alone";
    const LD1RQ: &str = "LD1RQ checks SP for the block's lanes alone";
    const LD1RO: &str = "LD1RO checks SP for the block's lanes alone";
    const IMMEDIATE: &str = "immediate block loads check SP for the block's lanes alone";
    const SCALAR: &str = "scalar block loads check SP for the block's lanes alone";
    const WHOLE: &str = "block loads check SP for whole copies alone";
    const BITS_16: &str = "block loads check SP for 16 predicate bits alone";
    const BITS_32: &str = "block loads check SP for 32 predicate bits alone";
    const LAST: &str = "block loads check SP for all lanes but the last";
    const LANES_64: &str = "block loads check SP at lanes of 64 bits";
    const BYTES: &str = "block loads check SP at lanes of a byte, so for any bit";
    const ANY_PAST: &str = "block loads check SP for any bit past the block";
    const ALWAYS: &str = "block loads always check SP";
    const NEVER: &str = "block loads never check SP";
    const NEXT: &str = "block loads check SP for bits of the next predicate";
    // LD1RQD, lane 3 of 8, and LD1ROD (scalar), lane 6 of 8
    let ld1rq = [OWN, LD1RQ, IMMEDIATE, BITS_16, NEVER];
    assert_eq!(told_by_bits(0xA580_2000, 512, &[24]), ld1rq);
    let ld1ro = [OWN, LD1RO, SCALAR, BITS_16, BITS_32, NEVER];
    assert_eq!(told_by_bits(0xA5A1_0000, 512, &[48]), ld1ro);
    // LD1ROW, the last lane of 12, which is left over; and the other bits of its group
    let left_over = [
        OWN, LD1RO, IMMEDIATE, WHOLE, BITS_16, BITS_32, LAST, LANES_64, NEVER,
    ];
    assert_eq!(told_by_bits(0xA520_2000, 384, &[44]), left_over);
    let other_bits = [BYTES, ANY_PAST, NEXT, ALWAYS];
    assert_eq!(told_by_bits(0xA520_2000, 384, &[45, 46, 47]), other_bits);
    // LD1RQW, no lane of the block: other bits of its own, one of which is the first of 16-bit lanes
    assert_eq!(told_by_bits(0xA500_2000, 384, &[2]), [BYTES, ALWAYS]);
}

#[test]
fn those_about_the_stack_are_told_soon() {
    for seed in [1, 2, 3] {
        let told = sharp(seed, 4_000);
        for variant in about_the_stack() {
            let told = told.iter().find(|told| told.name == variant.name);
            let first = told.and_then(|told| told.by.as_ref()).map(|by| by.number);
            let others = variant.name.ends_with("checks SP for any bit");
            let within = if others { 4_000 } else { 1_500 };
            let name = variant.name;
            assert!(
                first.is_some_and(|first| first < within),
                "{name} {first:?}"
            );
        }
    }
}

/// Those that are wrong about LD2R to LD4R are wrong about nothing else.
#[test]
fn what_is_wrong_with_several_registers_is_right_with_one() {
    let variants = from_to(
        "LD2R to LD4R outside, as before request One",
        "the base told as the bad address",
    );
    assert_eq!(variants.len(), 43);
    // What they are wrong about with one register or none: the word or the post-index itself
    let others = [
        "opcode 10x taken for 11x",
        "opcode 01x taken for 11x",
        "post-index immediate counts registers",
    ];
    for number in 0..6_000 {
        let case = case(22, number);
        let several =
            Family::of(case.word).is_some_and(Family::is_ldnr) && registers(&Right, case.word) > 1;
        let right = both(&case);
        for variant in variants.iter().filter(|_| !several) {
            let other = others.contains(&variant.name);
            let same = other || variant.outcome(&case) == right;
            assert!(same, "{} {number}", variant.name);
        }
    }
}

#[test]
fn those_about_several_registers_are_told_soon() {
    for seed in [1, 2, 3] {
        let told = sharp(seed, 4_000);
        let place = |name: &str| told.iter().position(|told| told.name == name);
        let first = place("LD2R to LD4R outside, as before request One").expect("it is there");
        for told in &told[first..first + 43] {
            let by = told.by.as_ref().map(|by| by.number);
            assert!(by.is_some_and(|by| by < 4_000), "{} {by:?}", told.name);
        }
    }
}
