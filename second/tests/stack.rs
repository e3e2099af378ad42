//! The stack rule of block loads, as request Two of document 02 has it: "LD1RQ and LD1RO with SP as base check
//! it if any lane at that lane size is active anywhere in VL." Memory is read for the block's lanes only.

mod common;

use common::*;
use second::cases::Case;
use second::describe::case_in_words;
use second::machine::{Area, Bench, SP};

/// A block load from the stack with P0: LD1RQ or LD1RO, by an immediate of 0 or by X1, which is 0.
#[derive(Clone, Copy)]
struct Block {
    ld1ro: bool,
    scalar: bool,
    msz: u32,
}

impl Block {
    fn all() -> impl Iterator<Item = Block> {
        (0..16).map(|number| Block {
            ld1ro: number & 1 == 1,
            scalar: number & 2 == 2,
            msz: number >> 2,
        })
    }

    fn word(self) -> u32 {
        let form = if self.scalar { 1 << 16 } else { 1 << 13 };
        0xA400_0000 | self.msz << 23 | u32::from(self.ld1ro) << 21 | form | 31 << 5
    }

    /// Predicate bits of a lane, and of the block.
    fn group(self) -> u64 {
        1 << self.msz
    }

    fn block(self) -> u64 {
        if self.ld1ro {
            32
        } else {
            16
        }
    }

    /// The first bits of the lanes from here on.
    fn lanes(self, from: u64, vl: u64) -> impl Iterator<Item = u64> {
        (from..vl / 8).step_by(self.group() as usize)
    }
}

/// A bench with nothing to read at all and this SP.
fn nothing(vl: u64, sp: u64) -> Bench {
    let mut bench = bench(vl);
    bench.flash = Area::default();
    bench.x[SP] = sp;
    bench
}

/// With exactly these bits of P0, SP is checked, and nothing is read.
fn checked(block: Block, vl: u64, bits: &[u64]) {
    for sp in [8, 1, X0 + 4, u64::MAX] {
        let mut bench = nothing(vl, sp);
        p0(&mut bench, bits);
        assert_plain(5, block.word(), &bench);
    }
    zeros(block, vl, X0, bits);
}

/// The load runs with this SP and reads nothing.
fn zeros(block: Block, vl: u64, sp: u64, bits: &[u64]) {
    let mut bench = nothing(vl, sp);
    p0(&mut bench, bits);
    let nothing_read = (vec![0; (vl / 8) as usize], 0);
    assert_eq!(ran(block.word(), &bench), nothing_read, "{bits:?}");
}

#[test]
fn a_lane_of_a_later_copy_alone_makes_the_check() {
    for block in Block::all() {
        for vl in [256, 512, 640, 2048] {
            let whole = vl / 8 / block.block() * block.block() * 8;
            for bit in block.lanes(block.block(), whole) {
                checked(block, vl, &[bit]);
            }
        }
    }
}

#[test]
fn a_lane_of_what_ld1ro_leaves_over_alone_makes_the_check() {
    for block in Block::all().filter(|block| block.ld1ro) {
        for vl in [384, 640, 896, 1920] {
            let whole = vl / 256 * 32;
            let left_over: Vec<u64> = block.lanes(whole, vl).collect();
            assert_eq!(left_over.len() as u64, 16 / block.group());
            for bit in &left_over {
                checked(block, vl, &[*bit]);
            }
            checked(block, vl, &left_over);
        }
    }
}

#[test]
fn a_lane_of_the_block_makes_the_check_as_before() {
    for block in Block::all() {
        for vl in [256, 384, 2048] {
            for bit in block.lanes(0, 8 * block.block()) {
                let mut bench = bench(vl);
                p0(&mut bench, &[bit]);
                assert_eq!(ran(block.word(), &bench).1, 1);
                bench.x[SP] += 8;
                assert_plain(5, block.word(), &bench);
            }
        }
    }
}

#[test]
fn a_bit_that_is_no_lanes_first_makes_no_check() {
    for block in Block::all() {
        for vl in [256, 384, 640] {
            let others: Vec<u64> = (0..vl / 8).filter(|bit| bit % block.group() != 0).collect();
            for sp in [X0, 8, 1] {
                for bit in &others {
                    zeros(block, vl, sp, &[*bit]);
                }
                zeros(block, vl, sp, &others);
            }
        }
    }
}

#[test]
fn no_bit_makes_no_check_and_another_predicate_has_no_say() {
    for block in Block::all() {
        // All bits of P1 to P15 are set, behind those of P0
        for vl in [256, 384, 640, 2048] {
            for sp in [X0, 8, 15, u64::MAX] {
                zeros(block, vl, sp, &[]);
            }
        }
    }
}

#[test]
fn another_base_is_not_checked() {
    for block in Block::all() {
        let word = block.word() & !(31 << 5);
        for vl in [512, 640] {
            let mut bench = nothing(vl, 8);
            bench.x[0] = 8;
            let past: Vec<u64> = block.lanes(block.block(), vl).collect();
            p0(&mut bench, &past);
            assert_eq!(ran(word, &bench), (vec![0; (vl / 8) as usize], 0));
            p0(&mut bench, &[0]);
            assert_eq!(answer(word, &bench), (6, 0, 0, 8));
        }
    }
}

#[test]
fn memory_is_read_for_the_block_alone() {
    for block in Block::all() {
        for vl in [256, 384, 512, 2048] {
            // The block ends where the flash does, and all lanes are active
            let mut bench = bench(vl);
            let size = 8 * block.block() / 8;
            let first = FLASH + 0x8000 - size;
            bench.x[SP] = first;
            let (z, count) = ran(block.word(), &bench);
            let copies = (vl / 8 / size) as usize;
            let mut copied = flash_bytes(first, size).repeat(copies);
            copied.resize((vl / 8) as usize, 0);
            assert_eq!((z, count), (copied, size / block.group()));
        }
    }
}

#[test]
fn the_check_comes_where_it_came() {
    for block in Block::all() {
        let mut bench = nothing(384, 8);
        p0(&mut bench, &[32]);
        bench.sve = false;
        assert_plain(4, block.word(), &bench);
        bench.f64mm = false;
        assert_plain(if block.ld1ro { 3 } else { 4 }, block.word(), &bench);
        bench.x.push(0);
        assert_plain(1, block.word(), &bench);
    }
    // LD1RO at VL 128, with lanes active: undefined comes before the stack
    assert_plain(3, 0xA5A0_23E0, &nothing(128, 8));
}

#[test]
fn a_case_in_words_says_which_lanes_are_loaded_and_which_the_stack_rule_asks() {
    let mut bench = bench(384);
    p0(&mut bench, &[32]);
    let words = |word| {
        let bench = bench.clone();
        let level = 0;
        case_in_words(&Case { word, level, bench })
    };
    let from_stack =
        "p0 at 64-bit lanes, 4 of 6 loaded, SP checked if any of 6 is active: active 4";
    assert!(words(0xA5A0_23E0).contains(from_stack));
    assert!(words(0xA5A0_2000).contains("p0 at 64-bit lanes, 4 of 6 loaded: active 4"));
}
