//! An accepted bench to start a test from, and one step by both shapes of the interpreter.

#![allow(dead_code)]

use second::cases::{Case, Outcome};
use second::describe::{case_in_words, differences};
use second::machine::{Area, Bench, PC, SCALARS, SP};
use second::plain;

/// Where X0 points at first, in the middle of readable flash.
pub const X0: u64 = 0x10_4000;
pub const FLASH: u64 = 0x10_0000;
/// Old bytes of the vector file, so that a lane that should become zero shows if it did not.
pub const OLD: u8 = 0xA5;
pub const PC_BEFORE: u64 = 0x400;

/// Byte `i` of the flash; neighbours within 251 bytes differ.
pub fn flash_byte(address: u64) -> u8 {
    (address.wrapping_sub(FLASH) % 251) as u8 + 1
}

/// Everything on, flash of eight pages around X0, no RAM, all predicate bits set.
pub fn bench(vl: u64) -> Bench {
    let mut x = vec![0; SCALARS];
    x[0] = X0;
    x[SP] = X0;
    x[PC] = PC_BEFORE;
    Bench {
        simd: true,
        sve: true,
        f64mm: true,
        vl,
        z: vec![OLD; (vl * 4) as usize],
        p: vec![0xFF; (vl / 4) as usize],
        x,
        flash: area(FLASH, (FLASH..FLASH + 0x8000).map(flash_byte).collect()),
        ram: Area::default(),
    }
}

/// A readable area.
pub fn area(start: u64, bytes: Vec<u8>) -> Area {
    let rights = vec![1; bytes.len().div_ceil(4096)];
    Area {
        start,
        bytes,
        rights,
    }
}

/// Puts bytes at an address of the flash.
pub fn poke(bench: &mut Bench, address: u64, bytes: &[u8]) {
    let first = (address - bench.flash.start) as usize;
    bench.flash.bytes[first..first + bytes.len()].copy_from_slice(bytes);
}

/// Makes exactly these bits of P0 one.
pub fn p0(bench: &mut Bench, bits: &[u64]) {
    let size = (bench.vl / 64) as usize;
    bench.p[..size].fill(0);
    for bit in bits {
        bench.p[(bit / 8) as usize] |= 1 << (bit % 8);
    }
}

/// The outcome of a case, which both shapes of the step must agree upon.
pub fn both(case: &Case) -> Outcome {
    let pages = case.outcome();
    let plain = case.outcome_by(plain::step);
    let lines = || differences(case, ["pages", "plain"], [&pages, &plain]);
    assert!(pages == plain, "{}{:#?}", case_in_words(case), lines());
    pages
}

pub fn step(word: u32, bench: &Bench) -> Outcome {
    let outcome = both(&Case {
        word,
        level: 0,
        bench: bench.clone(),
    });
    if outcome.report.answer != 0 {
        assert_eq!(outcome.z, bench.z, "an answer other than 0 changes no byte");
        assert_eq!(outcome.x, bench.x, "nor a number");
    }
    outcome
}

/// Executes a word that must run; checks PC and that only register t changed, gives its bytes
/// and the count.
pub fn ran(word: u32, bench: &Bench) -> (Vec<u8>, u64) {
    let (mut z, count) = ran_to(word, bench, &[(word & 31) as usize]);
    (z.remove(0), count)
}

/// The same of a load of several registers: only these changed, and their bytes are given in this order.
pub fn ran_to(word: u32, bench: &Bench, registers: &[usize]) -> (Vec<Vec<u8>>, u64) {
    let outcome = step(word, bench);
    assert_eq!(outcome.report.answer, 0, "{word:08x} should run");
    assert_eq!(outcome.report.element, 0);
    assert_eq!(outcome.report.address, 0);
    assert_eq!(outcome.x[PC], bench.x[PC].wrapping_add(4));
    let size = (bench.vl / 8) as usize;
    let bytes = |t: &usize| t * size..(t + 1) * size;
    let mut others = outcome.z.clone();
    for t in registers {
        others[bytes(t)].copy_from_slice(&bench.z[bytes(t)]);
    }
    assert_eq!(others, bench.z, "no other vector register changes");
    let z = registers.iter().map(|t| outcome.z[bytes(t)].to_vec());
    (z.collect(), outcome.report.count)
}

/// The answer's number, with count, element and address.
pub fn answer(word: u32, bench: &Bench) -> (u8, u64, u64, u64) {
    let report = step(word, bench).report;
    (report.answer, report.count, report.element, report.address)
}

/// A refusal without any read.
pub fn assert_plain(number: u8, word: u32, bench: &Bench) {
    assert_eq!(answer(word, bench), (number, 0, 0, 0), "{word:08x}");
}

/// Flash bytes as they lie.
pub fn flash_bytes(from: u64, count: u64) -> Vec<u8> {
    (from..from + count).map(flash_byte).collect()
}
