//! The same step in an ordinary quick shape: an element is found in its area once and read whole,
//! the sizes are constants of the loops, nothing is allocated. The other shape (`loads.rs`) follows
//! the pages word by word. Both have the lent bench and the report in common, and no rule.

use crate::loads::Report;
use crate::machine::{Answer, Area, Bench, PC, SCALARS, SP};

const PAGE: usize = 4096;

/// One step, for any word and any bench.
pub fn step(word: u32, bench: &mut Bench) -> Report {
    match execute(word, bench) {
        Ok(report) | Err(report) => report,
    }
}

fn report(answer: Answer, address: u64) -> Report {
    Report {
        answer: answer.number(),
        count: 0,
        element: 0,
        address,
    }
}

/// The report of a load that ran, else of one that did not. Nothing is changed before
/// all that can fail is behind.
fn execute(word: u32, bench: &mut Bench) -> Result<Report, Report> {
    if !accepted(bench) {
        return Err(report(Answer::SetUp, 0));
    }
    let size = (bench.vl / 8) as usize;
    let load = decode(word, bench.f64mm, size).map_err(|answer| report(answer, 0))?;
    let ldnr = matches!(load.form, Form::Ldnr { .. });
    let on = if ldnr { bench.simd } else { bench.sve };
    if !on {
        return Err(report(Answer::SwitchedOff, 0));
    }
    if load.part > size {
        return Err(report(Answer::Undefined, 0));
    }
    let count = match load.form {
        Form::Ldnr { post, registers } => {
            SIZES[load.row](&load, registers, bench)?;
            if post {
                move_base(&load, registers, bench);
            }
            registers as u64
        }
        _ => {
            // Inactive lanes and left-over bytes are zero from the start
            let mut result = [0; 2048 / 8];
            let result = &mut result[..size];
            let count = ROWS[load.row](&load, bench, result)?;
            bench.z[load.t * size..][..size].copy_from_slice(result);
            count
        }
    };
    bench.x[PC] = bench.x[PC].wrapping_add(4);
    Ok(Report {
        count,
        ..report(Answer::Ran, 0)
    })
}

fn accepted(bench: &Bench) -> bool {
    let Bench { flash, ram, .. } = bench;
    bench.vl % 128 == 0
        && (128..=2048).contains(&bench.vl)
        && bench.z.len() as u64 == 32 * (bench.vl / 8)
        && bench.p.len() as u64 == 16 * (bench.vl / 64)
        && bench.x.len() == SCALARS
        && area_accepted(flash)
        && area_accepted(ram)
        && (flash.is_empty() || !holds(ram, flash.start))
        && (ram.is_empty() || !holds(flash, ram.start))
}

fn area_accepted(area: &Area) -> bool {
    let length = area.bytes.len();
    length <= 65_536
        && area.rights.len() == length.div_ceil(PAGE)
        && area.start % PAGE as u64 == 0
        // The last byte has an address; that 2^64 follows it is allowed
        && (length == 0 || area.start.checked_add(length as u64 - 1).is_some())
}

fn holds(area: &Area, address: u64) -> bool {
    address.wrapping_sub(area.start) < area.bytes.len() as u64
}

#[derive(Clone, Copy, PartialEq, Eq)]
enum Form {
    /// LD1R to LD4R.
    Ldnr {
        post: bool,
        registers: usize,
    },
    Element,
    /// LD1, LD1RQ and LD1RO by their index.
    Immediate,
    Scalar,
}

struct Load {
    form: Form,
    /// The row of the dtype table; a block's memory and lanes of 1 << msz bytes are row 5 x msz. For
    /// LD1R to LD4R the size.
    row: usize,
    /// The bytes that are filled from memory: 8 or 16 for LD1R to LD4R, a block's 16 or 32, else all.
    part: usize,
    imm: i64,
    t: usize,
    n: usize,
    m: usize,
    g: usize,
}

/// The row of the family table that fits, and whether it is LD1RQ or LD1RO.
fn family(word: u32) -> Option<(Form, bool)> {
    match (word >> 25, word >> 13 & 7) {
        (0b101_0010, 0b101) if word & 0x0010_0000 == 0 => Some((Form::Immediate, false)),
        (0b101_0010, 0b010) => Some((Form::Scalar, false)),
        (0b101_0010, 0b001) if word & 0x0050_0000 == 0 => Some((Form::Immediate, true)),
        (0b101_0010, 0b000) if word & 0x0040_0000 == 0 => Some((Form::Scalar, true)),
        (0b100_0010, _) if word & 0x0040_8000 == 0x0040_8000 => Some((Form::Element, false)),
        _ if word & 0xBF9F_C000 == 0x0D00_C000 => Some((structures(word, false), false)),
        _ if word & 0xBF80_C000 == 0x0D80_C000 => Some((structures(word, true), false)),
        _ => None,
    }
}

/// LD1R to LD4R by opcode and R.
fn structures(word: u32, post: bool) -> Form {
    let registers = match (word >> 13 & 7, word >> 21 & 1) {
        (0b110, 0) => 1,
        (0b110, _) => 2,
        (_, 0) => 3,
        _ => 4,
    };
    Form::Ldnr { post, registers }
}

fn decode(word: u32, f64mm: bool, size: usize) -> Result<Load, Answer> {
    let field = |low: u32, bits: u32| (word >> low & ((1 << bits) - 1)) as usize;
    let (form, block) = family(word).ok_or(Answer::Outside)?;
    let octaword = block && field(21, 1) == 1;
    let m = field(16, 5);
    let ldnr = matches!(form, Form::Ldnr { .. });
    if ldnr && (field(22, 1) == 0 || field(12, 1) == 1)
        || form == Form::Scalar && m == 31
        || octaword && !f64mm
    {
        return Err(Answer::Undefined);
    }
    // Four bits with a sign: -8 to 7
    let imm4 = (field(16, 4) as i64 ^ 8) - 8;
    let (row, part, imm) = match form {
        Form::Ldnr { .. } => (field(10, 2), 8 << field(30, 1), 0),
        Form::Element => (field(23, 2) << 2 | field(13, 2), size, field(16, 6) as i64),
        _ if block => (5 * field(23, 2), 16 << field(21, 1), imm4),
        _ => (field(21, 4), size, imm4),
    };
    Ok(Load {
        form,
        row,
        part,
        imm,
        t: field(0, 5),
        n: field(5, 5),
        m,
        g: field(10, 3),
    })
}

type Size = fn(&Load, usize, &mut Bench) -> Result<(), Report>;

/// LD1R to LD4R by the size of an element.
const SIZES: [Size; 4] = [
    structure::<1>,
    structure::<2>,
    structure::<4>,
    structure::<8>,
];

/// Elements of M bytes, one for each register: all are read before the first register is filled.
fn structure<const M: usize>(
    load: &Load,
    registers: usize,
    bench: &mut Bench,
) -> Result<(), Report> {
    let base = bench.x[load.n];
    if load.n == SP && base % 16 != 0 {
        return Err(report(Answer::Stack, 0));
    }
    let mut values = [[0; M]; 4];
    let values = &mut values[..registers];
    for (element, value) in (0..).zip(&mut *values) {
        let read = read::<M>(bench, base.wrapping_add(element * M as u64));
        let read = read.map_err(|stop| Report {
            count: element,
            element,
            ..stop
        })?;
        *value = lane::<M, M, false>(read);
    }
    let size = (bench.vl / 8) as usize;
    for (further, value) in values.iter().enumerate() {
        let register = (load.t + further) & 31;
        let (own, rest) = bench.z[register * size..][..size].split_at_mut(load.part);
        for lane in own.chunks_exact_mut(M) {
            lane.copy_from_slice(value);
        }
        rest.fill(0);
    }
    Ok(())
}

/// Rm = 31 stands for all bytes that were read.
fn move_base(load: &Load, registers: usize, bench: &mut Bench) {
    let by = match load.m {
        31 => (registers as u64) << load.row,
        m => bench.x[m],
    };
    bench.x[load.n] = bench.x[load.n].wrapping_add(by);
}

type Row = fn(&Load, &Bench, &mut [u8]) -> Result<u64, Report>;

/// The dtype table. Each row has loops of its own, so that a compiler knows the sizes.
const ROWS: [Row; 16] = [
    row::<1, 1, false>,
    row::<1, 2, false>,
    row::<1, 4, false>,
    row::<1, 8, false>,
    row::<4, 8, true>,
    row::<2, 2, false>,
    row::<2, 4, false>,
    row::<2, 8, false>,
    row::<2, 8, true>,
    row::<2, 4, true>,
    row::<4, 4, false>,
    row::<4, 8, false>,
    row::<1, 8, true>,
    row::<1, 4, true>,
    row::<1, 2, true>,
    row::<8, 8, false>,
];

/// A load of M bytes of memory to lanes of L bytes, S for sign extension.
fn row<const M: usize, const L: usize, const S: bool>(
    load: &Load,
    bench: &Bench,
    result: &mut [u8],
) -> Result<u64, Report> {
    let base = bench.x[load.n];
    let mask = &bench.p[load.g * result.len() / 8..][..result.len() / 8];
    let (own, copies) = result.split_at_mut(load.part);
    let lanes = own.len() / L;
    // Any lane makes the check, those past a block too; a block is read for its own
    if load.n == SP && base % 16 != 0 && any_active::<L>(mask) {
        return Err(report(Answer::Stack, 0));
    }
    if !any_active::<L>(&mask[..own.len() / 8]) {
        return Ok(0);
    }
    let elements = match load.form {
        Form::Scalar => bench.x[load.m],
        Form::Immediate => (load.imm * lanes as i64) as u64,
        _ => load.imm as u64,
    };
    let first = base.wrapping_add(elements.wrapping_mul(M as u64));
    if matches!(load.form, Form::Immediate | Form::Scalar) {
        let count = read_each::<M, L, S>(bench, mask, first, own)?;
        for copy in copies.chunks_exact_mut(own.len()) {
            copy.copy_from_slice(own);
        }
        return Ok(count);
    }
    let value = lane::<M, L, S>(read::<M>(bench, first)?);
    for (e, lane) in own.chunks_exact_mut(L).enumerate() {
        if active(mask, e * L) {
            lane.copy_from_slice(&value);
        }
    }
    Ok(1)
}

fn active(mask: &[u8], bit: usize) -> bool {
    mask[bit / 8] >> (bit % 8) & 1 == 1
}

/// Whether any lane of L bytes is active: FF, 55, 11 or 01 has the first bit of each in a byte of the mask.
fn any_active<const L: usize>(mask: &[u8]) -> bool {
    mask.iter()
        .any(|byte| byte & (0xFF / ((1 << L) - 1) as u8) != 0)
}

/// Lane by lane from consecutive elements; a bad byte ends it with the reads made so far.
fn read_each<const M: usize, const L: usize, const S: bool>(
    bench: &Bench,
    mask: &[u8],
    first: u64,
    lanes: &mut [u8],
) -> Result<u64, Report> {
    let mut count = 0;
    for (e, bytes) in lanes.chunks_exact_mut(L).enumerate() {
        if active(mask, e * L) {
            let value = read::<M>(bench, first.wrapping_add((e * M) as u64));
            let element = e as u64;
            let value = value.map_err(|stop| Report {
                count,
                element,
                ..stop
            })?;
            bytes.copy_from_slice(&lane::<M, L, S>(value));
            count += 1;
        }
    }
    Ok(count)
}

/// A value of M bytes as a lane of L bytes.
fn lane<const M: usize, const L: usize, const S: bool>(value: u64) -> [u8; L] {
    let above = 64 - 8 * M;
    let signed = (value << above) as i64 >> above;
    let value = if S { signed as u64 } else { value };
    let mut lane = [0; L];
    lane.copy_from_slice(&value.to_le_bytes()[..L]);
    lane
}

/// An element of M bytes, as a rule from one area at once.
fn read<const M: usize>(bench: &Bench, address: u64) -> Result<u64, Report> {
    let value = whole::<M>(&bench.flash, address).or_else(|| whole::<M>(&bench.ram, address));
    value.map_or_else(|| byte_by_byte(bench, address, M), Ok)
}

/// M bytes that lie in this area, on pages that may be read.
fn whole<const M: usize>(area: &Area, address: u64) -> Option<u64> {
    let first = usize::try_from(address.wrapping_sub(area.start)).ok()?;
    let bytes = area.bytes.get(first..)?.first_chunk::<M>()?;
    // An element is shorter than a page, so its first and its last byte touch all its pages
    let right = area.rights[first / PAGE] & area.rights[(first + M - 1) / PAGE];
    let mut value = [0; 8];
    value[..M].copy_from_slice(bytes);
    (right & 1 == 1).then_some(u64::from_le_bytes(value))
}

/// An element across an edge or around 2^64, or with a bad byte: the first bad one tells.
fn byte_by_byte(bench: &Bench, address: u64, size: usize) -> Result<u64, Report> {
    let mut value = 0;
    for i in 0..size {
        let address = address.wrapping_add(i as u64);
        match whole::<1>(&bench.flash, address).or_else(|| whole::<1>(&bench.ram, address)) {
            Some(byte) => value |= byte << (8 * i),
            None if holds(&bench.flash, address) || holds(&bench.ram, address) => {
                return Err(report(Answer::Denied, address));
            }
            None => return Err(report(Answer::NoMemory, address)),
        }
    }
    Ok(value)
}
