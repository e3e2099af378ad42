//! Questions for the two windows from a seed: addresses at the edges of areas that touch, end at 2^64,
//! start at 0, are empty or refused; lanes at the edges of registers, of all widths and float patterns.

use super::{areas, values};
use crate::cases::Case;
use crate::floats::Sort;
use crate::machine::{Area, Bench, PAGE, PREDICATES, SCALARS, VECTORS};
use crate::questions::{Kind, Question};
use crate::rng::Rng;
use crate::windows::{AS_DOUBLE, AS_SINGLE, AS_WHOLE};

/// The question with this number of this seed.
pub fn window(seed: u64, number: u64) -> Question {
    // Apart from the steps of the same seed
    let mut rng = Rng::new(seed ^ 0x0077_1AD0, number);
    let kind = rng.pick(Kind::WINDOWS);
    let (bench, numbers) = match kind {
        Kind::LaneWindow => lane(&mut rng),
        _ => address(&mut rng),
    };
    let blob = match rng.below(10) {
        0 => rng.below(40) as usize,
        _ => 0,
    };
    Question {
        kind,
        lent: Case {
            word: rng.next_u64() as u32,
            level: rng.pick([0, 0, 0, 0, 1, 2, 3, 4]),
            bench,
        },
        numbers,
        blob: rng.bytes(blob),
    }
}

/// A number at an end of all numbers, or anything: for what is not looked at.
fn any(rng: &mut Rng) -> u64 {
    let random = rng.next_u64();
    rng.pick([0, 1, u64::MAX, 1 << 63, random, random])
}

/// Two areas, an address near one of them, and files that do not matter.
fn address(rng: &mut Rng) -> (Bench, [u64; 4]) {
    let mut bench = Bench {
        simd: rng.percent(50),
        sve: rng.percent(50),
        f64mm: rng.percent(50),
        ..Bench::default()
    };
    files_that_do_not_matter(rng, &mut bench);
    let (mut first, mut second) = (area(rng), area(rng));
    let gap = areas::gap(rng);
    areas::arrange(rng, &mut first, &mut second, gap);
    (bench.flash, bench.ram) = rng.in_either_order(first, second);
    if rng.percent(30) {
        refuse(rng, &mut bench);
    }
    let numbers = [near(rng, &bench), any(rng), any(rng), any(rng)];
    (bench, numbers)
}

/// Files of the right sizes, or one thing wrong, or nothing lent at all.
fn files_that_do_not_matter(rng: &mut Rng, bench: &mut Bench) {
    if rng.percent(30) {
        bench.vl = any(rng);
        return;
    }
    bench.vl = 128;
    bench.z = rng.bytes((VECTORS * 16) as usize);
    bench.p = rng.bytes((PREDICATES * 2) as usize);
    bench.x = (0..SCALARS).map(|_| any(rng)).collect();
    match rng.below(8) {
        0 => bench.vl = rng.pick([0, 129, 256, 2176, u64::MAX]),
        1 => bench.z.truncate(511),
        2 => bench.p.truncate(31),
        3 => bench.x.truncate(32),
        _ => {}
    }
}

/// Small mostly, with rights that are not looked at.
fn area(rng: &mut Rng) -> Area {
    let some = 1 + rng.below(200);
    let length = match rng.below(100) {
        0..=14 => 0,
        15..=19 => 1,
        20..=59 => some,
        60..=74 => rng.pick([PAGE - 1, PAGE, PAGE, PAGE, PAGE + 1]),
        75..=84 => rng.pick([1, 2]) * PAGE + some,
        85..=97 => 2 * PAGE,
        98 => rng.pick([15 * PAGE + 1, areas::LIMIT - 1, areas::LIMIT]),
        _ => rng.below(areas::LIMIT),
    };
    let rights = |_| {
        let readable = rng.percent(50);
        areas::right(rng, readable)
    };
    let rights = (0..length.div_ceil(PAGE)).map(rights).collect();
    Area {
        start: 0,
        bytes: rng.bytes(length as usize),
        rights,
    }
}

/// One cause of answer 1 that areas can have.
fn refuse(rng: &mut Rng, bench: &mut Bench) {
    let overlaps = !bench.flash.is_empty() && !bench.ram.is_empty();
    let (one, other) = if rng.percent(50) {
        (&mut bench.flash, &bench.ram)
    } else {
        (&mut bench.ram, &bench.flash)
    };
    match rng.below(100) {
        0..=3 => {
            one.bytes.resize(areas::LIMIT as usize + 1, 0xCC);
            one.rights = vec![1; 17];
        }
        4..=24 => one.rights.push(1),
        25..=44 if !one.rights.is_empty() => one.rights.truncate(one.rights.len() - 1),
        45..=64 => one.start = one.start.wrapping_add(rng.pick([1, 8, 2048, 4095])),
        65..=79 => {
            if one.len() <= PAGE {
                one.bytes.resize(PAGE as usize + 1, 0xEE);
                one.rights = vec![1; 2];
            }
            one.start = 0_u64.wrapping_sub(PAGE);
        }
        _ if overlaps => {
            let last = other.pages_begun() - 1;
            one.start = other.start.wrapping_add(rng.pick([0, last]) * PAGE);
        }
        _ => one.rights.push(0),
    }
}

/// An address at an edge of an area, inside, at an end of all addresses, or anywhere.
fn near(rng: &mut Rng, bench: &Bench) -> u64 {
    let area = rng.pick([&bench.flash, &bench.ram]);
    let end = area.end() as u64;
    match rng.below(16) {
        0..=2 => area.start,
        3..=5 => end.wrapping_sub(1),
        6 | 7 => area.start.wrapping_sub(1),
        8 | 9 => end,
        10 => rng.pick([0, u64::MAX]),
        11 => rng.next_u64(),
        // A page border inside, or the byte before it
        12 => (area.start.wrapping_add(PAGE)).wrapping_sub(rng.below(2)),
        _ => area.start.wrapping_add(rng.below(area.len())),
    }
}

/// What is wrong with a question for a lane: mostly nothing.
#[derive(Clone, Copy, PartialEq, Eq)]
enum Wrong {
    Nothing,
    Register,
    Way,
    Width,
    Lane,
    File,
    VectorLength,
}

const WRONGS: [Wrong; 24] = {
    let mut wrongs = [Wrong::Nothing; 24];
    wrongs[0] = Wrong::Register;
    wrongs[1] = Wrong::Register;
    wrongs[2] = Wrong::Way;
    wrongs[3] = Wrong::Way;
    wrongs[4] = Wrong::Width;
    wrongs[5] = Wrong::Width;
    wrongs[6] = Wrong::Lane;
    wrongs[7] = Wrong::Lane;
    wrongs[8] = Wrong::File;
    wrongs[9] = Wrong::VectorLength;
    wrongs
};

/// A vector file and a lane of it; the areas, predicates and scalars do not matter.
fn lane(rng: &mut Rng) -> (Bench, [u64; 4]) {
    let vl = match rng.percent(50) {
        true => 128 * (1 + rng.below(16)),
        false => rng.pick([128, 128, 256, 384]),
    };
    let mut bench = Bench {
        vl,
        z: values::old(rng, (VECTORS * vl / 8) as usize),
        ..Bench::default()
    };
    if rng.percent(10) {
        // Refused as a step's set-up, but not here
        bench.flash.start = 1;
        bench.x = vec![any(rng); 3];
    }
    let (way, width) = way_and_width(rng);
    let lanes = vl / width;
    let some = rng.below(lanes);
    let lane = rng.pick([0, 0, lanes - 1, lanes - 1, some, some]);
    let some = rng.below(VECTORS);
    let register = rng.pick([0, 31, some, some]);
    let first = (register * vl + lane * width) / 8;
    pattern(rng, way, width, &mut bench.z[first as usize..]);
    let mut numbers = [register, way, width, lane];
    make_wrong(rng, &mut bench, &mut numbers);
    (bench, numbers)
}

/// The six that fit, a float more often.
fn way_and_width(rng: &mut Rng) -> (u64, u64) {
    let whole = rng.pick([8, 16, 32, 64]);
    rng.pick([
        (AS_WHOLE, whole),
        (AS_WHOLE, whole),
        (AS_SINGLE, 32),
        (AS_DOUBLE, 64),
    ])
}

/// Puts a pattern of every sort into a lane that is wide enough for it: mostly where a float is asked for.
fn pattern(rng: &mut Rng, way: u64, width: u64, lane: &mut [u8]) {
    let parts = if way == AS_WHOLE { 30 } else { 85 };
    if width >= 32 && rng.percent(parts) {
        let bits = rng.pick(Sort::ALL).bits(width, rng.percent(50));
        let size = (width / 8) as usize;
        lane[..size].copy_from_slice(&bits.to_le_bytes()[..size]);
    }
}

/// A number that is the one given only in its lower half.
const HIGH: u64 = 1 << 32;

/// Makes at most one thing wrong.
fn make_wrong(rng: &mut Rng, bench: &mut Bench, numbers: &mut [u64; 4]) {
    let [register, way, width, lane] = numbers;
    match rng.pick(WRONGS) {
        Wrong::Nothing => {}
        Wrong::Register => *register = no_register(rng, *register),
        Wrong::Way => *way = rng.pick([1, 2, 3, 3, 3, 4, HIGH, HIGH + 1, u64::MAX]),
        Wrong::Width => {
            let widths = [8, 16, 32, 64, 0, 1, 24, 128, HIGH + 32, HIGH + 64, u64::MAX];
            *width = rng.pick(widths);
        }
        Wrong::Lane => *lane = no_lane(rng, bench.vl / *width, *lane),
        Wrong::File => {
            let length = bench.z.len();
            let (less, more) = (length - 1, length + 1);
            let wrong = rng.pick([less, more, less, more, 0, 2 * length]);
            bench.z.resize(wrong, 0x55);
        }
        Wrong::VectorLength => wrong_length(rng, bench),
    }
}

fn no_register(rng: &mut Rng, register: u64) -> u64 {
    let any = rng.next_u64() | 32;
    let large = register + 32 * (1 + rng.below(1000));
    rng.pick([32, 32, 33, large, HIGH, HIGH + register, u64::MAX, any])
}

fn no_lane(rng: &mut Rng, lanes: u64, lane: u64) -> u64 {
    let any = rng.next_u64() | 256;
    let more = lanes + rng.below(3 * lanes);
    rng.pick([lanes, lanes, lanes, more, HIGH, HIGH + lane, u64::MAX, any])
}

/// A length that is not allowed, mostly with a file as long as it asks.
fn wrong_length(rng: &mut Rng, bench: &mut Bench) {
    bench.vl = match rng.below(4) {
        0 => bench.vl + (1 << rng.pick([12, 32, 61, 62])),
        1 => bench.vl + rng.pick([1, 8, 64]),
        _ => rng.pick([0, 64, 192, 2112, 2176, 2176, 4096]),
    };
    let size = VECTORS.saturating_mul(bench.vl / 8);
    if size <= 65_536 && rng.percent(90) {
        bench.z.resize(size as usize, 0x66);
    }
}
