//! Cases from a seed. In one half of them all elements lie together, most of those at an edge of an area
//! or a page; the others read near a border of something and mostly fault or lie apart. Some words miss
//! a family by a little, and a few per cent of the set-ups are refused.

mod aim;
mod areas;
mod around;
mod predicate;
mod spoil;
mod stack;
mod values;
mod windows;
mod word;

pub use aim::distance;
pub use windows::window;

use crate::cases::Case;
use crate::decode::{decode, Load};
use crate::machine::{Area, Bench, PREDICATES, SCALARS, SP, VECTORS};
use crate::rng::Rng;
use crate::rules::Right;

/// How many of a hundred loads have an area laid around their elements; and how many of those that only the
/// stack rule decides about, of which many are refused.
const AROUND: u64 = 74;
const AROUND_UNREAD: u64 = 94;

/// The case with this number of this seed.
pub fn case(seed: u64, number: u64) -> Case {
    let mut rng = Rng::new(seed, number);
    let mut word = word::of_a_family(&mut rng);
    let vl = vector_length(&mut rng);
    let mut bench = files(&mut rng, vl);
    switches(&mut rng, &mut bench);
    match decode(&Right, word, true) {
        Ok(load) if stack::governs(&mut rng, &load, vl) => {
            somewhere(&mut rng, AROUND_UNREAD, &load, &mut bench);
            stack::govern(&mut rng, &load, &mut bench);
        }
        Ok(load) => somewhere(&mut rng, AROUND, &load, &mut bench),
        Err(_) => (bench.flash, bench.ram) = areas::two(&mut rng),
    }
    if rng.percent(8) {
        word = word::near_miss(&mut rng, word);
    }
    let mut case = Case {
        word,
        level: if rng.percent(10) {
            1 + rng.below(4) as u32
        } else {
            0
        },
        bench,
    };
    if rng.percent(6) {
        spoil::spoil(&mut rng, &mut case.bench);
    }
    case
}

/// All sixteen lengths, the small ones more often.
fn vector_length(rng: &mut Rng) -> u64 {
    if rng.percent(50) {
        128 * (1 + rng.below(16))
    } else {
        rng.pick([128, 256, 256, 384, 384, 512, 640])
    }
}

/// Files of the right sizes, full of old bytes and numbers, and nothing to read yet.
fn files(rng: &mut Rng, vl: u64) -> Bench {
    Bench {
        simd: true,
        sve: true,
        f64mm: true,
        vl,
        z: values::old(rng, (VECTORS * vl / 8) as usize),
        p: rng.bytes((PREDICATES * vl / 64) as usize),
        x: (0..SCALARS).map(|_| values::scalar(rng)).collect(),
        flash: Area::default(),
        ram: Area::default(),
    }
}

/// Off one by one, now and then several.
fn switches(rng: &mut Rng, bench: &mut Bench) {
    for switch in [&mut bench.simd, &mut bench.sve, &mut bench.f64mm] {
        *switch = !rng.percent(5);
    }
}

/// Registers and memory of a load: so many of a hundred have an area around their elements.
fn somewhere(rng: &mut Rng, around: u64, load: &Load, bench: &mut Bench) {
    if rng.percent(around) {
        in_an_area(rng, load, bench);
    } else {
        near_a_border(rng, load, bench);
    }
}

/// Areas of all kinds, and a lane of the load where something may go wrong.
fn near_a_border(rng: &mut Rng, load: &Load, bench: &mut Bench) {
    (bench.flash, bench.ram) = areas::two(rng);
    aim::index(rng, load, bench);
    aim::base(rng, load, bench);
    if load.n == SP {
        aim::align_stack(rng, &mut bench.x[SP]);
    }
    registers(rng, load, bench);
}

/// An area laid around all elements of the load, so that they mostly lie together.
fn in_an_area(rng: &mut Rng, load: &Load, bench: &mut Bench) {
    aim::index(rng, load, bench);
    let first = around::areas(rng, load, bench);
    aim::put(load, bench, 0, first);
    if load.n == SP {
        aim::steady_stack(rng, load, bench);
    }
    registers(rng, load, bench);
}

/// The other registers that the load goes by, and what it finds.
fn registers(rng: &mut Rng, load: &Load, bench: &mut Bench) {
    if rng.percent(20) {
        // PC near the end of the numbers, so that its growth wraps
        bench.x[SCALARS - 1] = 0_u64.wrapping_sub(rng.below(6));
    }
    if !load.family.is_ldnr() {
        predicate::govern(rng, load, bench);
    }
    if rng.percent(70) {
        values::sign_edges(rng, load, bench);
    }
}
