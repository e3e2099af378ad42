//! The step, and one function for each page, in the page's own order and words. A fault leaves
//! the function early; the bench is changed only by `step`, and only when the load ran.

use crate::decode::{decode, Family, Load};
use crate::machine::{accepted, Answer, Bench, Machine, Stop, Vector, PC, SP};
use crate::rules::{Right, Rules};

/// A step's answer with its count of element reads, and the element and address of 6 and 7.
#[derive(Clone, Copy, Debug, PartialEq, Eq)]
pub struct Report {
    pub answer: u8,
    pub count: u64,
    pub element: u64,
    pub address: u64,
}

/// What a load that ran changes besides PC: its destinations, and perhaps one base.
struct Effect {
    z: Vec<(usize, Vector)>,
    wback: Option<(usize, u64)>,
}

impl Effect {
    /// `Z[t, VL] = result`
    fn z(t: usize, result: Vector) -> Result<Effect, Stop> {
        Ok(Effect {
            z: vec![(t, result)],
            wback: None,
        })
    }
}

/// One step under the rules as document 01 has them.
pub fn right_step(word: u32, bench: &mut Bench) -> Report {
    step(&Right, word, bench)
}

/// The answer that a step would give; the bench stays as it is.
pub fn answer_of(word: u32, bench: &Bench) -> Answer {
    match execute(&mut Machine::new(&Right, bench), word, bench) {
        Ok(_) => Answer::Ran,
        Err(stop) => stop.answer,
    }
}

/// One step. Order of answers: 1, 2, 3 from the word and F64MM, 4, 3 for short VL, 5, then 6 or 7.
pub fn step<R: Rules + ?Sized>(rules: &R, word: u32, bench: &mut Bench) -> Report {
    let mut machine = Machine::new(rules, bench);
    let outcome = execute(&mut machine, word, bench);
    let count = machine.reads;
    match outcome {
        Ok(effect) => {
            commit(bench, &effect);
            Report {
                answer: Answer::Ran.number(),
                count,
                element: 0,
                address: 0,
            }
        }
        Err(stop) => Report {
            answer: stop.answer.number(),
            count,
            element: stop.lane,
            address: stop.address,
        },
    }
}

fn execute<R: Rules + ?Sized>(
    machine: &mut Machine<R>,
    word: u32,
    bench: &Bench,
) -> Result<Effect, Stop> {
    if !accepted(machine.rules, bench) {
        return Err(Answer::SetUp.into());
    }
    let load = decode(machine.rules, word, bench.f64mm)?;
    match load.family {
        Family::LdnrNoOffset => ldnr(machine, &load, false),
        Family::LdnrPostIndex => ldnr(machine, &load, true),
        Family::Ld1rElement => ld1r_element(machine, &load),
        Family::Ld1Immediate => ld1_immediate(machine, &load),
        Family::Ld1Scalar => ld1_scalar(machine, &load),
        Family::Ld1rqImmediate => ld1rq_immediate(machine, &load),
        Family::Ld1rqScalar => ld1rq_scalar(machine, &load),
        Family::Ld1roImmediate => ld1ro_immediate(machine, &load),
        Family::Ld1roScalar => ld1ro_scalar(machine, &load),
    }
}

/// "Outside the destination, that base and the program counter, nothing changes"; since request One
/// the destinations.
fn commit(bench: &mut Bench, effect: &Effect) {
    for (t, z) in &effect.z {
        let size = z.0.len();
        if let Some(register) = bench.z.get_mut(t * size..(t + 1) * size) {
            register.copy_from_slice(&z.0);
        }
    }
    if let Some((n, base)) = effect.wback {
        bench.x[n] = base;
    }
    bench.x[PC] = bench.x[PC].wrapping_add(4);
}

/// Page 004, LD1R to LD4R: the branch of `replicate`, which both rows always take. "A fault on any
/// element changes no register": what the loop writes is kept until it is through.
fn ldnr<R: Rules + ?Sized>(
    machine: &mut Machine<R>,
    load: &Load,
    wback: bool,
) -> Result<Effect, Stop> {
    let rules = machine.rules;
    machine.check_fp_advsimd_enabled64()?;
    if load.n == SP && rules.ldnr_checks_sp(load) {
        machine.check_sp_alignment()?;
    }
    let address = machine.x(load.n);
    let ebytes = load.esize / 8;
    let mut offs = 0;
    let mut z = Vec::new();
    for s in 0..load.selem {
        let offset = i128::from(rules.element_offset(offs, s, load));
        let element = machine.mem(s, rules.address(address, offset), ebytes)?;
        let t = rules.destination(load.t, s, load.selem);
        z.push((t, replicate(machine.current_vl(), load, element)));
        offs += ebytes;
    }
    let offs = match load.m {
        31 => rules.post_index_immediate(offs, load),
        m => machine.x(m),
    };
    Ok(Effect {
        z,
        wback: wback.then_some((load.n, address.wrapping_add(offs))),
    })
}

/// `V[t, datasize] = Replicate(element, datasize DIV esize)`; the rest of the Z register becomes zero.
fn replicate(vl: u64, load: &Load, element: u64) -> Vector {
    let mut result = Vector::zeros(vl);
    for e in 0..load.datasize / load.esize {
        result.set_elem(e, load.esize, element);
    }
    result
}

/// Page 000, LD1RB to LD1RD: load and broadcast to vector.
fn ld1r_element<R: Rules + ?Sized>(machine: &mut Machine<R>, load: &Load) -> Result<Effect, Stop> {
    let Load { t, n, g, msize, .. } = *load;
    machine.check_sve_enabled()?;
    let vl = machine.current_vl();
    let esize = machine.rules.element_lane_size(msize, load.esize);
    let elements = vl / esize;
    let mask = machine.p(g);
    let mut result = Vector::zeros(vl);
    let mut data = 0;
    let mbytes = msize / 8;
    let any_active = machine.any_active_element(mask, esize);
    machine.check_sp_if(load, mask, any_active)?;
    if any_active {
        let base = machine.x(n);
        let scale = machine.rules.element_scale(mbytes, load.esize / 8);
        let offset = i128::from(load.offset) * i128::from(scale);
        let addr = machine.rules.address(base, offset);
        // "a single read is one active element with number 0"
        data = machine.mem(0, addr, mbytes)?;
    }
    for e in 0..elements {
        if machine.active(mask, e, esize) {
            let value = machine.rules.extend(data, msize, load.unsigned);
            result.set_elem(e, esize, value);
        } else {
            result.set_elem(e, esize, 0);
        }
    }
    Effect::z(t, result)
}

/// Page 003, LD1 (scalar plus immediate, single register): an immediate counts whole vectors as they
/// lie in memory.
fn ld1_immediate<R: Rules + ?Sized>(machine: &mut Machine<R>, load: &Load) -> Result<Effect, Stop> {
    machine.check_sve_enabled()?;
    let elements = machine.current_vl() / load.esize;
    let mask = machine.p(load.g);
    let (mbytes, ebytes) = (load.msize / 8, load.esize / 8);
    let scale = (machine.rules).immediate_scale(mask, elements, mbytes, ebytes);
    contiguous(machine, load, i128::from(load.offset) * i128::from(scale))
}

/// LD1 (scalar plus scalar, single register), Arm's public page: an index counts elements.
fn ld1_scalar<R: Rules + ?Sized>(machine: &mut Machine<R>, load: &Load) -> Result<Effect, Stop> {
    machine.check_sve_enabled()?;
    let scale = machine.rules.scalar_scale(load.msize / 8, load.esize / 8);
    let offset = i128::from(machine.x(load.m)) * i128::from(scale);
    contiguous(machine, load, offset)
}

/// What the pages of LD1 have in common: from `elements = VL DIV esize` to the end. `offset` is the
/// distance of element 0 from the base in bytes.
fn contiguous<R: Rules + ?Sized>(
    machine: &mut Machine<R>,
    load: &Load,
    offset: i128,
) -> Result<Effect, Stop> {
    let Load {
        t,
        n,
        g,
        esize,
        msize,
        ..
    } = *load;
    let vl = machine.current_vl();
    let elements = vl / esize;
    let mask = machine.p(g);
    let mut result = Vector::zeros(vl);
    let mbytes = msize / 8;
    machine.check_sp_if(load, mask, machine.any_active_element(mask, esize))?;
    let base = machine.x(n);
    for e in 0..elements {
        if machine.active(mask, e, esize) {
            let addr = (machine.rules).address(base, offset + i128::from(e * mbytes));
            let data = machine.mem(e, addr, mbytes)?;
            let value = machine.rules.extend(data, msize, load.unsigned);
            result.set_elem(e, esize, value);
        } else {
            result.set_elem(e, esize, 0);
        }
    }
    Effect::z(t, result)
}

/// LD1RQ (scalar plus immediate), Arm's public page: an immediate counts 16 bytes.
fn ld1rq_immediate<R: Rules + ?Sized>(
    machine: &mut Machine<R>,
    load: &Load,
) -> Result<Effect, Stop> {
    machine.check_sve_enabled()?;
    let scale = i128::from(machine.rules.block_scale(128 / 8));
    let offset = i128::from(load.offset) * scale;
    let result = block(machine, load, 128, offset)?;
    // Z[t, VL] = Replicate(result, VL DIV 128)
    Effect::z(load.t, result.replicate(machine.current_vl()))
}

/// Page 002, LD1RQ (scalar plus scalar).
fn ld1rq_scalar<R: Rules + ?Sized>(machine: &mut Machine<R>, load: &Load) -> Result<Effect, Stop> {
    machine.check_sve_enabled()?;
    // addr = AddressAdd(base, UInt(offset) * mbytes)
    let offset = i128::from(machine.x(load.m)) * i128::from(load.esize / 8);
    let result = block(machine, load, 128, offset)?;
    Effect::z(load.t, result.replicate(machine.current_vl()))
}

/// Page 001, LD1RO (scalar plus immediate): an immediate counts 32 bytes.
fn ld1ro_immediate<R: Rules + ?Sized>(
    machine: &mut Machine<R>,
    load: &Load,
) -> Result<Effect, Stop> {
    machine.check_sve_enabled()?;
    check_octaword_vl(machine)?;
    let scale = i128::from(machine.rules.block_scale(256 / 8));
    let offset = i128::from(load.offset) * scale;
    let result = block(machine, load, 256, offset)?;
    // Z[t, VL] = ZeroExtend(Replicate(result, VL DIV 256), VL)
    Effect::z(load.t, result.replicate(machine.current_vl()))
}

/// LD1RO (scalar plus scalar), Arm's public page.
fn ld1ro_scalar<R: Rules + ?Sized>(machine: &mut Machine<R>, load: &Load) -> Result<Effect, Stop> {
    machine.check_sve_enabled()?;
    check_octaword_vl(machine)?;
    let offset = i128::from(machine.x(load.m)) * i128::from(load.esize / 8);
    let result = block(machine, load, 256, offset)?;
    Effect::z(load.t, result.replicate(machine.current_vl()))
}

/// Page 001: `if VL < 256 then UNDEFINED`, behind the check of the SVE switch.
fn check_octaword_vl<R: Rules + ?Sized>(machine: &Machine<R>) -> Result<(), Stop> {
    if machine.current_vl() < 256 {
        return Err(Answer::Undefined.into());
    }
    Ok(())
}

/// What pages 001 and 002 have in common: from `elements = size DIV esize` to the end of the loop
/// over the block's own lanes. `offset` is the block's distance from the base in bytes. The stack rule
/// goes by the operation text, as request Two of document 02 has it: `mask` is all of `P[g, PL]`, and
/// `AnyActiveElement(mask, esize)` asks every lane of it, while the loop reads for the block's lanes only.
fn block<R: Rules + ?Sized>(
    machine: &mut Machine<R>,
    load: &Load,
    size: u64,
    offset: i128,
) -> Result<Vector, Stop> {
    let Load { n, g, esize, .. } = *load;
    let all_lanes = machine.current_vl() / esize;
    let elements = machine.rules.block_lanes_read(size / esize, all_lanes);
    let mask = machine.p(g);
    let mut result = Vector::zeros(size);
    let mbytes = esize / 8;
    machine.check_sp_if(load, mask, machine.any_active_element(mask, esize))?;
    let base = machine.x(n);
    for e in 0..elements {
        if machine.active(mask, e, esize) {
            let addr = (machine.rules).address(base, offset + i128::from(e * mbytes));
            let data = machine.mem(e, addr, mbytes)?;
            result.set_elem(e, esize, data);
        } else {
            result.set_elem(e, esize, 0);
        }
    }
    Ok(result)
}
