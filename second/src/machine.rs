//! The lent bench ("The lent bench" in document 01), its acceptance, and the helpers that the
//! pages' operation texts call: `CheckSVEEnabled`, `CheckSPAlignment`, `P[g, PL]`, `Mem[...]`.

use crate::decode::Load;
use crate::rules::Rules;

/// A page of the bench: one rights byte governs it.
pub const PAGE: u64 = 4096;
/// A vector file has 32 registers, a predicate file 16.
pub const VECTORS: u64 = 32;
pub const PREDICATES: u64 = 16;
/// X0 to X30, SP, PC.
pub const SCALARS: usize = 33;
/// Where the scalar file keeps SP and PC. `Rn = 31` means SP, which is why SP is number 31.
pub const SP: usize = 31;
pub const PC: usize = 32;

/// Flash or RAM: read-only bytes from `start` on, and one rights byte for each page begun.
#[derive(Clone, Debug, Default, PartialEq, Eq)]
pub struct Area {
    pub start: u64,
    pub bytes: Vec<u8>,
    pub rights: Vec<u8>,
}

impl Area {
    pub fn len(&self) -> u64 {
        self.bytes.len() as u64
    }

    pub fn is_empty(&self) -> bool {
        self.bytes.is_empty()
    }

    /// The first address behind the area, as an integer that may be 2^64 or more.
    pub fn end(&self) -> u128 {
        u128::from(self.start) + u128::from(self.len())
    }

    pub fn pages_begun(&self) -> u64 {
        self.len().div_ceil(PAGE)
    }

    /// How far into the area an address lies, if it lies there at all.
    pub fn offset_of(&self, address: u64) -> Option<usize> {
        let offset = address.wrapping_sub(self.start);
        (offset < self.len()).then_some(offset as usize)
    }
}

/// Everything that is lent for a step, with right or wrong sizes.
#[derive(Clone, Debug, Default, PartialEq, Eq)]
pub struct Bench {
    pub simd: bool,
    pub sve: bool,
    pub f64mm: bool,
    pub vl: u64,
    pub z: Vec<u8>,
    pub p: Vec<u8>,
    pub x: Vec<u64>,
    pub flash: Area,
    pub ram: Area,
}

impl Bench {
    /// X0 to X30, SP or PC; 0 for one that is not lent.
    pub fn scalar(&self, n: usize) -> u64 {
        self.x.get(n).copied().unwrap_or(0)
    }

    /// The bytes of predicate register g; none if they are not lent.
    pub fn predicate(&self, g: usize) -> Mask<'_> {
        let size = usize::try_from(self.vl / 64).unwrap_or(usize::MAX);
        let first = g.saturating_mul(size);
        Mask(self.p.get(first..first.saturating_add(size)).unwrap_or(&[]))
    }
}

/// The eight answers and their numbers in document 01.
#[derive(Clone, Copy, Debug, PartialEq, Eq, PartialOrd, Ord, Hash)]
pub enum Answer {
    Ran = 0,
    SetUp = 1,
    Outside = 2,
    Undefined = 3,
    SwitchedOff = 4,
    Stack = 5,
    NoMemory = 6,
    Denied = 7,
}

impl Answer {
    pub const ALL: [Answer; 8] = [
        Answer::Ran,
        Answer::SetUp,
        Answer::Outside,
        Answer::Undefined,
        Answer::SwitchedOff,
        Answer::Stack,
        Answer::NoMemory,
        Answer::Denied,
    ];

    pub fn number(self) -> u8 {
        self as u8
    }

    /// The name of an answer's number, for reports; a number over 7 has none.
    pub fn name(number: u8) -> &'static str {
        const NAMES: [&str; 8] = [
            "ran",
            "set-up",
            "outside",
            "undefined",
            "switched off",
            "stack",
            "no memory",
            "denied",
        ];
        NAMES
            .get(usize::from(number))
            .copied()
            .unwrap_or("no such answer")
    }
}

/// Why a step ended without running; lane and address are 0 except for 6 and 7.
#[derive(Clone, Copy, Debug, PartialEq, Eq)]
pub struct Stop {
    pub answer: Answer,
    pub lane: u64,
    pub address: u64,
}

impl From<Answer> for Stop {
    fn from(answer: Answer) -> Stop {
        Stop {
            answer,
            lane: 0,
            address: 0,
        }
    }
}

/// The causes of answer 1, in the order in which document 01 lists them.
#[derive(Clone, Copy, Debug, PartialEq, Eq, PartialOrd, Ord, Hash)]
pub enum Refusal {
    VectorLength,
    VectorFile,
    PredicateFile,
    Scalars,
    FlashLimit,
    RamLimit,
    FlashRights,
    RamRights,
    FlashStart,
    RamStart,
    FlashEnd,
    RamEnd,
    Overlap,
}

impl Refusal {
    pub const ALL: [Refusal; 13] = [
        Refusal::VectorLength,
        Refusal::VectorFile,
        Refusal::PredicateFile,
        Refusal::Scalars,
        Refusal::FlashLimit,
        Refusal::RamLimit,
        Refusal::FlashRights,
        Refusal::RamRights,
        Refusal::FlashStart,
        Refusal::RamStart,
        Refusal::FlashEnd,
        Refusal::RamEnd,
        Refusal::Overlap,
    ];

    /// Whether this cause, looked at alone, refuses the bench. The lengths of the files are
    /// wholly a matter of VL, in integers that cannot run over.
    pub fn applies<R: Rules + ?Sized>(self, rules: &R, bench: &Bench) -> bool {
        let vl = u128::from(bench.vl);
        let limit = |area: &Area| area.len() > rules.area_limit();
        let rights = |area: &Area| !rules.rights_fit(area.rights.len() as u64, area.pages_begun());
        let start = |area: &Area| !rules.start_allowed(area.start);
        let end = |area: &Area| !rules.end_allowed(area.end());
        match self {
            Refusal::VectorLength => !rules.vl_allowed(bench.vl),
            Refusal::VectorFile => bench.z.len() as u128 != u128::from(VECTORS) * (vl / 8),
            Refusal::PredicateFile => bench.p.len() as u128 != u128::from(PREDICATES) * (vl / 64),
            Refusal::Scalars => bench.x.len() != SCALARS,
            Refusal::FlashLimit => limit(&bench.flash),
            Refusal::RamLimit => limit(&bench.ram),
            Refusal::FlashRights => rights(&bench.flash),
            Refusal::RamRights => rights(&bench.ram),
            Refusal::FlashStart => start(&bench.flash),
            Refusal::RamStart => start(&bench.ram),
            Refusal::FlashEnd => end(&bench.flash),
            Refusal::RamEnd => end(&bench.ram),
            Refusal::Overlap => rules.share_an_address(&bench.flash, &bench.ram),
        }
    }
}

/// Whether no cause of answer 1 applies.
pub fn accepted<R: Rules + ?Sized>(rules: &R, bench: &Bench) -> bool {
    Refusal::ALL
        .iter()
        .all(|cause| !cause.applies(rules, bench))
}

/// A governing predicate: `bits(PL) mask = P[g, PL]`.
#[derive(Clone, Copy, Debug)]
pub struct Mask<'a>(pub &'a [u8]);

impl Mask<'_> {
    /// `PL`: how many bits it has.
    pub fn bits(self) -> u64 {
        8 * self.0.len() as u64
    }

    pub fn bit(self, number: u64) -> bool {
        let byte = self.0.get((number / 8) as usize).copied().unwrap_or(0);
        (byte >> (number % 8)) & 1 == 1
    }
}

/// A vector under construction: `bits(VL) result`, all zero at first.
#[derive(Clone, Debug)]
pub struct Vector(pub Vec<u8>);

impl Vector {
    pub fn zeros(bits: u64) -> Vector {
        Vector(vec![0; (bits / 8) as usize])
    }

    /// `Elem[result, e, esize] = value`
    pub fn set_elem(&mut self, e: u64, esize: u64, value: u64) {
        let ebytes = (esize / 8) as usize;
        let first = e as usize * ebytes;
        if let Some(lane) = self.0.get_mut(first..first + ebytes) {
            lane.copy_from_slice(&value.to_le_bytes()[..ebytes]);
        }
    }

    /// `ZeroExtend(Replicate(result, VL DIV size), VL)`: whole copies, then zeros.
    pub fn replicate(&self, vl: u64) -> Vector {
        let mut whole = Vector::zeros(vl);
        if !self.0.is_empty() {
            for copy in whole.0.chunks_exact_mut(self.0.len()) {
                copy.copy_from_slice(&self.0);
            }
        }
        whole
    }
}

/// An accepted bench while one page's operation text is executed on it: nothing of the bench
/// changes here, only the count of element reads grows.
pub struct Machine<'a, R: Rules + ?Sized> {
    pub rules: &'a R,
    bench: &'a Bench,
    pub reads: u64,
}

impl<'a, R: Rules + ?Sized> Machine<'a, R> {
    pub fn new(rules: &'a R, bench: &'a Bench) -> Machine<'a, R> {
        Machine {
            rules,
            bench,
            reads: 0,
        }
    }

    /// `CurrentVL`
    pub fn current_vl(&self) -> u64 {
        self.bench.vl
    }

    /// `X[n, 64]`, and `SP[]` for number 31.
    pub fn x(&self, n: usize) -> u64 {
        self.bench.scalar(n)
    }

    /// `P[g, PL]`
    pub fn p(&self, g: usize) -> Mask<'a> {
        self.bench.predicate(g)
    }

    /// `CheckFPAdvSIMDEnabled64()`
    pub fn check_fp_advsimd_enabled64(&self) -> Result<(), Stop> {
        if self.bench.simd {
            Ok(())
        } else {
            Err(Answer::SwitchedOff.into())
        }
    }

    /// `CheckSVEEnabled()`, and `CheckNonStreamingSVEEnabled()` since there is no streaming mode.
    pub fn check_sve_enabled(&self) -> Result<(), Stop> {
        if self.bench.sve {
            Ok(())
        } else {
            Err(Answer::SwitchedOff.into())
        }
    }

    /// `CheckSPAlignment()`
    pub fn check_sp_alignment(&self) -> Result<(), Stop> {
        if self.rules.sp_aligned(self.x(SP)) {
            Ok(())
        } else {
            Err(Answer::Stack.into())
        }
    }

    /// The lines that every SVE page has before its loop:
    /// `if !AnyActiveElement(mask, esize) then if n == 31 && ConstrainUnpredictableBool(...) then
    /// CheckSPAlignment(); else if n == 31 then CheckSPAlignment();`
    pub fn check_sp_if(&self, load: &Load, mask: Mask, any_active: bool) -> Result<(), Stop> {
        let asked = self.rules.stack_asks(load, mask, any_active);
        if load.n == SP && (asked || self.rules.check_sp_none_active(load)) {
            self.check_sp_alignment()?;
        }
        Ok(())
    }

    /// `ActivePredicateElement(mask, e, esize)`
    pub fn active(&self, mask: Mask, e: u64, esize: u64) -> bool {
        self.rules.active(mask, e, esize)
    }

    /// `AnyActiveElement(mask, esize)`, which goes through `VL DIV esize` elements whatever the page loads.
    pub fn any_active_element(&self, mask: Mask, esize: u64) -> bool {
        let elements = self.current_vl() / esize;
        (0..elements).any(|e| self.active(mask, e, esize))
    }

    /// `Mem[address, mbytes]` for element `lane`: bytes upward, the first bad one stops the step.
    /// The read is counted when all of it was had.
    pub fn mem(&mut self, lane: u64, address: u64, mbytes: u64) -> Result<u64, Stop> {
        let mut data = 0;
        for turn in 0..mbytes {
            let i = self.rules.byte_in_turn(turn, mbytes);
            let byte = self.byte(lane, self.rules.byte_address(address, i))?;
            data |= u64::from(byte) << (8 * self.rules.byte_place(i, mbytes));
        }
        self.reads += 1;
        Ok(data)
    }

    /// One byte of an active element: answer 6 if no area has it, 7 if its page is denied.
    fn byte(&self, lane: u64, address: u64) -> Result<u8, Stop> {
        let stop = |answer| Stop {
            answer,
            lane,
            address,
        };
        for area in [&self.bench.flash, &self.bench.ram] {
            if let Some(offset) = area.offset_of(address) {
                let page = offset / PAGE as usize;
                let right = area.rights.get(page).copied().unwrap_or(0);
                if !self.rules.readable(right) {
                    return Err(stop(Answer::Denied));
                }
                return Ok(area.bytes[offset]);
            }
        }
        Err(stop(Answer::NoMemory))
    }
}
