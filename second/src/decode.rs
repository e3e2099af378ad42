//! Which words decode: the family table of document 01 and the pages' decode texts.

use crate::machine::Answer;
use crate::rules::{Dtype, Rules};

/// The nine rows of document 01's family table. Since request One the two of LD1R are those of LD1R to
/// LD4R, LDnR for short: what tells these apart are two more fields of the word.
#[derive(Clone, Copy, Debug, PartialEq, Eq, PartialOrd, Ord, Hash)]
pub enum Family {
    LdnrNoOffset,
    LdnrPostIndex,
    Ld1rElement,
    Ld1Immediate,
    Ld1Scalar,
    Ld1rqImmediate,
    Ld1rqScalar,
    Ld1roImmediate,
    Ld1roScalar,
}

/// The fixed bits of a row: `word & mask == value`.
#[derive(Clone, Copy, Debug)]
pub struct Pattern {
    pub mask: u32,
    pub value: u32,
}

impl Pattern {
    /// Reads a row, most significant bit first: 0 and 1 are fixed, letters are fields.
    const fn of(row: &str) -> Pattern {
        let row = row.as_bytes();
        let mut pattern = Pattern { mask: 0, value: 0 };
        let mut i = 0;
        while i < row.len() {
            if row[i] != b' ' {
                let fixed = row[i] == b'0' || row[i] == b'1';
                pattern.mask = pattern.mask << 1 | fixed as u32;
                pattern.value = pattern.value << 1 | (row[i] == b'1') as u32;
            }
            i += 1;
        }
        pattern
    }

    pub fn fits(self, word: u32) -> bool {
        word & self.mask == self.value
    }
}

impl Family {
    pub const ALL: [Family; 9] = [
        Family::LdnrNoOffset,
        Family::LdnrPostIndex,
        Family::Ld1rElement,
        Family::Ld1Immediate,
        Family::Ld1Scalar,
        Family::Ld1rqImmediate,
        Family::Ld1rqScalar,
        Family::Ld1roImmediate,
        Family::Ld1roScalar,
    ];

    /// The family's row; o is opcode<0>, h and l are dh and dl, d dtype, z size or msz, i an immediate.
    pub const fn pattern(self) -> Pattern {
        match self {
            Family::LdnrNoOffset => Pattern::of("0 Q 001101 0 L R 00000 11o S zz nnnnn ttttt"),
            Family::LdnrPostIndex => Pattern::of("0 Q 001101 1 L R mmmmm 11o S zz nnnnn ttttt"),
            Family::Ld1rElement => Pattern::of("1000010 hh 1 iiiiii 1 ll ggg nnnnn ttttt"),
            Family::Ld1Immediate => Pattern::of("1010010 dddd 0 iiii 101 ggg nnnnn ttttt"),
            Family::Ld1Scalar => Pattern::of("1010010 dddd mmmmm 010 ggg nnnnn ttttt"),
            Family::Ld1rqImmediate => Pattern::of("1010010 zz 00 0 iiii 001 ggg nnnnn ttttt"),
            Family::Ld1rqScalar => Pattern::of("1010010 zz 00 mmmmm 000 ggg nnnnn ttttt"),
            Family::Ld1roImmediate => Pattern::of("1010010 zz 01 0 iiii 001 ggg nnnnn ttttt"),
            Family::Ld1roScalar => Pattern::of("1010010 zz 01 mmmmm 000 ggg nnnnn ttttt"),
        }
    }

    /// The row that fits the word's fixed bits; no two rows fit the same word.
    pub fn of(word: u32) -> Option<Family> {
        Family::ALL
            .into_iter()
            .find(|family| family.pattern().fits(word))
    }

    pub fn name(self) -> &'static str {
        match self {
            Family::LdnrNoOffset => "LD1R-LD4R no offset",
            Family::LdnrPostIndex => "LD1R-LD4R post-index",
            Family::Ld1rElement => "LD1R by element",
            Family::Ld1Immediate => "LD1 immediate",
            Family::Ld1Scalar => "LD1 scalar",
            Family::Ld1rqImmediate => "LD1RQ immediate",
            Family::Ld1rqScalar => "LD1RQ scalar",
            Family::Ld1roImmediate => "LD1RO immediate",
            Family::Ld1roScalar => "LD1RO scalar",
        }
    }

    /// LD1R to LD4R of page 004, the ones that are no SVE loads.
    pub fn is_ldnr(self) -> bool {
        matches!(self, Family::LdnrNoOffset | Family::LdnrPostIndex)
    }

    /// The SVE forms with a scalar index.
    pub fn is_scalar(self) -> bool {
        matches!(
            self,
            Family::Ld1Scalar | Family::Ld1rqScalar | Family::Ld1roScalar
        )
    }

    pub fn is_ld1ro(self) -> bool {
        matches!(self, Family::Ld1roImmediate | Family::Ld1roScalar)
    }

    /// The size in bits of the block of LD1RQ and LD1RO.
    pub fn block(self) -> Option<u64> {
        match self {
            Family::Ld1rqImmediate | Family::Ld1rqScalar => Some(128),
            Family::Ld1roImmediate | Family::Ld1roScalar => Some(256),
            _ => None,
        }
    }
}

/// What a page's decode text makes of a word, in the page's names. A field that the family does
/// not have is 0.
#[derive(Clone, Copy, Debug, PartialEq, Eq)]
pub struct Load {
    pub family: Family,
    /// How many registers are loaded, from t on: 1 to 4 for LD1R to LD4R, 1 for the others.
    pub selem: u64,
    pub t: usize,
    pub n: usize,
    pub m: usize,
    pub g: usize,
    pub esize: u64,
    pub msize: u64,
    pub unsigned: bool,
    /// imm6 or imm4 as an integer.
    pub offset: i64,
    /// LD1R to LD4R: how many bits of each V are filled; for the others 0.
    pub datasize: u64,
}

impl Load {
    /// How many lanes a load asks for at this VL: the block's own lanes for LD1RQ and LD1RO, else all. The
    /// stack rule goes by all lanes of VL, whatever the block. LD1R to LD4R have an element for each register
    /// in place of lanes.
    pub fn lanes(&self, vl: u64) -> u64 {
        if self.family.is_ldnr() {
            self.selem
        } else {
            self.family.block().unwrap_or(vl) / self.esize
        }
    }

    /// How many elements a load can ask for at this VL: one for each lane that it asks for, save that
    /// LD1R by element makes a single read for all of them.
    pub fn elements(&self, vl: u64) -> u64 {
        if self.family == Family::Ld1rElement {
            1
        } else {
            self.lanes(vl)
        }
    }
}

fn bits(word: u32, high: u32, low: u32) -> u32 {
    (word >> low) & ((1 << (high - low + 1)) - 1)
}

/// How many registers a word of LD1R to LD4R loads, whether it is undefined or not.
pub fn registers<R: Rules + ?Sized>(rules: &R, word: u32) -> u64 {
    rules.selem(bits(word, 13, 13), bits(word, 21, 21))
}

/// Decodes a word: 2 if no row fits, 3 for what the word and F64MM make undefined.
pub fn decode<R: Rules + ?Sized>(rules: &R, word: u32, f64mm: bool) -> Result<Load, Answer> {
    let family = Family::of(word).ok_or(Answer::Outside)?;
    let undefined = if family.is_ldnr() {
        // Page 004: if L == '0' || S == '1' then UNDEFINED
        let (l, s) = (bits(word, 22, 22), bits(word, 12, 12));
        !rules.replicate_allowed(registers(rules, word), l, s)
    } else {
        family.is_scalar() && !rules.index_allowed(bits(word, 20, 16) as usize)
            || family.is_ld1ro() && !f64mm
    };
    if undefined {
        return Err(Answer::Undefined);
    }
    Ok(fields(rules, word, family))
}

fn fields<R: Rules + ?Sized>(rules: &R, word: u32, family: Family) -> Load {
    let sve = !family.is_ldnr();
    let has_m = family.is_scalar() || family == Family::LdnrPostIndex;
    let Dtype {
        msize,
        esize,
        unsigned,
    } = sizes(rules, word, family);
    let register = |high: u32, low: u32, present: bool| {
        if present {
            bits(word, high, low) as usize
        } else {
            0
        }
    };
    Load {
        family,
        selem: if sve { 1 } else { registers(rules, word) },
        t: register(4, 0, true),
        n: register(9, 5, true),
        m: register(20, 16, has_m),
        g: register(12, 10, sve),
        esize,
        msize,
        unsigned,
        offset: match family {
            Family::Ld1rElement => i64::from(bits(word, 21, 16)),
            _ if sve && !has_m => rules.sint4(bits(word, 19, 16)),
            _ => 0,
        },
        datasize: if sve { 0 } else { 64 << bits(word, 30, 30) },
    }
}

/// Memory and lane size: a dtype row, or 8 << size, or 8 << msz.
fn sizes<R: Rules + ?Sized>(rules: &R, word: u32, family: Family) -> Dtype {
    let same = |size: u32| Dtype {
        msize: 8 << size,
        esize: 8 << size,
        unsigned: true,
    };
    match family {
        Family::LdnrNoOffset | Family::LdnrPostIndex => same(bits(word, 11, 10)),
        Family::Ld1rElement => rules.dtype(bits(word, 24, 23) << 2 | bits(word, 14, 13)),
        Family::Ld1Immediate | Family::Ld1Scalar => rules.dtype(bits(word, 24, 21)),
        _ => same(bits(word, 24, 23)),
    }
}
