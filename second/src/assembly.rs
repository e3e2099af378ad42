//! The disassembler: a load of ours as assembler text, spelt as binutils spells it.

use crate::decode::{decode, Family, Load};
use crate::rules::{Right, Rules};

/// The text of a word that decodes to one of the nine families on a bench that has everything;
/// none for a word outside them or one that is undefined by itself.
pub fn disassemble(word: u32) -> Option<String> {
    decode(&Right, word, true).ok().map(|load| text(&load))
}

/// A word's text, or what to say of a word that has none.
pub fn text_or_why_not(word: u32) -> String {
    disassemble(word).unwrap_or_else(|| match Family::of(word) {
        Some(family) => format!("undefined {}", family.name()),
        None => "outside the nine families".to_string(),
    })
}

fn text(load: &Load) -> String {
    if load.family.is_ldnr() {
        return ldnr(load);
    }
    format!(
        "{} {{z{}.{}}}, p{}/z, [{}{}]",
        mnemonic(load),
        load.t,
        letter(load.esize),
        load.g,
        base(load.n),
        index(load)
    )
}

/// Page 004: `LD1R { <Vt>.<T> }, [<Xn|SP>]`, `..., <imm>` or `..., <Xm>`, and so for LD2R to LD4R.
fn ldnr(load: &Load) -> String {
    let post = match load.family {
        Family::LdnrPostIndex if load.m == 31 => format!(", #{}", load.selem * load.esize / 8),
        Family::LdnrPostIndex => format!(", x{}", load.m),
        _ => String::new(),
    };
    let (registers, list) = (load.selem, list(load));
    format!("ld{registers}r {{{list}}}, [{}]{post}", base(load.n))
}

/// The register list: three or four are a range, save where 31 is followed by 0.
fn list(load: &Load) -> String {
    let arrangement = format!("{}{}", load.datasize / load.esize, letter(load.esize));
    let number = |s| Right.destination(load.t, s, load.selem);
    let name = |s| format!("v{}.{arrangement}", number(s));
    let last = load.selem - 1;
    if last >= 2 && number(last) > load.t {
        return format!("{}-{}", name(0), name(last));
    }
    (0..load.selem).map(name).collect::<Vec<_>>().join(", ")
}

fn mnemonic(load: &Load) -> String {
    let kind = match load.family {
        Family::Ld1rElement => "ld1r",
        Family::Ld1rqImmediate | Family::Ld1rqScalar => "ld1rq",
        Family::Ld1roImmediate | Family::Ld1roScalar => "ld1ro",
        _ => "ld1",
    };
    let sign = if load.unsigned { "" } else { "s" };
    // In a mnemonic 32 bits are a word, as a lane they are single
    let size = if load.msize == 32 {
        'w'
    } else {
        letter(load.msize)
    };
    format!("{kind}{sign}{size}")
}

fn letter(size: u64) -> char {
    match size {
        8 => 'b',
        16 => 'h',
        32 => 's',
        _ => 'd',
    }
}

/// `<Xn|SP>`
pub fn base(n: usize) -> String {
    if n == 31 {
        "sp".to_string()
    } else {
        format!("x{n}")
    }
}

/// What follows the base inside the brackets; an immediate of 0 is left out.
fn index(load: &Load) -> String {
    let mbytes = (load.msize / 8) as i64;
    let bytes = |scale: i64| match load.offset * scale {
        0 => String::new(),
        offset => format!(", #{offset}"),
    };
    match load.family {
        Family::Ld1rElement => bytes(mbytes),
        Family::Ld1rqImmediate => bytes(16),
        Family::Ld1roImmediate => bytes(32),
        Family::Ld1Immediate if load.offset == 0 => String::new(),
        Family::Ld1Immediate => format!(", #{}, mul vl", load.offset),
        _ if mbytes == 1 => format!(", x{}", load.m),
        _ => format!(", x{}, lsl #{}", load.m, mbytes.trailing_zeros()),
    }
}
