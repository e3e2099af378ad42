//! Decoder and disassembler.

use second::assembly::disassemble;
use second::decode::Family;
use second::words::{family_of_text, judge};

#[test]
fn no_word_fits_two_rows() {
    for a in Family::ALL {
        for b in Family::ALL {
            let (a, b) = (a.pattern(), b.pattern());
            let apart = a.mask & b.mask & (a.value ^ b.value) != 0;
            assert!(apart || a.value == b.value);
        }
    }
}

/// A word of each family and more, with its text and its family.
const TEXTS: [(u32, &str, Family); 22] = [
    (0x0D40_C000, "ld1r {v0.8b}, [x0]", Family::LdnrNoOffset),
    (0x4D40_CFFF, "ld1r {v31.2d}, [sp]", Family::LdnrNoOffset),
    (0x0DDF_C000, "ld1r {v0.8b}, [x0], #1", Family::LdnrPostIndex),
    (0x4DC7_CBE3, "ld1r {v3.4s}, [sp], x7", Family::LdnrPostIndex),
    (
        0x4D60_C000,
        "ld2r {v0.16b, v1.16b}, [x0]",
        Family::LdnrNoOffset,
    ),
    (
        0x0DFF_CFFF,
        "ld2r {v31.1d, v0.1d}, [sp], #16",
        Family::LdnrPostIndex,
    ),
    (
        0x4DDF_EBFD,
        "ld3r {v29.4s-v31.4s}, [sp], #12",
        Family::LdnrPostIndex,
    ),
    (
        0x0D40_E41E,
        "ld3r {v30.4h, v31.4h, v0.4h}, [x0]",
        Family::LdnrNoOffset,
    ),
    (
        0x4DE7_E000,
        "ld4r {v0.16b-v3.16b}, [x0], x7",
        Family::LdnrPostIndex,
    ),
    (
        0x0DFF_E81D,
        "ld4r {v29.2s, v30.2s, v31.2s, v0.2s}, [x0], #16",
        Family::LdnrPostIndex,
    ),
    (0x85C0_E000, "ld1rd {z0.d}, p0/z, [x0]", Family::Ld1rElement),
    (
        0x85FF_E000,
        "ld1rd {z0.d}, p0/z, [x0, #504]",
        Family::Ld1rElement,
    ),
    (
        0x85C0_C000,
        "ld1rsb {z0.h}, p0/z, [x0]",
        Family::Ld1rElement,
    ),
    (0xA5E0_A000, "ld1d {z0.d}, p0/z, [x0]", Family::Ld1Immediate),
    (
        0xA5E8_BFE0,
        "ld1d {z0.d}, p7/z, [sp, #-8, mul vl]",
        Family::Ld1Immediate,
    ),
    (
        0xA481_A000,
        "ld1sw {z0.d}, p0/z, [x0, #1, mul vl]",
        Family::Ld1Immediate,
    ),
    (
        0xA5E1_4000,
        "ld1d {z0.d}, p0/z, [x0, x1, lsl #3]",
        Family::Ld1Scalar,
    ),
    (
        0xA401_4000,
        "ld1b {z0.b}, p0/z, [x0, x1]",
        Family::Ld1Scalar,
    ),
    (
        0xA588_2000,
        "ld1rqd {z0.d}, p0/z, [x0, #-128]",
        Family::Ld1rqImmediate,
    ),
    (
        0xA501_0000,
        "ld1rqw {z0.s}, p0/z, [x0, x1, lsl #2]",
        Family::Ld1rqScalar,
    ),
    (
        0xA5A7_2000,
        "ld1rod {z0.d}, p0/z, [x0, #224]",
        Family::Ld1roImmediate,
    ),
    (
        0xA4A1_0000,
        "ld1roh {z0.h}, p0/z, [x0, x1, lsl #1]",
        Family::Ld1roScalar,
    ),
];

#[test]
fn words_have_their_texts() {
    for (word, text, family) in TEXTS {
        assert_eq!(disassemble(word).as_deref(), Some(text));
        assert_eq!(Family::of(word), Some(family));
        assert_eq!(family_of_text(text), Some(family));
    }
}

#[test]
fn other_texts_are_of_no_family() {
    for text in [
        ".inst 0x00000000 ; undefined",
        "ld1d {z0.d}, p0/z, [x0, z0.d]",
        "ld1d {z0.d}, p0/z, [z0.d, #8]",
        "ldnf1d {z0.d}, p0/z, [x0]",
        "ldff1d {z0.d}, p0/z, [x0, x1, lsl #3]",
        "ldnt1d {z0.d}, p0/z, [x0]",
        "ld2d {z0.d, z1.d}, p0/z, [x0]",
        "ld1 {v0.16b}, [x0]",
        "ld2 {v0.16b, v1.16b}, [x0]",
        "ld2 {v0.b, v1.b}[3], [x0]",
        "ld1d {za0h.d[w12, 0]}, p0/z, [x0]",
        "prfd pldl1keep, p0, [x0]",
        "nop",
    ] {
        assert_eq!(family_of_text(text), None, "{text}");
    }
}

#[test]
fn disagreements_are_named() {
    let lines = "85c0e000 ld1rd {z0.d}, p0/z, [x0]\n\
                 85c0e000\tld1rd\t{z1.d}, p0/z, [x0]\n\
                 85c0e000 nop\n\
                 a5f0a000 ldnf1d {z0.d}, p0/z, [x0]\n\
                 wrong nop\n";
    let judged = judge(lines.as_bytes()).expect("read from memory");
    assert_eq!((judged.lines, judged.same_family), (5, 3));
    assert_eq!((judged.loads, judged.same_text), (2, 1));
    assert_eq!(judged.disagreements.len(), 3);
}
