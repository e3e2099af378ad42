//! The two windows for the operator, by the sentences of document 01.

mod common;

use common::{area, bench};
use second::cases::Case;
use second::machine::{Area, Bench};
use second::questions::{Kind, Question, Reply};

type Shown = (u8, u64, u64);

fn asked(kind: Kind, bench: &Bench, numbers: [u64; 4]) -> Shown {
    let question = Question {
        kind,
        lent: Case {
            word: 0,
            level: 0,
            bench: bench.clone(),
        },
        numbers,
        blob: Vec::new(),
    };
    let Reply::Window { report, out_len } = question.reply() else {
        panic!("a window");
    };
    assert_eq!((report.address, out_len), (0, 0));
    (report.answer, report.count, report.element)
}

/// Where an address lies; the numbers that are not used are anything.
fn address(bench: &Bench, address: u64) -> Shown {
    asked(Kind::AddressWindow, bench, [address, 7, u64::MAX, 9])
}

fn lane(bench: &Bench, register: u64, way: u64, width: u64, lane: u64) -> (u8, u64) {
    let shown = asked(Kind::LaneWindow, bench, [register, way, width, lane]);
    assert_eq!(shown.2, 0);
    (shown.0, shown.1)
}

const EMPTY: Shown = (0, 0, 0);
const PAGE: u64 = 4096;

/// Flash of two pages and a bit, RAM of one page that touches its last page's end.
fn two_areas() -> Bench {
    let mut bench = bench(128);
    bench.flash = area(PAGE, vec![1; 8200]);
    bench.ram = area(4 * PAGE, vec![2; 4096]);
    bench
}

#[test]
fn an_address_lies_in_flash_in_ram_or_nowhere() {
    let bench = two_areas();
    let expected = [
        (PAGE - 1, EMPTY),
        (PAGE, (1, 0, 8200)),
        (PAGE + 1, (1, 1, 8199)),
        (PAGE + 8199, (1, 8199, 1)),
        (PAGE + 8200, EMPTY),
        (4 * PAGE - 1, EMPTY),
        (4 * PAGE, (2, 0, 4096)),
        (5 * PAGE - 1, (2, 4095, 1)),
        (5 * PAGE, EMPTY),
        (0, EMPTY),
        (u64::MAX, EMPTY),
    ];
    for (at, shown) in expected {
        assert_eq!(address(&bench, at), shown, "{at:#x}");
    }
}

#[test]
fn touching_areas_and_the_ends_of_all_addresses() {
    let mut bench = bench(128);
    bench.flash = area(0, vec![1; 4096]);
    bench.ram = area(PAGE, vec![2; 10]);
    assert_eq!(address(&bench, 0), (1, 0, 4096));
    assert_eq!(address(&bench, PAGE - 1), (1, 4095, 1));
    assert_eq!(address(&bench, PAGE), (2, 0, 10));
    bench.ram = area(0_u64.wrapping_sub(PAGE), vec![2; 4096]);
    assert_eq!(address(&bench, u64::MAX), (2, 4095, 1));
    assert_eq!(address(&bench, 0), (1, 0, 4096));
    // An empty area has no byte, wherever it starts
    bench.flash = area(0_u64.wrapping_sub(PAGE), vec![]);
    assert_eq!(address(&bench, 0_u64.wrapping_sub(PAGE)), (2, 0, 4096));
    bench.ram = area(2 * PAGE, vec![]);
    assert_eq!(address(&bench, 2 * PAGE), EMPTY);
}

#[test]
fn rights_are_ignored_but_their_number_is_not() {
    let mut bench = two_areas();
    bench.flash.rights = vec![0, 0xFE, 0];
    bench.ram.rights = vec![0];
    assert_eq!(address(&bench, PAGE + 1), (1, 1, 8199));
    assert_eq!(address(&bench, 4 * PAGE), (2, 0, 4096));
    bench.ram.rights = vec![0; 2];
    assert_eq!(address(&bench, PAGE + 1), EMPTY);
    bench.ram.rights = vec![];
    assert_eq!(address(&bench, 4 * PAGE), EMPTY);
}

/// Where both areas would show their first byte, if they were accepted.
fn both_empty(bench: &Bench) -> bool {
    let at = |area: &Area| address(bench, area.start) == EMPTY;
    at(&bench.flash) && at(&bench.ram)
}

#[test]
fn areas_that_earn_answer_1_show_nothing() {
    let refused = |change: &dyn Fn(&mut Bench)| {
        let mut bench = two_areas();
        change(&mut bench);
        both_empty(&bench)
    };
    assert!(!refused(&|_| {}));
    assert!(!refused(&|bench| bench.ram = area(1 << 20, vec![3; 65_536])));
    assert!(refused(&|bench| bench.ram = area(1 << 20, vec![3; 65_537])));
    assert!(refused(
        &|bench| bench.flash = area(1 << 20, vec![3; 65_537])
    ));
    assert!(refused(&|bench| bench.flash.start += 1));
    assert!(refused(&|bench| bench.ram.start += 2048));
    assert!(refused(
        &|bench| bench.flash.start = 0_u64.wrapping_sub(2 * PAGE)
    ));
    assert!(!refused(
        &|bench| bench.flash.start = 0_u64.wrapping_sub(3 * PAGE)
    ));
    assert!(refused(&|bench| bench.ram.start = 3 * PAGE));
    assert!(refused(&|bench| bench.ram.start = PAGE));
    // The start of an empty area is asked for too, but it overlaps nothing
    assert!(refused(&|bench| bench.ram = area(8, vec![])));
    let mut bench = two_areas();
    bench.ram = area(2 * PAGE, vec![]);
    assert_eq!(address(&bench, 2 * PAGE), (1, 4096, 4104));
}

#[test]
fn nothing_else_of_the_set_up_is_asked_for_an_address() {
    let mut bench = two_areas();
    bench.vl = 2176;
    bench.z = vec![];
    bench.p = vec![0; 3];
    bench.x = vec![1; 5];
    (bench.simd, bench.sve, bench.f64mm) = (false, false, false);
    assert_eq!(address(&bench, PAGE + 1), (1, 1, 8199));
}

/// A vector file whose byte i of register r is r x 16 + i, and nothing else that would be accepted.
fn numbered(vl: u64) -> Bench {
    let size = vl / 8;
    Bench {
        vl,
        z: (0..32 * size)
            .map(|i| (i / size * 16 + i % size) as u8)
            .collect(),
        ..Bench::default()
    }
}

#[test]
fn a_lane_is_shown_at_each_width() {
    let bench = numbered(128);
    assert_eq!(lane(&bench, 0, 0, 8, 0), (1, 0));
    assert_eq!(lane(&bench, 1, 0, 8, 15), (1, 0x1F));
    assert_eq!(lane(&bench, 1, 0, 16, 1), (1, 0x1312));
    assert_eq!(lane(&bench, 2, 0, 32, 3), (1, 0x2F2E_2D2C));
    assert_eq!(lane(&bench, 2, 1, 32, 0), (2, 0x2322_2120));
    assert_eq!(lane(&bench, 3, 0, 64, 1), (1, 0x3F3E_3D3C_3B3A_3938));
    assert_eq!(lane(&bench, 3, 2, 64, 1), (3, 0x3F3E_3D3C_3B3A_3938));
    // Register 31 is 496 bytes in, and its bytes begin again at F0
    assert_eq!(lane(&bench, 31, 0, 16, 7), (1, 0xFFFE));
    let long = numbered(2048);
    assert_eq!(lane(&long, 0, 0, 8, 255), (1, 255));
    assert_eq!(lane(&long, 31, 0, 8, 255), (1, 0xEF));
}

#[test]
fn no_such_lane() {
    const NONE: (u8, u64) = (0, 0);
    let bench = numbered(384);
    for (width, lanes) in [(8, 48), (16, 24), (32, 12), (64, 6)] {
        assert_eq!(lane(&bench, 31, 0, width, lanes - 1).0, 1);
        for past in [lanes, lanes + 1, 1 << 32, 1 << 61, 1 << 63, u64::MAX] {
            assert_eq!(lane(&bench, 31, 0, width, past), NONE);
        }
    }
    for register in [32, 33, 1 << 32, u64::MAX] {
        assert_eq!(lane(&bench, register, 0, 8, 0), NONE);
    }
    for width in [0, 1, 7, 24, 33, 128, 256, (1 << 32) + 32, u64::MAX] {
        for way in 0..3 {
            assert_eq!(lane(&bench, 0, way, width, 0), NONE, "{way} {width}");
        }
    }
    // "single at 32, double at 64"
    for (way, fits) in [(1, 32), (2, 64)] {
        for width in [8, 16, 32, 64] {
            assert_eq!(lane(&bench, 0, way, width, 0).0 > 0, width == fits);
        }
    }
    for way in [3, 4, 1 << 32, (1 << 32) + 1, u64::MAX] {
        for width in [8, 16, 32, 64] {
            assert_eq!(lane(&bench, 0, way, width, 0), NONE);
        }
    }
}

#[test]
fn wrong_vl_or_file_length_shows_no_lane() {
    let shown = |bench: &Bench| lane(bench, 0, 0, 8, 1);
    for vl in (128..=2048).step_by(128) {
        let mut bench = numbered(vl);
        assert_eq!(shown(&bench), (1, 1));
        bench.z.push(0);
        assert_eq!(shown(&bench), (0, 0));
        bench.z.truncate((vl * 4) as usize - 1);
        assert_eq!(shown(&bench), (0, 0));
    }
    for vl in [0, 64, 192, 2176, 4096] {
        assert_eq!(shown(&numbered(vl)), (0, 0), "{vl}");
    }
    let mut wide = numbered(128);
    wide.vl += 1 << 62;
    assert_eq!(shown(&wide), (0, 0));
}

/// The answer for a pattern as single or double, which must carry exactly its bits.
fn float(way: u64, bits: u64) -> u8 {
    let mut bench = numbered(128);
    let width = 32 * way;
    bench.z[16..24].copy_from_slice(&bits.to_le_bytes());
    let (answer, shown) = lane(&bench, 1, way, width, 0);
    assert_eq!(shown, bits, "{bits:#x}");
    answer
}

#[test]
fn floats_keep_their_bits_and_a_nan_comes_as_a_whole_number() {
    let sign = 1 << 31;
    let singles = [
        0,
        1,
        0x7F_FFFF,
        0x80_0000,
        0x3F80_0000,
        0x7F7F_FFFF,
        0x7F80_0000,
    ];
    for bits in singles {
        assert_eq!((float(1, bits), float(1, bits | sign)), (2, 2), "{bits:#x}");
    }
    for nan in [0x7F80_0001, 0x7FBF_FFFF, 0x7FC0_0000, 0x7FFF_FFFF] {
        assert_eq!((float(1, nan), float(1, nan | sign)), (1, 1), "{nan:#x}");
    }
    let sign = 1 << 63;
    let doubles = [
        0,
        1,
        0x000F_FFFF_FFFF_FFFF,
        0x0010_0000_0000_0000,
        0x3FF0_0000_0000_0000,
        0x7FEF_FFFF_FFFF_FFFF,
        0x7FF0_0000_0000_0000,
    ];
    for bits in doubles {
        assert_eq!((float(2, bits), float(2, bits | sign)), (3, 3), "{bits:#x}");
    }
    let nans = [
        0x7FF0_0000_0000_0001,
        0x7FF7_FFFF_FFFF_FFFF,
        0x7FF8_0000_0000_0000,
        0x7FFF_FFFF_FFFF_FFFF,
    ];
    for nan in nans {
        assert_eq!((float(2, nan), float(2, nan | sign)), (1, 1), "{nan:#x}");
    }
}
