//! The two shapes of the step: `plain.rs` means what the one that follows the pages means.

mod common;

use common::{area, bench, both};
use second::cases::Case;
use second::compare::agree;
use second::decode::Family;
use second::loads::{right_step, Report};
use second::machine::{Answer, Bench, SP};
use second::plain;
use second::rng::Rng;

#[test]
fn both_agree_over_generated_cases() {
    let agreed = agree(2026, 100_000, plain::step);
    assert!(agreed.is_ok(), "{}", agreed.err().unwrap_or_default());
}

/// Everything that tells families apart lies in bits 13 to 31: all combinations of them are tried,
/// those of a family with many of the other bits.
#[test]
fn both_agree_about_every_kind_of_word() {
    let mut bench = bench(256);
    bench.flash = area(0, (0..4096).map(|i| i as u8).collect());
    bench.x = (0..33).map(|number| 1024 + 16 * number).collect();
    let mut rng = Rng::new(31, 0);
    let mut seen = [0; 8];
    for kind in (0..1 << 19).map(|kind| kind << 13) {
        for _ in 0..if Family::of(kind).is_some() { 64 } else { 1 } {
            bench.x[SP] = rng.pick([1024, 1032]);
            bench.f64mm = rng.percent(50);
            let word = kind | rng.below(1 << 13) as u32;
            let (mut pages, mut plain) = (bench.clone(), bench.clone());
            let report = right_step(word, &mut pages);
            assert_eq!(plain::step(word, &mut plain), report, "{word:08x}");
            assert!(plain == pages, "{word:08x}");
            seen[usize::from(report.answer)] += 1;
        }
    }
    assert!(
        [0, 2, 3, 5, 6].iter().all(|answer| seen[*answer] > 1000),
        "{seen:?}"
    );
}

/// Lengths and numbers that fit nothing: no panic, and the same answer.
#[test]
fn both_agree_about_wild_set_ups() {
    let mut accepted = 0;
    for number in 0..20_000 {
        let mut rng = Rng::new(32, number);
        let mut wild = bench(rng.pick([128, 256, 2048]));
        for _ in 0..rng.below(3) {
            run_wild(&mut rng, &mut wild);
        }
        let word = rng.pick([0xA5E0_A000, 0x4DC1_C3E0, 0x85C0_E000, 0xA5A1_0000, 0]);
        let case = Case {
            word,
            level: 0,
            bench: wild,
        };
        accepted += u64::from(both(&case).report.answer != Answer::SetUp.number());
    }
    assert!((1000..19_000).contains(&accepted), "{accepted}");
}

fn run_wild(rng: &mut Rng, bench: &mut Bench) {
    let any = rng.next_u64() >> rng.below(64);
    let few = rng.below(40) as usize;
    let page = any & !4095;
    match rng.below(12) {
        0 => bench.vl = any,
        1 => bench.vl = 128 * (any % 20),
        2 => bench.z.truncate(few * 32),
        3 => bench.z.resize(few * 512, 1),
        4 => bench.p.resize(few * 8, 0x55),
        5 => bench.x.resize(few, any),
        6 => bench.flash.start = any,
        7 => bench.flash.start = page,
        8 => bench.flash.bytes.resize(few * 4096, 3),
        9 => bench.flash.rights.resize(few, 1),
        10 => bench.ram = area(page, vec![7; few * 512]),
        _ => bench.x.iter_mut().for_each(|number| *number = any),
    }
}

#[test]
fn a_difference_is_shown_in_words() {
    /// The plain step, but one that forgets the address of a fault.
    fn forgets(word: u32, bench: &mut Bench) -> Report {
        Report {
            address: 0,
            ..plain::step(word, bench)
        }
    }
    let text = agree(4, 3000, forgets).err().expect("a difference");
    for part in [
        "difference at case",
        "word ",
        "flash: start",
        "pages: ",
        "plain: ",
    ] {
        assert!(text.contains(part), "{part}");
    }
    let repeat = text.lines().last().expect("a line");
    assert!(repeat.starts_with("repeat: second case --seed 4 --number "));
}
