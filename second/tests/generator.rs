//! The generator makes the same cases again, and enough of those that matter.

mod common;

use common::both;
use second::cases::Case;
use second::decode::{decode, registers, Family, Load};
use second::edges::{edges_of, Edge};
use second::generate::{case, distance};
use second::machine::{accepted, Area, Bench};
use second::rules::{Right, Rules};
use second::sample::{row, rows};
use second::stack::{Active, FromStack, BLOCKS};
use second::together::{lies_together, Stretch};
use second::touched::{pages_read, PageOf};

const SEED: u64 = 11;
const CASES: u64 = 20_000;

#[test]
fn a_case_is_made_alone_and_again() {
    for number in [0, 1, 77, u64::MAX] {
        assert_eq!(case(SEED, number), case(SEED, number));
        assert_ne!(case(SEED, number), case(SEED + 1, number));
    }
    assert_ne!(case(SEED, 0), case(SEED, 1));
}

#[test]
fn no_case_is_bad_input() {
    for number in 0..CASES {
        let bench = case(SEED, number).bench;
        assert!(bench.z.len() <= 65_536 && bench.p.len() <= 4096 && bench.x.len() <= 128);
        for area in [&bench.flash, &bench.ram] {
            assert!(area.bytes.len() <= 131_072 && area.rights.len() <= 64);
        }
    }
}

#[test]
fn every_family_has_its_answers_often() {
    let mut seen = [[0; 8]; 9];
    for number in 0..CASES {
        let case = case(SEED, number);
        if let Some(family) = Family::of(case.word) {
            seen[family as usize][usize::from(both(&case).report.answer)] += 1;
        }
    }
    for family in Family::ALL {
        for (answer, least) in [(0, 1000), (1, 80), (4, 60), (5, 40), (6, 90), (7, 90)] {
            let had = seen[family as usize][answer];
            assert!(had >= least, "{} {answer}: {had}", family.name());
        }
    }
}

/// First and last address of an element.
type Ends = (u64, u64);

/// The elements that a case read, if it ran with all lanes active.
fn elements(number: u64) -> Option<(Bench, Load, Vec<Ends>)> {
    let case = case(SEED, number);
    let load = decode(&Right, case.word, case.bench.f64mm).ok()?;
    let report = both(&case).report;
    let bench = case.bench;
    if report.answer != 0 || report.count != load.lanes(bench.vl) {
        return None;
    }
    let ends = |e| {
        let first = bench
            .scalar(load.n)
            .wrapping_add(distance(&load, &bench, e));
        (first, first.wrapping_add(load.msize / 8 - 1))
    };
    let ends = (0..report.count).map(ends).collect();
    Some((bench, load, ends))
}

#[test]
fn elements_cross_what_there_is_to_cross() {
    let mut found = [0; 5];
    for (bench, load, elements) in (0..CASES).filter_map(elements) {
        let any = |holds: &dyn Fn(u64, u64) -> bool| {
            usize::from(elements.iter().any(|(first, last)| holds(*first, *last)))
        };
        let crosses = |from: &Area, to: &Area| {
            any(&|first, last| from.offset_of(first).is_some() && to.offset_of(last).is_some())
        };
        found[0] += any(&|first, last| first / 4096 != last / 4096);
        found[1] += crosses(&bench.flash, &bench.ram);
        found[2] += crosses(&bench.ram, &bench.flash);
        found[3] += any(&|first, last| last < first);
        found[4] += usize::from(load.family.is_scalar() && load.n == load.m);
    }
    for (had, least) in found.into_iter().zip([200, 50, 50, 30, 100]) {
        assert!(had >= least, "{found:?}");
    }
}

#[test]
fn areas_are_of_every_kind() {
    let mut found = [0; 6];
    for number in 0..CASES {
        let bench = case(SEED, number).bench;
        if !accepted(&Right, &bench) {
            continue;
        }
        let areas = [&bench.flash, &bench.ram];
        let any = |holds: &dyn Fn(&Area) -> bool| usize::from(areas.iter().any(|area| holds(area)));
        found[0] += any(&|area| area.is_empty());
        found[1] += any(&|area| !area.is_empty() && area.end() == 1 << 64);
        found[2] += any(&|area| area.len() % 4096 != 0);
        found[3] += any(&|area| area.len() == 65_536);
        found[4] +=
            any(&|area| area.is_empty() && areas.iter().any(|a| a.offset_of(area.start).is_some()));
        found[5] += any(&|area| area.rights.iter().any(|right| right & 0xFE != 0));
    }
    for (had, least) in found.into_iter().zip([500, 500, 500, 20, 250, 5_000]) {
        assert!(had >= least, "{found:?}");
    }
}

#[test]
fn areas_have_every_number_of_pages_and_are_read_in_every_page() {
    let mut lent = [0; 17];
    let mut read = [[[0; 16]; 2]; 2];
    for number in 0..CASES {
        let case = case(SEED, number);
        let bench = &case.bench;
        let Ok(load) = decode(&Right, case.word, bench.f64mm) else {
            continue;
        };
        if !accepted(&Right, bench) {
            continue;
        }
        for area in [&bench.flash, &bench.ram] {
            lent[area.pages_begun() as usize] += 1;
        }
        let report = case.outcome().report;
        let pages = match report.answer {
            0 => pages_read(&case, &load),
            7 => PageOf::address(bench, report.address).into_iter().collect(),
            _ => continue,
        };
        let ran = usize::from(report.answer == 0);
        for PageOf { ram, page } in pages {
            read[ran][usize::from(ram)][page] += 1;
        }
    }
    assert!(lent.iter().all(|had| *had >= 50), "{lent:?}");
    let [denied, ran] = read;
    assert!(ran.iter().flatten().all(|had| *had >= 8), "{ran:?}");
    assert!(denied.iter().flatten().all(|had| *had >= 3), "{denied:?}");
}

#[test]
fn numbers_are_at_their_ends_now_and_then() {
    let ends = [0, 1, u64::MAX, 1 << 63, (1 << 63) - 1];
    let mut scalars = [[0; 5]; 33];
    let mut starts = [0; 2];
    let (mut imm6, mut imm4) = ([0; 64], [0; 16]);
    for number in 0..CASES {
        let case = case(SEED, number);
        for (scalar, had) in case.bench.x.iter().zip(&mut scalars) {
            for (end, had) in ends.iter().zip(had) {
                *had += u64::from(scalar == end);
            }
        }
        for area in [&case.bench.flash, &case.bench.ram] {
            starts[0] += u64::from(area.start == 0);
            starts[1] += u64::from(area.start == 0_u64.wrapping_sub(4096));
        }
        match Family::of(case.word) {
            Some(Family::Ld1rElement) => imm6[(case.word >> 16 & 63) as usize] += 1,
            Some(Family::Ld1Immediate) => imm4[(case.word >> 16 & 15) as usize] += 1,
            _ => {}
        }
    }
    assert!(
        scalars.iter().flatten().all(|had| *had >= 50),
        "{scalars:?}"
    );
    assert!(starts.iter().all(|had| *had >= 200), "{starts:?}");
    assert!(imm6[0] >= 100 && imm6[63] >= 100, "{imm6:?}");
    assert!(imm4[7] >= 150 && imm4[8] >= 150, "{imm4:?}");
}

#[test]
fn cases_stay_small() {
    let sizes: Vec<usize> = (0..CASES).map(|number| case(SEED, number).size()).collect();
    let mean = sizes.iter().sum::<usize>() / sizes.len();
    assert!((8_000..20_000).contains(&mean), "{mean}");
    let large = sizes.iter().filter(|size| **size > 60_000).count();
    assert!(large < sizes.len() / 25, "{large}");
}

/// The cases that lie together, each with its load.
fn together() -> impl Iterator<Item = (Case, Load)> {
    (0..CASES).filter_map(|number| {
        let case = case(SEED, number);
        let load = decode(&Right, case.word, case.bench.f64mm).ok()?;
        lies_together(&case).then_some((case, load))
    })
}

#[test]
fn one_half_of_all_cases_lies_together() {
    let mut by_family = [0; 9];
    for (_, load) in together() {
        by_family[load.family as usize] += 1;
    }
    let all = by_family.iter().sum::<u64>();
    assert!((CASES / 2..CASES * 11 / 20).contains(&all), "{all}");
    // A family has a ninth of the cases, and the undefined and switched off ones of it count too
    for (family, had) in Family::ALL.into_iter().zip(by_family) {
        assert!(had * 9 >= CASES * 2 / 5, "{} {had}", family.name());
    }
}

#[test]
fn those_together_have_all_sizes_and_lengths_and_lie_everywhere() {
    let mut sizes = [[0; 16]; 9];
    let mut lengths = [[0; 16]; 9];
    let mut alignments = [[0; 64]; 2];
    for (case, load) in together() {
        let stretch = Stretch::of(&load, &case.bench);
        let in_ram = usize::from(stretch.lies_in(&case.bench.ram));
        sizes[load.family as usize][row(case.word, load.family) as usize] += 1;
        lengths[load.family as usize][(case.bench.vl / 128 - 1) as usize] += 1;
        alignments[in_ram][(stretch.first % 64) as usize] += 1;
    }
    for family in Family::ALL {
        let sizes = &sizes[family as usize][..rows(family) as usize];
        assert!(sizes.iter().all(|had| *had >= 30), "{family:?} {sizes:?}");
        let lengths = &lengths[family as usize][usize::from(family.is_ld1ro())..];
        assert!(
            lengths.iter().all(|had| *had >= 10),
            "{family:?} {lengths:?}"
        );
    }
    for had in alignments.iter().flatten() {
        assert!(*had >= 10, "{alignments:?}");
    }
}

#[test]
fn every_family_meets_every_edge() {
    let mut found = [[[0; Edge::ALL.len()]; 2]; 9];
    for number in 0..CASES {
        let case = case(SEED, number);
        for edge in edges_of(&case) {
            let family = Family::of(case.word).expect("a load");
            let ran = usize::from(both(&case).report.answer == 0);
            found[family as usize][ran][edge as usize] += 1;
        }
    }
    for family in Family::ALL {
        let [faulted, ran] = &found[family as usize];
        let single = family.is_ldnr() || family == Family::Ld1rElement;
        for (edge, (faulted, ran)) in Edge::ALL.into_iter().zip(faulted.iter().zip(ran)) {
            let name = family.name();
            let together = (edge as usize) <= Edge::AcrossPages as usize;
            assert!(faulted + ran >= 3, "{name} {edge:?} {faulted} {ran}");
            if together {
                assert_eq!(*faulted, 0, "{name} {edge:?}");
            } else if !single && edge != Edge::AcrossAreas {
                // Whether the elements in question are active decides
                assert!(*faulted > 0 && *ran > 0, "{name} {edge:?} {faulted} {ran}");
            }
        }
    }
}

/// Which of the lanes of a predicate are active, and for how many of them a load reads.
fn kind_of_predicate(active: &[bool], read: usize) -> usize {
    let (own, beyond) = active.split_at(read);
    let count = own.iter().filter(|lane| **lane).count();
    let alternate = || own.windows(2).all(|lanes| lanes[0] != lanes[1]);
    match count {
        _ if count == read => 0,
        0 if beyond.contains(&true) => 1,
        0 => 2,
        1 if own[read - 1] => 3,
        1 => 4,
        _ if count == read / 2 && own[..count] == vec![true; count] => 5,
        _ if count == read / 2 && alternate() => 6,
        _ => 7,
    }
}

#[test]
fn those_together_have_predicates_of_every_kind() {
    let mut found = [[0; 8]; 9];
    for (case, load) in together().filter(|(_, load)| !load.family.is_ldnr()) {
        let mask = case.bench.predicate(load.g);
        let active: Vec<bool> = (0..case.bench.vl / load.esize)
            .map(|e| Right.active(mask, e, load.esize))
            .collect();
        let kind = kind_of_predicate(&active, load.lanes(case.bench.vl) as usize);
        found[load.family as usize][kind] += 1;
    }
    for family in Family::ALL.into_iter().filter(|family| !family.is_ldnr()) {
        let mut least = [200, 50, 80, 30, 30, 20, 20, 100];
        if family.block().is_none() {
            // There is no lane beyond those that are read
            least[1] = 0;
        }
        let found = &found[family as usize];
        let enough = found.iter().zip(least).all(|(had, least)| *had >= least);
        assert!(enough, "{} {found:?}", family.name());
    }
}

#[test]
fn what_those_together_read_is_often_at_the_edges_of_the_sign() {
    // By memory size: the largest number, the smallest, and minus one, where they are extended
    let mut found = [[0; 3]; 3];
    for (case, load) in together().filter(|(_, load)| !load.unsigned) {
        let stretch = Stretch::of(&load, &case.bench);
        let in_ram = stretch.lies_in(&case.bench.ram);
        let area = if in_ram {
            &case.bench.ram
        } else {
            &case.bench.flash
        };
        let first = area.offset_of(stretch.first).expect("it lies there");
        let size = (load.msize / 8) as usize;
        for element in area.bytes[first..first + stretch.length as usize].chunks(size) {
            let (highest, others) = element.split_last().expect("some bytes");
            let all = |byte: u8| others.iter().all(|other| *other == byte);
            let kinds = [(0x7F, 0xFF), (0x80, 0x00), (0xFF, 0xFF)];
            for (had, (top, rest)) in found[size.ilog2() as usize].iter_mut().zip(kinds) {
                *had += u64::from(*highest == top && all(rest));
            }
        }
    }
    assert!(found.iter().flatten().all(|had| *had >= 100), "{found:?}");
}

#[test]
fn no_byte_of_the_vector_file_is_zero_before() {
    for (case, _) in together() {
        assert!(!case.bench.z.contains(&0));
    }
}

/// Block loads from the stack by family: how many by what is active, with SP a multiple of 16 and not, and how
/// many by lane size with lanes past the block alone and SP no multiple of 16.
fn block_loads_from_the_stack() -> ([[[u64; 2]; Active::ALL.len()]; 9], [[u64; 4]; 9]) {
    let mut found = [[[0; 2]; Active::ALL.len()]; 9];
    let mut lanes = [[0; 4]; 9];
    for number in 0..CASES {
        let case = case(SEED, number);
        let answer = both(&case).report.answer;
        let Some(from_stack) = FromStack::of(&case, answer) else {
            continue;
        };
        let FromStack {
            family,
            esize,
            active,
            askew,
        } = from_stack;
        assert!(active.can_be(family, esize));
        assert_eq!(answer == 5, askew && active.lane());
        assert!(answer < 6 || active == Active::InBlock);
        found[family as usize][active as usize][usize::from(askew)] += 1;
        let past = active.lane() && active != Active::InBlock;
        lanes[family as usize][esize.ilog2() as usize - 3] += u64::from(past && askew);
    }
    (found, lanes)
}

#[test]
fn block_loads_from_the_stack_have_everything_active_that_can_be() {
    let (found, lanes) = block_loads_from_the_stack();
    for family in BLOCKS {
        let found = &found[family as usize];
        for active in Active::ALL.into_iter().filter(|a| a.can_be(family, 64)) {
            let had = found[active as usize];
            assert!(
                had.iter().all(|had| *had >= 20),
                "{family:?} {active:?} {had:?}"
            );
        }
        assert!(
            lanes[family as usize].iter().all(|had| *had >= 10),
            "{lanes:?}"
        );
    }
    // With an SP that is no multiple of 16: lanes past the block, and of those what is left over alone
    let refused = |active: Active| BLOCKS.map(|family| found[family as usize][active as usize][1]);
    let [later, left_over] =
        [Active::InLaterCopy, Active::InLeftOver].map(|active| refused(active).iter().sum::<u64>());
    assert!(later >= 200 && left_over >= 60, "{later} {left_over}");
}

/// The words of LD1R to LD4R among the cases, with how many registers each has.
fn structures() -> impl Iterator<Item = (Case, u64)> {
    (0..CASES).filter_map(|number| {
        let case = case(SEED, number);
        let ldnr = Family::of(case.word).is_some_and(Family::is_ldnr);
        let registers = registers(&Right, case.word);
        ldnr.then_some((case, registers))
    })
}

#[test]
fn ld1r_to_ld4r_come_in_equal_parts_with_all_answers() {
    let mut found = [[0; 8]; 4];
    for (case, registers) in structures() {
        found[registers as usize - 1][usize::from(both(&case).report.answer)] += 1;
    }
    let all = found.iter().flatten().sum::<u64>();
    for answers in found {
        let part = answers.iter().sum::<u64>();
        assert!(
            (all * 23 / 100..all * 27 / 100).contains(&part),
            "{found:?}"
        );
        for (answer, least) in [
            (0, 500),
            (1, 40),
            (3, 50),
            (4, 30),
            (5, 25),
            (6, 80),
            (7, 80),
        ] {
            assert!(answers[answer] >= least, "{found:?}");
        }
    }
}

#[test]
fn each_element_faults_and_each_border_of_registers_is_crossed() {
    let mut faults = [[[0; 4]; 2]; 4];
    let mut crossed = [[0; 4]; 4];
    let mut around = [0; 4];
    for (case, registers) in structures() {
        let more = registers as usize - 1;
        let report = both(&case).report;
        let t = u64::from(case.word & 31);
        match report.answer {
            6 | 7 => {
                assert_eq!(report.count, report.element);
                faults[more][usize::from(report.answer - 6)][report.element as usize] += 1;
            }
            0 => {
                assert_eq!(report.count, registers);
                let stretch = Stretch::of_case(&case).expect("a load");
                around[more] += u64::from(stretch.end() > 1 << 64);
                if t + registers > 32 {
                    crossed[more][(32 - t) as usize] += 1;
                }
            }
            _ => {}
        }
    }
    for more in 0..4 {
        let few = faults[more].iter().flat_map(|by| &by[..=more]).min();
        assert!(few.is_some_and(|had| *had >= 5), "{faults:?}");
        assert!(
            crossed[more][1..=more].iter().all(|had| *had >= 30),
            "{crossed:?}"
        );
        assert!(around[more] >= 4, "{around:?}");
    }
}

#[test]
fn their_neighbours_stay_outside() {
    // Bits 20:16 of the row without an offset, opcode 0xx, and opcode 10x
    let mut found = [0; 3];
    for number in 0..CASES {
        let case = case(SEED, number);
        let word = case.word;
        if word & 0xBF00_0000 != 0x0D00_0000 || both(&case).report.answer != 2 {
            continue;
        }
        let opcode = word >> 13 & 7;
        found[0] += u64::from(word >> 23 & 1 == 0 && word >> 16 & 31 != 0 && opcode >= 6);
        found[1] += u64::from(opcode < 4);
        found[2] += u64::from(opcode >> 1 == 2);
    }
    assert!(found.iter().all(|had| *had >= 15), "{found:?}");
}
