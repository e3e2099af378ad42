//! Cases, outcomes and differences in words.

use std::fmt::Write;

use crate::assembly::{base, text_or_why_not};
use crate::cases::{Case, Outcome};
use crate::decode::{decode, Family, Load};
use crate::loads::Report;
use crate::machine::{Answer, Area, Bench, Refusal, PAGE, PC, PREDICATES, SCALARS, SP, VECTORS};
use crate::rules::{Right, Rules};
use crate::together::{lies_together, Stretch};

/// How many differing lanes or scalars a report lists before it only counts them.
const LISTED: usize = 12;

/// The load that a case's word is, whatever the switches say.
fn load_of(case: &Case) -> Option<Load> {
    decode(&Right, case.word, true).ok()
}

/// A case: word, settings, registers that matter, areas page by page, and what is wrong with it.
pub fn case_in_words(case: &Case) -> String {
    let bench = &case.bench;
    let on = |switch| if switch { "on" } else { "off" };
    let mut text = format!(
        "  word {:08x}: {} ({})\n  level {}, VL {} bits, SIMD {}, SVE {}, F64MM {}\n",
        case.word,
        text_or_why_not(case.word),
        Family::of(case.word).map_or("no family", Family::name),
        case.level,
        bench.vl,
        on(bench.simd),
        on(bench.sve),
        if bench.f64mm { "present" } else { "absent" },
    );
    if let Some(load) = load_of(case) {
        text += &registers_in_words(&load, bench);
        text += &stretch_in_words(&load, case);
    }
    text += &area_in_words("flash", &bench.flash);
    text += &area_in_words("RAM", &bench.ram);
    text += &wrongs_in_words(bench);
    text
}

fn registers_in_words(load: &Load, bench: &Bench) -> String {
    let mut text = format!("  base {}\n", scalar_in_words(bench, load.n));
    if load.family.is_scalar() || load.family == Family::LdnrPostIndex && load.m != SP {
        text += &format!("  index {}\n", scalar_in_words(bench, load.m));
    }
    if !load.family.is_ldnr() {
        text += &predicate_in_words(load, bench);
    }
    text
}

/// The bytes of all elements, active or not.
fn stretch_in_words(load: &Load, case: &Case) -> String {
    let Stretch { first, length } = Stretch::of(load, &case.bench);
    let lie = if lies_together(case) {
        "together"
    } else {
        "not together"
    };
    format!("  all elements: {length} bytes from {first:#x} on, {lie}\n")
}

fn scalar_in_words(bench: &Bench, n: usize) -> String {
    match bench.x.get(n) {
        Some(value) => format!("{} = {value:#018x}", base(n)),
        None => format!("{} is not lent", base(n)),
    }
}

/// The active lanes at the load's lane size, and the bytes of the whole predicate.
fn predicate_in_words(load: &Load, bench: &Bench) -> String {
    let mask = bench.predicate(load.g);
    if mask.0.is_empty() {
        return format!("  p{} is not lent\n", load.g);
    }
    let lanes = bench.vl / load.esize;
    let active: Vec<String> = (0..lanes)
        .filter(|e| Right.active(mask, *e, load.esize))
        .map(|e| e.to_string())
        .collect();
    let active = if active.is_empty() {
        "none".to_string()
    } else {
        active.join(" ")
    };
    let hex: String = mask.0.iter().map(|byte| format!("{byte:02x}")).collect();
    // Which lanes are loaded and which the stack rule asks are two things
    let stack = if load.n == SP {
        format!(", SP checked if any of {lanes} is active")
    } else {
        String::new()
    };
    format!(
        "  p{} at {}-bit lanes, {} of {lanes} loaded{stack}: active {active}\n  \
         p{} bytes, lowest first: {hex}\n",
        load.g,
        load.esize,
        load.lanes(bench.vl),
        load.g
    )
}

pub fn area_in_words(name: &str, area: &Area) -> String {
    let mut text = format!(
        "  {name}: start {:#x}, {} bytes, {} rights bytes for {} pages begun\n",
        area.start,
        area.len(),
        area.rights.len(),
        area.pages_begun()
    );
    for (page, right) in area.rights.iter().enumerate() {
        let address = area.start.wrapping_add(page as u64 * PAGE);
        let may = if Right.readable(*right) {
            "readable"
        } else {
            "denied"
        };
        let _ = writeln!(text, "    page {page} at {address:#x}: {right:02x} {may}");
    }
    text
}

/// Every cause of answer 1 that applies, lengths with what they should be.
pub fn wrongs_in_words(bench: &Bench) -> String {
    let vl = u128::from(bench.vl);
    let mut text = String::new();
    for cause in Refusal::ALL {
        if !cause.applies(&Right, bench) {
            continue;
        }
        let what = match cause {
            Refusal::VectorLength => format!("VL {} is not allowed", bench.vl),
            Refusal::VectorFile => length(bench.z.len(), u128::from(VECTORS) * (vl / 8), "z bytes"),
            Refusal::PredicateFile => {
                length(bench.p.len(), u128::from(PREDICATES) * (vl / 64), "p bytes")
            }
            Refusal::Scalars => length(bench.x.len(), SCALARS as u128, "scalars"),
            Refusal::FlashLimit => "flash is over its limit".to_string(),
            Refusal::RamLimit => "RAM is over its limit".to_string(),
            Refusal::FlashRights => "flash has not one rights byte per page begun".to_string(),
            Refusal::RamRights => "RAM has not one rights byte per page begun".to_string(),
            Refusal::FlashStart => "flash does not start at a page".to_string(),
            Refusal::RamStart => "RAM does not start at a page".to_string(),
            Refusal::FlashEnd => "flash runs over 2^64".to_string(),
            Refusal::RamEnd => "RAM runs over 2^64".to_string(),
            Refusal::Overlap => "flash and RAM share an address".to_string(),
        };
        let _ = writeln!(text, "  wrong: {what}");
    }
    text
}

fn length(is: usize, should: u128, what: &str) -> String {
    format!("{is} {what}, should be {should}")
}

/// An answer in short: its name, and what it carries if that is not nothing.
pub fn report_in_short(report: &Report) -> String {
    let Report {
        answer,
        count,
        element,
        address,
    } = *report;
    let mut text = format!("{answer} {}, count {count}", Answer::name(answer));
    if (element, address) != (0, 0) || answer >= Answer::NoMemory.number() {
        text += &format!(", element {element}, address {address:#x}");
    }
    text
}

/// Where two outcomes of a case differ: one line for the reports, then lanes, then scalars.
pub fn differences(case: &Case, names: [&str; 2], outcomes: [&Outcome; 2]) -> Vec<String> {
    let mut lines = Vec::new();
    let [a, b] = outcomes;
    let [name_a, name_b] = names;
    if a.report != b.report {
        let (a, b) = (report_in_short(&a.report), report_in_short(&b.report));
        lines.push(format!("{name_a}: {a}; {name_b}: {b}"));
    }
    for (what, range) in lanes_that_differ(case, &a.z, &b.z) {
        let (a, b) = (hex(&a.z, &range), hex(&b.z, &range));
        lines.push(format!("{what}: {name_a} {a}, {name_b} {b}"));
    }
    for (number, (a, b)) in a.x.iter().zip(&b.x).enumerate() {
        if a != b {
            let what = scalar_name(number);
            lines.push(format!("{what}: {name_a} {a:#x}, {name_b} {b:#x}"));
        }
    }
    lines
}

/// The differences, not more than a page of them.
pub fn differences_in_words(case: &Case, names: [&str; 2], outcomes: [&Outcome; 2]) -> String {
    let lines = differences(case, names, outcomes);
    let mut text = String::new();
    for line in lines.iter().take(LISTED) {
        let _ = writeln!(text, "  {line}");
    }
    if lines.len() > LISTED {
        let _ = writeln!(text, "  and {} differences more", lines.len() - LISTED);
    }
    text
}

/// An outcome: its report, and what it changed.
pub fn outcome_in_words(case: &Case, outcome: &Outcome) -> String {
    let before = Outcome {
        report: outcome.report,
        z: case.bench.z.clone(),
        x: case.bench.x.clone(),
    };
    let changes = differences_in_words(case, ["before", "after"], [&before, outcome]);
    format!("  {}\n{changes}", report_in_short(&outcome.report))
}

fn scalar_name(number: usize) -> String {
    match number {
        PC => "pc".to_string(),
        SP => "sp".to_string(),
        _ => format!("x{number}"),
    }
}

/// The lanes of the vector file with a differing byte, at the load's lane size.
fn lanes_that_differ(case: &Case, a: &[u8], b: &[u8]) -> Vec<(String, std::ops::Range<usize>)> {
    let lane_bytes = load_of(case).map_or(1, |load| (load.esize / 8) as usize);
    let register_bytes = (case.bench.vl / 8).clamp(1, 65_536) as usize;
    let mut found = Vec::new();
    for first in (0..a.len().min(b.len())).step_by(lane_bytes) {
        let range = first..(first + lane_bytes).min(a.len()).min(b.len());
        if a[range.clone()] != b[range.clone()] {
            let register = first / register_bytes;
            let lane = first % register_bytes / lane_bytes;
            found.push((format!("z{register} lane {lane}"), range));
        }
    }
    found
}

/// A lane's bytes as a number, highest byte first.
fn hex(bytes: &[u8], range: &std::ops::Range<usize>) -> String {
    let digits: String = bytes[range.clone()]
        .iter()
        .rev()
        .map(|byte| format!("{byte:02x}"))
        .collect();
    format!("0x{digits}")
}
