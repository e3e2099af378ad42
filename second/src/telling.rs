//! Questions of every kind, their replies and what differs, in words; steps are told as `describe.rs`
//! has them.

use crate::cases::Case;
use crate::describe::{
    area_in_words, case_in_words, differences_in_words, report_in_short, wrongs_in_words,
};
use crate::loads::Report;
use crate::questions::{Kind, Question, Reply};
use crate::windows::{AS_DOUBLE, AS_SINGLE, AS_WHOLE};

/// The answers of the address window and of the lane window.
pub const PLACES: [&str; 3] = ["empty", "flash", "RAM"];
pub const LANES: [&str; 4] = ["no such lane", "whole", "single", "double"];

/// A question: what is asked, and of what is lent that which matters for it.
pub fn question_in_words(question: &Question) -> String {
    match question.kind {
        Kind::Step => case_in_words(&question.lent),
        Kind::AddressWindow => {
            let bench = &question.lent.bench;
            let asked = format!("  address window: address {:#x}\n", question.numbers[0]);
            asked
                + &area_in_words("flash", &bench.flash)
                + &area_in_words("RAM", &bench.ram)
                + &wrongs_in_words(bench)
        }
        Kind::LaneWindow => lane_in_words(&question.lent, question.numbers),
    }
}

fn lane_in_words(lent: &Case, [register, way, width, lane]: [u64; 4]) -> String {
    let way = match way {
        AS_WHOLE => "whole".to_string(),
        AS_SINGLE => "single".to_string(),
        AS_DOUBLE => "double".to_string(),
        _ => format!("way {way}, which is none"),
    };
    let bench = &lent.bench;
    format!(
        "  lane window: register {register}, as {way}, {width} bits, lane {lane}\n  \
         VL {} bits, {} bytes of the vector file\n{}",
        bench.vl,
        bench.z.len(),
        wrongs_in_words(bench)
    )
}

/// The answer of a window in short; the numbers that it leaves at 0 are told where they are not.
pub fn window_in_short(kind: Kind, report: &Report) -> String {
    let Report {
        answer,
        count,
        element,
        address,
    } = *report;
    let (names, what) = match kind {
        Kind::AddressWindow => (&PLACES[..], format!("offset {count}, length {element}")),
        _ => (&LANES[..], format!("bits {count:#x}, element {element}")),
    };
    let name = names.get(usize::from(answer)).unwrap_or(&"no such answer");
    format!("{answer} {name}, {what}, address {address:#x}")
}

/// A reply in short: what was answered, and what it carries.
pub fn reply_in_short(kind: Kind, reply: &Reply) -> String {
    match reply {
        Reply::Step(outcome) => report_in_short(&outcome.report),
        Reply::Window { report, out_len } => {
            let short = window_in_short(kind, report);
            match out_len {
                0 => short,
                _ => format!("{short}, and {out_len} bytes more"),
            }
        }
    }
}

/// Where two replies to a question differ.
pub fn replies_that_differ(question: &Question, names: [&str; 2], replies: [&Reply; 2]) -> String {
    if let [Reply::Step(a), Reply::Step(b)] = replies {
        return differences_in_words(&question.lent, names, [a, b]);
    }
    let [a, b] = replies.map(|reply| reply_in_short(question.kind, reply));
    if a == b {
        return String::new();
    }
    format!("  {}: {a}; {}: {b}\n", names[0], names[1])
}
