//! Our decoder and disassembler against lines as binutils prints them.

use std::io::{self, BufRead};

use crate::assembly::disassemble;
use crate::decode::{decode, Family};
use crate::rules::Right;

/// How many lines agree, and what is to be said of those that do not.
#[derive(Default)]
pub struct Judged {
    pub lines: u64,
    pub same_family: u64,
    pub loads: u64,
    pub same_text: u64,
    pub disagreements: Vec<String>,
}

/// Reads lines `hhhhhhhh text...` and judges each; empty lines are passed over.
pub fn judge(input: impl BufRead) -> io::Result<Judged> {
    let mut judged = Judged::default();
    for line in input.lines() {
        let line = line?;
        let line = line.trim();
        if !line.is_empty() {
            judge_line(line, &mut judged);
        }
    }
    Ok(judged)
}

fn judge_line(line: &str, judged: &mut Judged) {
    judged.lines += 1;
    let (word, text) = line.split_once(char::is_whitespace).unwrap_or((line, ""));
    let digits = word.len() == 8 && word.bytes().all(|byte| byte.is_ascii_hexdigit());
    let (true, Ok(word)) = (digits, u32::from_str_radix(word, 16)) else {
        judged
            .disagreements
            .push(format!("{line}: no word of eight hexadecimal digits"));
        return;
    };
    let text = normal(text);
    let theirs = family_of_text(&text);
    // A word that is undefined by itself has no text there
    let ours = decode(&Right, word, true).ok().map(|load| load.family);
    if ours == theirs {
        judged.same_family += 1;
    } else {
        let name = |family: Option<Family>| family.map_or("none", Family::name);
        let (ours, theirs) = (name(ours), name(theirs));
        let line = format!("{word:08x} {text}: here {ours}, there {theirs}");
        judged.disagreements.push(line);
        return;
    }
    if let Some(own) = disassemble(word) {
        judged.loads += 1;
        if own == text {
            judged.same_text += 1;
        } else {
            let line = format!("{word:08x} {text}: here {own}");
            judged.disagreements.push(line);
        }
    }
}

/// The text with single spaces and without a comment.
fn normal(text: &str) -> String {
    let text = text.split("//").next().unwrap_or("");
    text.split_whitespace().collect::<Vec<_>>().join(" ")
}

/// Which family a text shows by its mnemonic, its register list and its address.
pub fn family_of_text(text: &str) -> Option<Family> {
    let (mnemonic, operands) = text.split_once(' ')?;
    let (list, address) = operands.split_once('[')?;
    let list = list.trim_start();
    if ["ld1r", "ld2r", "ld3r", "ld4r"].contains(&mnemonic) {
        let no_offset = address.ends_with(']');
        return list.starts_with("{v").then_some(if no_offset {
            Family::LdnrNoOffset
        } else {
            Family::LdnrPostIndex
        });
    }
    let one_register =
        list.starts_with("{z") && !list.contains(['-']) && list.matches('z').count() == 2;
    let scalar_base = address.starts_with('x') || address.starts_with("sp");
    if !one_register || !scalar_base || address.contains(", z") {
        return None;
    }
    family_of_mnemonic(mnemonic, address.contains(", x"))
}

/// `ld1`, then r, rq or ro, then a size that the kind has; scalar or immediate by the address.
fn family_of_mnemonic(mnemonic: &str, scalar: bool) -> Option<Family> {
    let rest = mnemonic.strip_prefix("ld1")?;
    let (kind, size) = match rest {
        _ if rest.starts_with("rq") || rest.starts_with("ro") => rest.split_at(2),
        _ if rest.starts_with('r') => rest.split_at(1),
        _ => ("", rest),
    };
    let signed = ["sb", "sh", "sw"].contains(&size);
    let size_fits = ["b", "h", "w", "d"].contains(&size) || signed && kind.len() < 2;
    if !size_fits {
        return None;
    }
    match (kind, scalar) {
        ("", false) => Some(Family::Ld1Immediate),
        ("", true) => Some(Family::Ld1Scalar),
        ("r", false) => Some(Family::Ld1rElement),
        ("rq", false) => Some(Family::Ld1rqImmediate),
        ("rq", true) => Some(Family::Ld1rqScalar),
        ("ro", false) => Some(Family::Ld1roImmediate),
        ("ro", true) => Some(Family::Ld1roScalar),
        _ => None,
    }
}
