//! The bytes of cases of every kind, with one field bent, cut, or with lengths and nothing else.

use crate::cases::{Case, HEAD};
use crate::questions::{Kind, Question, LONGER_HEAD};

/// The lengths of a head: name, place, and the most that is taken.
pub const LENGTHS: [(&str, usize, u64); 7] = [
    ("z_len", 40, 65_536),
    ("p_len", 48, 4_096),
    ("x_count", 56, 128),
    ("flash_len", 64, 131_072),
    ("flash_rights_len", 72, 64),
    ("ram_len", 80, 131_072),
    ("ram_rights_len", 88, 64),
];
/// The last of a longer head.
pub const BLOB_LEN: (&str, usize, u64) = ("blob_len", 128, 65_536);
/// Where a head has its flags and its level.
pub const FLAGS: usize = 8;
pub const LEVEL: usize = 12;

/// A case as a question of this kind: a window asks for something that it mostly finds.
pub fn bytes(case: &Case, kind: Kind) -> Vec<u8> {
    let numbers = match kind {
        Kind::Step => [0; 4],
        Kind::AddressWindow => [case.bench.flash.start.wrapping_add(1), 5, 6, 7],
        Kind::LaneWindow => [17, 0, 16, 3],
    };
    let blob = match kind {
        Kind::Step => Vec::new(),
        _ => vec![0x5B; 20],
    };
    let mut bytes = Vec::new();
    Question {
        kind,
        lent: case.clone(),
        numbers,
        blob,
    }
    .write(&mut bytes);
    bytes
}

pub fn bent(case: &[u8], at: usize, number: u32) -> Vec<u8> {
    let mut bent = case.to_vec();
    bent[at..at + 4].copy_from_slice(&number.to_le_bytes());
    bent
}

pub fn with_length(mut case: Vec<u8>, at: usize, length: u64) -> Vec<u8> {
    case[at..at + 8].copy_from_slice(&length.to_le_bytes());
    case
}

fn head_of(kind: Kind) -> usize {
    match kind {
        Kind::Step => HEAD,
        _ => LONGER_HEAD,
    }
}

/// Where a case of this kind is cut: in the head, at its end, in each part and just before its end.
pub fn cuts(kind: Kind, case: &[u8]) -> Vec<usize> {
    let mut end = head_of(kind);
    let mut cuts = vec![1, 3, 4, 50, HEAD - 1, end];
    if kind != Kind::Step {
        cuts.extend([HEAD, HEAD + 1, end - 1]);
    }
    for (name, at, _) in LENGTHS {
        let mut number = [0; 8];
        number.copy_from_slice(&case[at..at + 8]);
        let length = u64::from_le_bytes(number) as usize;
        let size = if name == "x_count" { 8 } else { 1 };
        end += size * length;
        cuts.push(end - 1);
        if end < case.len() {
            cuts.push(end);
        }
    }
    if end < case.len() {
        cuts.extend([(end + case.len()) / 2, case.len() - 1]);
    }
    // The last byte of a part of one byte is the end of the part before it
    cuts.sort_unstable();
    cuts.dedup();
    cuts
}

/// A case with one length as given and nothing else in it: whole, unless the length is over its limit.
pub fn only(kind: Kind, at: usize, length: u64) -> Vec<u8> {
    let mut case = vec![0; head_of(kind)];
    case[..4].copy_from_slice(b"KKJ1");
    case[FLAGS + 1] = kind.number();
    case = with_length(case, at, length);
    let unit = if at == 56 { 8 } else { 1 };
    let bytes = length.saturating_mul(unit).min(200_000) as usize;
    case.resize(case.len() + bytes, 0);
    case
}

/// A case with every length at its limit.
pub fn longest(kind: Kind) -> Vec<u8> {
    let mut case = only(kind, 40, 0);
    let blob = (kind != Kind::Step).then_some(BLOB_LEN);
    let mut bytes = 0;
    for (name, at, most) in LENGTHS.into_iter().chain(blob) {
        case = with_length(case, at, most);
        bytes += if name == "x_count" { 8 * most } else { most };
    }
    let head = case.len();
    case.resize(head + bytes as usize, 0xA7);
    case
}
