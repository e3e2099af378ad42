//! How the bytes of a stream become questions, and why a stream ends the run ("Bad input" in CASES.md).

use std::fmt;
use std::io::{self, Read};

use crate::cases::{Case, HEAD, LAST_LEVEL, MAGIC};
use crate::machine::{Area, Bench};
use crate::questions::{Kind, Question};

/// Why a stream of cases ends the run.
#[derive(Debug)]
pub enum BadInput {
    EndsInside,
    Magic([u8; 4]),
    Flags(u32),
    Kind(u8),
    Level(u32),
    TooLong {
        what: &'static str,
        length: u64,
        limit: u64,
    },
    Io(io::Error),
}

impl fmt::Display for BadInput {
    fn fmt(&self, f: &mut fmt::Formatter) -> fmt::Result {
        match self {
            BadInput::EndsInside => write!(f, "the stream ends inside the case"),
            BadInput::Magic(magic) => {
                let [a, b, c, d] = magic;
                write!(f, "wrong magic {a:02X} {b:02X} {c:02X} {d:02X}")
            }
            BadInput::Flags(flags) => write!(f, "flags {flags:#x} have a bit that means nothing"),
            BadInput::Kind(kind) => write!(f, "kind {kind} means nothing here"),
            BadInput::Level(level) => write!(f, "no layout for level {level} here"),
            BadInput::TooLong {
                what,
                length,
                limit,
            } => write!(f, "{what} is {length}, the most is {limit}"),
            BadInput::Io(error) => write!(f, "cannot read: {error}"),
        }
    }
}

impl From<io::Error> for BadInput {
    fn from(error: io::Error) -> BadInput {
        if error.kind() == io::ErrorKind::UnexpectedEof {
            BadInput::EndsInside
        } else {
            BadInput::Io(error)
        }
    }
}

/// Bits 0 to 2 are the switches, bits 8 to 15 the kind; "other bits zero".
const FLAGS: u32 = 0x0000_FF07;

/// "The program keeps small buffers": the most of each length, in the order in which they are read.
const LIMITS: [(&str, u64); 7] = [
    ("z_len", 65_536),
    ("p_len", 4_096),
    ("x_count", 128),
    ("flash_len", 131_072),
    ("flash_rights_len", 64),
    ("ram_len", 131_072),
    ("ram_rights_len", 64),
];
const BLOB_LIMIT: (&str, u64) = ("blob_len", 65_536);

impl Question {
    /// Reads the next case of any kind; none when the stream ends before its first byte.
    pub fn read(from: &mut impl Read) -> Result<Option<Question>, BadInput> {
        let mut magic = MAGIC;
        match read_most(from, &mut magic)? {
            0 => Ok(None),
            4 if magic == MAGIC => read_behind_magic(from).map(Some),
            4 => Err(BadInput::Magic(magic)),
            _ => Err(BadInput::EndsInside),
        }
    }
}

impl Case {
    /// Reads the next case where only steps are asked for.
    pub fn read(from: &mut impl Read) -> Result<Option<Case>, BadInput> {
        match Question::read(from)? {
            Some(question) if question.kind != Kind::Step => {
                Err(BadInput::Kind(question.kind.number()))
            }
            question => Ok(question.map(|question| question.lent)),
        }
    }
}

/// A head is read whole before anything in it is judged: where it is cut, the stream ends inside.
fn read_behind_magic(from: &mut impl Read) -> Result<Question, BadInput> {
    let mut head = [0; HEAD - MAGIC.len()];
    from.read_exact(&mut head)?;
    let mut head = &head[..];
    let [word, flags, level] = [
        read_u32(&mut head)?,
        read_u32(&mut head)?,
        read_u32(&mut head)?,
    ];
    let kind = check_settings(flags, level)?;
    let settings = read_numbers(&mut head)?;
    let lengths = read_numbers(&mut head)?;
    let (numbers, blob) = match kind {
        Kind::Step => ([0; 4], 0),
        _ => longer_head(from)?,
    };
    let lengths = check_lengths(lengths)?;
    let blob = check_length(blob, BLOB_LIMIT)?;
    Ok(Question {
        kind,
        lent: Case {
            word,
            level,
            bench: read_parts(from, flags, settings, lengths)?,
        },
        numbers,
        blob: read_bytes(from, blob)?,
    })
}

/// Flag bits, then the kind, then the level.
fn check_settings(flags: u32, level: u32) -> Result<Kind, BadInput> {
    if flags & !FLAGS != 0 {
        return Err(BadInput::Flags(flags));
    }
    let kind = (flags >> 8) as u8;
    let kind = Kind::of(kind).ok_or(BadInput::Kind(kind))?;
    if level > LAST_LEVEL {
        return Err(BadInput::Level(level));
    }
    Ok(kind)
}

/// "four numbers of 8 bytes `a0` to `a3` and `blob_len`, 8 bytes"
fn longer_head(from: &mut impl Read) -> io::Result<([u64; 4], u64)> {
    let [a0, a1, a2, a3, blob] = read_numbers(from)?;
    Ok(([a0, a1, a2, a3], blob))
}

fn check_lengths(lengths: [u64; 7]) -> Result<[usize; 7], BadInput> {
    let mut checked = [0; 7];
    for (checked, (length, limit)) in checked.iter_mut().zip(lengths.into_iter().zip(LIMITS)) {
        *checked = check_length(length, limit)?;
    }
    Ok(checked)
}

fn check_length(length: u64, (what, limit): (&'static str, u64)) -> Result<usize, BadInput> {
    if length > limit {
        return Err(BadInput::TooLong {
            what,
            length,
            limit,
        });
    }
    Ok(length as usize)
}

fn read_parts(
    from: &mut impl Read,
    flags: u32,
    [vl, flash_start, ram_start]: [u64; 3],
    [z, p, x, flash, flash_rights, ram, ram_rights]: [usize; 7],
) -> io::Result<Bench> {
    Ok(Bench {
        simd: flags & 1 != 0,
        sve: flags & 2 != 0,
        f64mm: flags & 4 != 0,
        vl,
        z: read_bytes(from, z)?,
        p: read_bytes(from, p)?,
        x: numbers(&read_bytes(from, 8 * x)?),
        flash: read_area(from, flash_start, flash, flash_rights)?,
        ram: read_area(from, ram_start, ram, ram_rights)?,
    })
}

fn read_area(from: &mut impl Read, start: u64, bytes: usize, rights: usize) -> io::Result<Area> {
    Ok(Area {
        start,
        bytes: read_bytes(from, bytes)?,
        rights: read_bytes(from, rights)?,
    })
}

pub(crate) fn numbers(bytes: &[u8]) -> Vec<u64> {
    let number =
        |chunk: &[u8]| (chunk.iter().rev()).fold(0, |number, byte| number << 8 | u64::from(*byte));
    bytes.chunks(8).map(number).collect()
}

pub(crate) fn read_bytes(from: &mut impl Read, length: usize) -> io::Result<Vec<u8>> {
    let mut bytes = vec![0; length];
    from.read_exact(&mut bytes)?;
    Ok(bytes)
}

fn read_u32(from: &mut impl Read) -> io::Result<u32> {
    let mut bytes = [0; 4];
    from.read_exact(&mut bytes)?;
    Ok(u32::from_le_bytes(bytes))
}

pub(crate) fn read_numbers<const N: usize>(from: &mut impl Read) -> io::Result<[u64; N]> {
    let mut out = [0; N];
    for number in &mut out {
        let mut bytes = [0; 8];
        from.read_exact(&mut bytes)?;
        *number = u64::from_le_bytes(bytes);
    }
    Ok(out)
}

/// Reads until the buffer is full or the stream ends.
fn read_most(from: &mut impl Read, buffer: &mut [u8]) -> io::Result<usize> {
    let mut got = 0;
    while got < buffer.len() {
        match from.read(&mut buffer[got..]) {
            Ok(0) => break,
            Ok(more) => got += more,
            Err(error) if error.kind() == io::ErrorKind::Interrupted => {}
            Err(error) => return Err(error),
        }
    }
    Ok(got)
}
