//! Streams that are broken in one place: what CASES.md says under "Bad input". Each begins with good
//! cases of mixed kinds, whose outcomes must stand; nothing may be written for the broken one, and one
//! line says which it is and why. Number and cause are known from how a stream is made: nobody is asked.

mod bytes;

use crate::cases::{Case, HEAD};
use crate::generate;
use crate::questions::{Kind, LONGER_HEAD};
use bytes::{bent, bytes, cuts, longest, only, with_length, BLOB_LEN, FLAGS, LENGTHS, LEVEL};

/// A stream: good cases, and perhaps something broken behind them.
pub struct Broken {
    pub what: String,
    /// The bytes of the good cases, and how many these are.
    pub good: Vec<u8>,
    pub cases: u64,
    pub broken: Option<Last>,
}

/// What ends the run: its bytes, and the word of the cause that must be told.
pub struct Last {
    pub bytes: Vec<u8>,
    pub cause: &'static str,
}

impl Broken {
    pub fn bytes(&self) -> Vec<u8> {
        let last = self.broken.as_ref().map_or(&[][..], |last| &last.bytes);
        [&self.good, last].concat()
    }
}

const ENDS: &str = "ends inside";

/// How many cases the longest stream has in front: more than any buffer holds.
const MANY: u64 = 20_000;

/// Every cause, for each length the most that is taken and one more, the longest cases of all, and more
/// cases than a buffer holds.
pub fn streams(seed: u64) -> Vec<Broken> {
    let mut maker = Maker::new(seed);
    maker.whole("nothing at all", 0, &[]);
    maker.whole("nothing but good cases", 4, &[]);
    maker.cuts();
    maker.heads();
    maker.orders();
    maker.lengths();
    maker.longest();
    maker.many();
    maker.made
}

/// Makes the streams one after the other out of the same few cases.
struct Maker {
    /// Small good cases of mixed kinds.
    front: Vec<Vec<u8>>,
    /// A case whose parts all have some bytes, as a step and as each window.
    full: Vec<(Kind, Vec<u8>)>,
    made: Vec<Broken>,
}

impl Maker {
    fn new(seed: u64) -> Maker {
        let small = first(seed, |case| case.size() < 2_000);
        let kinds = [
            Kind::Step,
            Kind::AddressWindow,
            Kind::LaneWindow,
            Kind::Step,
            Kind::LaneWindow,
        ];
        let full = first(seed, |case| all_parts(case) && case.size() < 8_000);
        Maker {
            front: kinds.map(|kind| bytes(&small, kind)).to_vec(),
            full: Kind::ALL.map(|kind| (kind, bytes(&full, kind))).to_vec(),
            made: Vec::new(),
        }
    }

    /// The first cases of the front, and then another one that is good too.
    fn whole(&mut self, what: impl Into<String>, front: usize, more: &[u8]) {
        let mut good = self.front[..front].concat();
        good.extend(more);
        self.made.push(Broken {
            what: what.into(),
            good,
            cases: front as u64 + u64::from(!more.is_empty()),
            broken: None,
        });
    }

    /// The first cases of the front, and then one that ends the run.
    fn broken(&mut self, what: impl Into<String>, front: usize, bytes: &[u8], cause: &'static str) {
        self.made.push(Broken {
            what: what.into(),
            good: self.front[..front].concat(),
            cases: front as u64,
            broken: Some(Last {
                bytes: bytes.to_vec(),
                cause,
            }),
        });
    }

    /// In the head, at its end, in each part and just before the case's end.
    fn cuts(&mut self) {
        for (kind, case) in self.full.clone() {
            for cut in cuts(kind, &case) {
                let what = format!("{} cut at {cut}", kind.name());
                self.broken(what, 3, &case[..cut], ENDS);
            }
        }
    }

    /// One field of a head that means nothing, or just does.
    fn heads(&mut self) {
        let (_, step) = self.full[0].clone();
        let (_, window) = self.full[1].clone();
        self.broken("a wrong magic", 0, &bent(&step, 0, MAGIC_2), "magic");
        self.broken(
            "a wrong magic later",
            4,
            &bent(&window, 0, MAGIC_2),
            "magic",
        );
        self.broken("a wrong magic alone", 2, b"KKJ2", "magic");
        for bit in [3, 4, 5, 6, 7, 16, 31] {
            let flags = 1_u32 << bit;
            let what = format!("flag bit {bit}");
            self.broken(&what, 4, &bent(&step, FLAGS, flags), "flag");
            let what = format!("{what} of a window");
            self.broken(what, 1, &bent(&window, FLAGS, flags | 2 << 8), "flag");
        }
        for kind in [1, 4, 5, 9, 10, 128, 255] {
            let what = format!("kind {kind}");
            self.broken(what, 3, &bent(&window, FLAGS, kind << 8), "kind");
        }
        self.whole("all three flags", 4, &bent(&step, FLAGS, 7));
        for (case, what) in [(&step, "a step"), (&window, "a window")] {
            for level in 0..=4 {
                let what = format!("level {level} of {what}");
                self.whole(what, 1, &bent(case, LEVEL, level));
            }
            for level in [5, 8, 9, 14, 15, u32::MAX] {
                let what = format!("level {level} of {what}");
                self.broken(what, 5, &bent(case, LEVEL, level), "level");
            }
        }
    }

    /// More than one thing is wrong: what is told is the first in the order of the checks.
    fn orders(&mut self) {
        let (_, window) = self.full[1].clone();
        self.broken("three bytes that are no magic", 2, b"abc", ENDS);
        let cut = bent(&window, FLAGS, u32::MAX);
        self.broken("flags in a head that is cut", 2, &cut[..HEAD - 1], ENDS);
        self.broken("flags alone", 2, &cut[..HEAD], "flag");
        let magic = bent(&cut, 0, MAGIC_2);
        self.broken("a magic before flags", 2, &magic, "magic");
        let mut kind = bent(&window, FLAGS, 4 << 8);
        kind = bent(&kind, LEVEL, 5);
        kind = with_length(kind, 40, u64::MAX);
        self.broken("a kind before a level", 2, &kind[..HEAD], "kind");
        let level = bent(&kind, FLAGS, 3 << 8);
        self.broken("a level before a length", 2, &level[..HEAD], "level");
        let length = bent(&level, LEVEL, 0);
        let cut = &length[..LONGER_HEAD - 1];
        self.broken("a length in a head that is cut", 2, cut, ENDS);
        self.broken("a length alone", 2, &length[..LONGER_HEAD], "z_len");
        for pair in LENGTHS.windows(2) {
            let ((name, at, most), (later, behind, _)) = (pair[0], pair[1]);
            let mut both = with_length(window.clone(), behind, u64::MAX);
            both = with_length(both, BLOB_LEN.1, u64::MAX);
            both = with_length(both, at, most + 1);
            self.broken(format!("{name} before {later}"), 2, &both, name);
        }
    }

    /// Each length alone: the most that is taken, one more, and far more.
    fn lengths(&mut self) {
        for kind in Kind::ALL {
            let blob = (kind != Kind::Step).then_some(BLOB_LEN);
            for (name, at, most) in LENGTHS.into_iter().chain(blob) {
                let what = |length| format!("{} with {name} {length}", kind.name());
                self.whole(what(most), 3, &only(kind, at, most));
                for length in [most + 1, u64::MAX] {
                    self.broken(what(length), 3, &only(kind, at, length), name);
                }
            }
        }
    }

    /// Every length at its limit at once, and the same one byte short.
    fn longest(&mut self) {
        for kind in Kind::ALL {
            let case = longest(kind);
            self.whole(format!("the longest {}", kind.name()), 2, &case);
            let what = format!("the longest {} but for a byte", kind.name());
            self.broken(what, 2, &case[..case.len() - 1], ENDS);
        }
    }

    /// Small cases of mixed kinds, so many that no buffer holds them, and then a broken one.
    fn many(&mut self) {
        let mut good = Vec::new();
        for number in 0..MANY {
            let kind = Kind::ALL[(number % 3) as usize];
            let mut case = only(kind, 40, 0);
            // A window is asked for another number each time; now and then there is something to show
            if kind != Kind::Step {
                case[HEAD..HEAD + 8].copy_from_slice(&number.to_le_bytes());
            }
            good.extend(case);
            if number % 1_000 == 999 {
                good.extend(&self.front[(number / 1_000 % 5) as usize]);
            }
        }
        self.made.push(Broken {
            what: "a wrong magic behind many cases".to_string(),
            good,
            cases: MANY + MANY / 1_000,
            broken: Some(Last {
                bytes: b"KKJ0".to_vec(),
                cause: "magic",
            }),
        });
    }
}

const MAGIC_2: u32 = u32::from_le_bytes(*b"KKJ2");

/// The first case of a seed that has what is wanted.
fn first(seed: u64, wanted: impl Fn(&Case) -> bool) -> Case {
    let mut numbers = 0..;
    loop {
        let case = generate::case(seed, numbers.next().unwrap_or(0));
        if wanted(&case) {
            return case;
        }
    }
}

/// Whether all parts of a case have some bytes.
fn all_parts(case: &Case) -> bool {
    let (flash, ram) = (&case.bench.flash, &case.bench.ram);
    !(flash.is_empty() || ram.is_empty() || case.bench.z.is_empty() || case.bench.p.is_empty())
        && !(flash.rights.is_empty() || ram.rights.is_empty() || case.bench.x.is_empty())
}
