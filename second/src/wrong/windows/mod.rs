//! Deliberately wrong windows: each does something of its own with the right window's help, the address
//! window in `places.rs`, the lane window in `lanes.rs`.

mod lanes;
mod places;

use crate::loads::Report;
use crate::machine::{accepted, Bench, Refusal};
use crate::questions::{Kind, Question};
use crate::rules::{Right, Rules};
use crate::windows::{AS_DOUBLE, AS_SINGLE, AS_WHOLE};

/// A wrong window, which is right for questions of another kind than its own.
pub struct WindowVariant {
    pub name: &'static str,
    kind: Kind,
    how: fn(&Question) -> Report,
}

impl WindowVariant {
    pub fn window(&self, question: &Question) -> Report {
        if question.kind == self.kind {
            (self.how)(question)
        } else {
            question.window()
        }
    }
}

const fn address(name: &'static str, how: fn(&Question) -> Report) -> WindowVariant {
    WindowVariant {
        name,
        kind: Kind::AddressWindow,
        how,
    }
}

const fn lane(name: &'static str, how: fn(&Question) -> Report) -> WindowVariant {
    WindowVariant {
        name,
        kind: Kind::LaneWindow,
        how,
    }
}

/// Every wrong window.
pub const WINDOW_VARIANTS: &[WindowVariant] = &[
    address(
        "the address window asks the read right",
        places::right_asked,
    ),
    address("an address told as its offset", places::offset_from_0),
    address("the length of the other area told", places::other_length),
    address("the length of the whole area told", places::whole_length),
    address("the stretch ends at the page's end", places::length_in_page),
    address("the stretch ends a byte early", places::a_byte_short),
    address("an area's last byte not shown", places::last_byte_hidden),
    address("the byte behind an area shown", places::byte_behind_shown),
    address("touching areas shown as one", places::touching_as_one),
    address("RAM told as flash", places::ram_as_flash),
    address("the address told beside its place", places::address_told),
    address("the start of an empty area shown", places::empty_shown),
    address("refused areas shown", |question| {
        places::found_unless(question, &[])
    }),
    address("an area's limit not asked by the window", |question| {
        places::found_unless_but(question, &[Refusal::FlashLimit, Refusal::RamLimit])
    }),
    address("the number of rights not asked by the window", |question| {
        places::found_unless_but(question, &[Refusal::FlashRights, Refusal::RamRights])
    }),
    address("an area's start not asked by the window", |question| {
        places::found_unless_but(question, &[Refusal::FlashStart, Refusal::RamStart])
    }),
    address("an area's end not asked by the window", |question| {
        places::found_unless_but(question, &[Refusal::FlashEnd, Refusal::RamEnd])
    }),
    address("overlap not asked by the window", |question| {
        places::found_unless_but(question, &[Refusal::Overlap])
    }),
    address(
        "the window of flash asks flash alone",
        places::own_area_asked,
    ),
    address("an area that ends at 2^64 not shown", places::top_refused),
    address("touching areas not shown", places::touching_refused),
    address("the address window asks VL", |question| {
        places::empty_if(question, |bench| !Right.vl_allowed(bench.vl))
    }),
    address("the address window asks the files", |question| {
        let files = [
            Refusal::VectorFile,
            Refusal::PredicateFile,
            Refusal::Scalars,
        ];
        places::empty_if(question, |bench| {
            files.iter().any(|file| file.applies(&Right, bench))
        })
    }),
    lane("lanes counted from the high end", lanes::from_high_end),
    lane("registers VL/16 bytes apart", |question| {
        lanes::read_at(question, |[register, _, width, lane], vl| {
            register * vl / 16 + lane * width / 8
        })
    }),
    lane("a single taken from the high half", |question| {
        lanes::read_at(question, |[register, way, width, lane], vl| {
            let high = if way == AS_SINGLE { 4 } else { 0 };
            register * vl / 8 + lane * width / 8 + high
        })
    }),
    lane("the highest byte of a lane first", lanes::bytes_turned),
    lane("a narrow lane sign-extended", lanes::sign_extended),
    lane("a NaN shown as no lane", |question| {
        lanes::on_nan(question, |_| nothing())
    }),
    lane("a NaN shown as a float", |question| {
        lanes::on_nan(question, |report| Report {
            answer: lanes::float_of(question),
            ..report
        })
    }),
    lane("a NaN made quiet", |question| {
        lanes::on_nan(question, |report| Report {
            count: report.count | lanes::quiet_bit(question),
            ..report
        })
    }),
    lane("infinity taken for a NaN", lanes::infinity_as_nan),
    lane("minus zero shown as zero", lanes::minus_zero),
    lane("a subnormal shown as zero", lanes::subnormal),
    lane("a single asked for at 64 bits shown", |question| {
        with(question, |[_, way, width, _]| {
            if (*way, *width) == (AS_SINGLE, 64) {
                *way = AS_DOUBLE;
            }
        })
    }),
    lane("a double asked for at 32 bits shown", |question| {
        with(question, |[_, way, width, _]| {
            if (*way, *width) == (AS_DOUBLE, 32) {
                *way = AS_SINGLE;
            }
        })
    }),
    lane(
        "a float asked for at a narrow width shown as whole",
        |question| {
            with(question, |[_, way, width, _]| {
                if *way <= AS_DOUBLE && *width < 32 {
                    *way = AS_WHOLE;
                }
            })
        },
    ),
    lane("a lane of 128 bits shown", |question| {
        with(question, |[_, _, width, lane]| {
            if *width == 128 {
                *width = 64;
                *lane = lane.wrapping_mul(2);
            }
        })
    }),
    lane("register numbers taken modulo 32", |question| {
        with(question, |[register, ..]| *register %= 32)
    }),
    lane("registers of 32 bits", |question| {
        with(question, |[register, ..]| *register &= 0xFFFF_FFFF)
    }),
    lane("widths of 32 bits", |question| {
        with(question, |[_, _, width, _]| *width &= 0xFFFF_FFFF)
    }),
    lane("lane numbers of 32 bits", |question| {
        with(question, |[.., lane]| *lane &= 0xFFFF_FFFF)
    }),
    lane("lane numbers taken modulo the lanes", |question| {
        let vl = question.lent.bench.vl;
        with(question, |[_, _, width, lane]| {
            *lane %= (vl.checked_div(*width).unwrap_or(0)).max(1)
        })
    }),
    lane("one lane past the last shown", lanes::past_the_last),
    lane("an unknown way of asking taken as whole", |question| {
        with(question, |[_, way, ..]| {
            if *way > AS_DOUBLE {
                *way = AS_WHOLE;
            }
        })
    }),
    lane("lanes above 128 bits not shown", lanes::above_v),
    lane(
        "a whole number of 32 bits shown as a single",
        lanes::whole_as_single,
    ),
    lane("the file's length not asked", lanes::file_not_asked),
    lane("a file that is too long shown", |question| {
        changed(question, |bench| {
            bench.z.truncate((bench.vl.min(4096) * 4) as usize)
        })
    }),
    lane("VL 2,176 shown", |question| {
        lanes::vl_taken(question, |vl| vl == 2176)
    }),
    lane("any multiple of 64 shown as VL", |question| {
        lanes::vl_taken(question, |vl| vl % 64 == 0)
    }),
    lane("the lane window asks the whole set-up", |question| {
        if accepted(&Right, &question.lent.bench) {
            question.window()
        } else {
            nothing()
        }
    }),
];

fn nothing() -> Report {
    Report {
        answer: 0,
        count: 0,
        element: 0,
        address: 0,
    }
}

/// The right window of another question.
fn with(question: &Question, change: impl FnOnce(&mut [u64; 4])) -> Report {
    let mut question = question.clone();
    change(&mut question.numbers);
    question.window()
}

/// The right window of another bench.
fn changed(question: &Question, change: impl FnOnce(&mut Bench)) -> Report {
    let mut question = question.clone();
    change(&mut question.lent.bench);
    question.window()
}
