//! The three that make the steps.

use std::hint::black_box;

use second::loads::{right_step, Report};
use second::machine::Bench;
use second::plain;

use crate::host::Lent;
use crate::input::Step;

#[derive(Clone, Copy, PartialEq, Eq)]
pub enum Who {
    /// The proved step, out of its static library.
    Proved,
    /// The ordinary interpreter that it is compared with.
    Plain,
    /// The one that follows the pages word by word, for information.
    Pages,
}

impl Who {
    pub const ALL: [Who; 3] = [Who::Proved, Who::Plain, Who::Pages];
    /// Those whose ratio is asked for.
    pub const RATIO: [Who; 2] = [Who::Proved, Who::Plain];

    pub fn name(self) -> &'static str {
        match self {
            Who::Proved => "proved",
            Who::Plain => "plain",
            Who::Pages => "pages",
        }
    }

    pub fn step(self, word: u32, bench: &mut Bench) -> Report {
        match self {
            Who::Proved => {
                let report = Lent::of(bench).step(word);
                Report {
                    // A number over 255 is no answer, whatever its lowest byte says
                    answer: u8::try_from(report.number).unwrap_or(u8::MAX),
                    count: report.count,
                    element: report.element,
                    address: report.address,
                }
            }
            Who::Plain => plain::step(word, bench),
            Who::Pages => right_step(word, bench),
        }
    }

    /// All the steps, so many times over, each after the store of its base.
    pub fn rounds(self, rounds: u64, steps: &[Step], bench: &mut Bench) {
        match self {
            Who::Proved => {
                let mut lent = Lent::of(bench);
                repeat(rounds, steps, move |Step { word, n, base }| {
                    lent.x[n] = base;
                    lent.step(word)
                });
            }
            Who::Plain => repeat(rounds, steps, |Step { word, n, base }| {
                bench.x[n] = base;
                plain::step(word, bench)
            }),
            Who::Pages => repeat(rounds, steps, |Step { word, n, base }| {
                bench.x[n] = base;
                right_step(word, bench)
            }),
        }
    }
}

/// One loop for each of the three. What a step gives is used, so that no compiler leaves it out. And
/// each is a function of its own, so that its code does not change with what is around the call.
#[inline(never)]
fn repeat<T>(rounds: u64, steps: &[Step], mut make: impl FnMut(Step) -> T) {
    for _ in 0..rounds {
        for step in steps {
            let word = black_box(step.word);
            black_box(make(Step { word, ..*step }));
        }
    }
}
