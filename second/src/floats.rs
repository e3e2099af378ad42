//! The sorts of bit patterns that a single or a double has, by their bits alone.

/// A pattern at the edge of something; the sign is apart from it.
#[derive(Clone, Copy, Debug, PartialEq, Eq, Hash)]
pub enum Sort {
    Zero,
    SmallestSubnormal,
    LargestSubnormal,
    SmallestNormal,
    LargestNormal,
    One,
    Infinity,
    SignallingLowest,
    SignallingHighest,
    QuietLowest,
    QuietHighest,
}

impl Sort {
    pub const ALL: [Sort; 11] = [
        Sort::Zero,
        Sort::SmallestSubnormal,
        Sort::LargestSubnormal,
        Sort::SmallestNormal,
        Sort::LargestNormal,
        Sort::One,
        Sort::Infinity,
        Sort::SignallingLowest,
        Sort::SignallingHighest,
        Sort::QuietLowest,
        Sort::QuietHighest,
    ];

    /// The pattern of a width of 32 or 64 bits.
    pub fn bits(self, width: u64, negative: bool) -> u64 {
        let Format { fraction, exponent } = Format::of(width);
        let infinity = ((1 << exponent) - 1) << fraction;
        let quiet = 1 << (fraction - 1);
        let bits: u64 = match self {
            Sort::Zero => 0,
            Sort::SmallestSubnormal => 1,
            Sort::LargestSubnormal => (1 << fraction) - 1,
            Sort::SmallestNormal => 1 << fraction,
            Sort::LargestNormal => infinity - 1,
            Sort::One => ((1 << (exponent - 1)) - 1) << fraction,
            Sort::Infinity => infinity,
            Sort::SignallingLowest => infinity | 1,
            Sort::SignallingHighest => infinity | (quiet - 1),
            Sort::QuietLowest => infinity | quiet,
            Sort::QuietHighest => infinity | ((1 << fraction) - 1),
        };
        bits | u64::from(negative) << (fraction + exponent)
    }

    /// The sort and the sign of a pattern that is of one.
    pub fn of(width: u64, bits: u64) -> Option<(Sort, bool)> {
        let signs = Sort::ALL.map(|sort| [(sort, false), (sort, true)]);
        let mut all = signs.into_iter().flatten();
        all.find(|(sort, negative)| sort.bits(width, *negative) == bits)
    }
}

/// How many bits the fields of a float have.
struct Format {
    fraction: u32,
    exponent: u32,
}

impl Format {
    fn of(width: u64) -> Format {
        match width {
            32 => Format {
                fraction: 23,
                exponent: 8,
            },
            _ => Format {
                fraction: 52,
                exponent: 11,
            },
        }
    }
}
