//! A small pseudo-random number generator: xoshiro256**, seeded by splitmix64. The same numbers
//! on every machine: only u64 arithmetic, no floats, nothing of the size of a pointer.

pub struct Rng {
    state: [u64; 4],
}

fn splitmix64(state: &mut u64) -> u64 {
    *state = state.wrapping_add(0x9E37_79B9_7F4A_7C15);
    let mut z = *state;
    z = (z ^ (z >> 30)).wrapping_mul(0xBF58_476D_1CE4_E5B9);
    z = (z ^ (z >> 27)).wrapping_mul(0x94D0_49BB_1331_11EB);
    z ^ (z >> 31)
}

impl Rng {
    /// A generator of its own for each number of a seed, so that one case can be made alone.
    pub fn new(seed: u64, number: u64) -> Rng {
        let mut mixed = seed;
        let mut mixed = splitmix64(&mut mixed) ^ number.wrapping_mul(0xD134_2543_DE82_EF95);
        Rng {
            state: std::array::from_fn(|_| splitmix64(&mut mixed)),
        }
    }

    pub fn next_u64(&mut self) -> u64 {
        let s = &mut self.state;
        let result = s[1].wrapping_mul(5).rotate_left(7).wrapping_mul(9);
        let t = s[1] << 17;
        s[2] ^= s[0];
        s[3] ^= s[1];
        s[1] ^= s[2];
        s[0] ^= s[3];
        s[2] ^= t;
        s[3] = s[3].rotate_left(45);
        result
    }

    /// A number below `n`; 0 if n is 0.
    pub fn below(&mut self, n: u64) -> u64 {
        ((u128::from(self.next_u64()) * u128::from(n)) >> 64) as u64
    }

    /// True `parts` times in a thousand.
    pub fn per_mille(&mut self, parts: u64) -> bool {
        self.below(1000) < parts
    }

    pub fn percent(&mut self, parts: u64) -> bool {
        self.per_mille(10 * parts)
    }

    pub fn pick<T: Copy, const N: usize>(&mut self, from: [T; N]) -> T {
        from[self.below(N as u64) as usize]
    }

    /// Both, or both exchanged.
    pub fn in_either_order<T>(&mut self, a: T, b: T) -> (T, T) {
        if self.percent(50) {
            (a, b)
        } else {
            (b, a)
        }
    }

    pub fn fill(&mut self, bytes: &mut [u8]) {
        let mut chunks = bytes.chunks_exact_mut(8);
        for chunk in &mut chunks {
            chunk.copy_from_slice(&self.next_u64().to_le_bytes());
        }
        let rest = chunks.into_remainder();
        let last = self.next_u64().to_le_bytes();
        let length = rest.len();
        rest.copy_from_slice(&last[..length]);
    }

    pub fn bytes(&mut self, length: usize) -> Vec<u8> {
        let mut bytes = vec![0; length];
        self.fill(&mut bytes);
        bytes
    }
}
