//! Synthetic numbers, the same as in `crates/speed/src/synthetic.rt`.

/// A linear congruential generator of 64 bits, whose highest bits are its numbers.
pub struct Generator {
    state: u64,
}

impl Generator {
    pub fn new() -> Generator {
        Generator::seeded(0)
    }

    /// Returns the generator of a seed.
    pub fn seeded(seed: u64) -> Generator {
        Generator {
            state: 0x9E37_79B9_7F4A_7C15 ^ seed,
        }
    }

    /// Returns the next number of so many bits.
    pub fn number(&mut self, bits: u32) -> u16 {
        self.state = self
            .state
            .wrapping_mul(6_364_136_223_846_793_005)
            .wrapping_add(1_442_695_040_888_963_407);
        let high = (self.state >> 48) as u16;
        high >> (16 - bits)
    }
}

/// Returns so many residuals of at most twelve bits. The high part is the number of leading zeros of a random word, and
/// the low part has one to four random bits; their number changes every 4,096 residuals, and every eighth such stretch
/// consists of zeros.
pub fn residuals(count: usize) -> Vec<u16> {
    let mut generator = Generator::new();
    (0..count)
        .map(|i| {
            let quotient = generator.number(16).leading_zeros();
            let low = generator.number(5) >> ((i >> 12) % 4 + 1);
            if (i >> 12) % 8 == 7 {
                0
            } else {
                (quotient << 4) as u16 | low
            }
        })
        .collect()
}

/// Returns a checksum with one more number mixed in.
pub fn mixed(checksum: u64, number: u64) -> u64 {
    checksum.rotate_left(5).wrapping_add(number)
}

/// Returns the checksum of bytes.
pub fn sum_of_bytes(bytes: &[u8]) -> u64 {
    bytes
        .iter()
        .fold(0, |sum, byte| mixed(sum, u64::from(*byte)))
}
