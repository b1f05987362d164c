//! A writer and a reader of bits in plain Rust.

/// A writer of numbers, one after another, the most significant bit of each first.
pub struct BitWriter {
    bytes: Vec<u8>,
    part: u64,
    held: u32,
}

impl BitWriter {
    pub fn new() -> BitWriter {
        BitWriter {
            bytes: Vec::new(),
            part: 0,
            held: 0,
        }
    }

    /// Appends the `n` bits of a number below 2^n; `n` is at most 64.
    #[inline]
    pub fn push(&mut self, bits: u64, n: u32) {
        let free = 64 - self.held;
        if n < free {
            self.part = self.part << n | bits;
            self.held += n;
        } else {
            let rest = n - free;
            let high = if self.held == 0 { 0 } else { self.part << free };
            let word = high | bits >> rest;
            self.bytes.extend_from_slice(&word.to_be_bytes());
            self.part = bits;
            self.held = rest;
        }
    }

    /// Appends zeros and a one.
    #[inline]
    pub fn push_unary(&mut self, mut zeros: u64) {
        while zeros >= 64 {
            self.push(0, 64);
            zeros -= 64;
        }
        self.push(1, zeros as u32 + 1);
    }

    /// Returns the bytes, the last filled with zeros.
    pub fn into_bytes(mut self) -> Vec<u8> {
        let fill = (8 - self.held % 8) % 8;
        self.push(0, fill);
        if self.held > 0 {
            let word = (self.part << (64 - self.held)).to_be_bytes();
            self.bytes
                .extend_from_slice(&word[..self.held as usize / 8]);
        }
        self.bytes
    }
}

/// The refusal of bits that end too early or are no lawful code.
#[derive(Debug)]
pub struct Refused;

/// A reader of numbers, one after another.
pub struct BitReader<'a> {
    bytes: &'a [u8],
    at: u64,
}

impl<'a> BitReader<'a> {
    pub fn new(bytes: &'a [u8]) -> BitReader<'a> {
        BitReader { bytes, at: 0 }
    }

    /// Returns a word whose 57 or more highest bits are the next ones, with zeros after the last byte.
    #[inline]
    pub fn window(&self) -> u64 {
        let rest = &self.bytes[(self.at / 8) as usize..];
        let word = match rest.first_chunk::<8>() {
            Some(eight) => u64::from_be_bytes(*eight),
            None => {
                let mut eight = [0; 8];
                eight[..rest.len()].copy_from_slice(rest);
                u64::from_be_bytes(eight)
            }
        };
        word << (self.at % 8)
    }

    /// Skips so many bits.
    #[inline]
    pub fn skip(&mut self, n: u64) -> Result<(), Refused> {
        if self.bytes.len() as u64 * 8 - self.at < n {
            return Err(Refused);
        }
        self.at += n;
        Ok(())
    }

    /// Takes a number of at most 56 bits.
    #[inline]
    pub fn take(&mut self, n: u32) -> Result<u64, Refused> {
        let number = self.window() >> 1 >> (63 - n);
        self.skip(u64::from(n))?;
        Ok(number)
    }

    /// Takes zeros and the one after them, and returns the number of zeros; more than `most` are refused.
    #[inline]
    pub fn take_unary(&mut self, most: u64) -> Result<u64, Refused> {
        let mut zeros = 0;
        loop {
            let run = u64::from(self.window().leading_zeros());
            let known = 64 - self.at % 8;
            if run < known {
                zeros += run;
                self.skip(run + 1)?;
                return if zeros > most {
                    Err(Refused)
                } else {
                    Ok(zeros)
                };
            }
            zeros += known;
            self.skip(known)?;
            if zeros > most {
                return Err(Refused);
            }
        }
    }
}
