//! The sample-adaptive coder in plain Rust, and a measurement of its speed.

use crate::bits::{BitReader, BitWriter, Refused};
use crate::report::Report;
use crate::synthetic::{mixed, residuals, sum_of_bytes};
use std::hint::black_box;
use std::time::Instant;

/// The statistics of a band, and the parameters that all bands share.
pub struct Stats {
    bits: u32,
    umax: u32,
    gamma_star: u32,
    counter: u32,
    accumulator: u32,
}

impl Stats {
    pub fn new(bits: u32, umax: u32, gamma_star: u32, gamma_zero: u32, constant: u32) -> Stats {
        let counter = 1 << gamma_zero;
        Stats {
            bits,
            umax,
            gamma_star,
            counter,
            accumulator: ((3 << (constant + 6)) - 49) * counter / 128,
        }
    }

    /// Returns the code parameter k of the next residual.
    #[inline]
    fn parameter(&self) -> u32 {
        let level = self.accumulator + 49 * self.counter / 128;
        if level < 2 * self.counter {
            return 0;
        }
        let shift = self.counter.leading_zeros() - level.leading_zeros();
        let most = if self.counter << shift <= level {
            shift
        } else {
            shift - 1
        };
        most.min(self.bits - 2)
    }

    #[inline]
    fn count(&mut self, number: u16) {
        let sum = self.accumulator + u32::from(number);
        if self.counter < (1 << self.gamma_star) - 1 {
            self.counter += 1;
            self.accumulator = sum;
        } else {
            self.counter = (self.counter + 1) / 2;
            self.accumulator = (sum + 1) / 2;
        }
    }

    #[inline]
    pub fn put(&mut self, first: bool, number: u16, writer: &mut BitWriter) {
        if first {
            writer.push(u64::from(number), self.bits);
            return;
        }
        let k = self.parameter();
        let quotient = u32::from(number) >> k;
        if quotient < self.umax {
            let one = 1u64 << k;
            writer.push(one | (u64::from(number) & (one - 1)), quotient + 1 + k);
        } else {
            writer.push(u64::from(number), self.umax + self.bits);
        }
        self.count(number);
    }

    #[inline]
    pub fn get(&mut self, first: bool, reader: &mut BitReader) -> Result<u16, Refused> {
        if first {
            return Ok(reader.take(self.bits)? as u16);
        }
        let k = self.parameter();
        let window = reader.window();
        let zeros = window.leading_zeros();
        let number = if zeros < self.umax {
            reader.skip(u64::from(zeros + 1 + k))?;
            let low = window << 1 << zeros >> 1 >> (63 - k);
            (u64::from(zeros) << k) + low
        } else {
            reader.skip(u64::from(self.umax))?;
            let number = reader.take(self.bits)?;
            if number >> k < u64::from(self.umax) {
                return Err(Refused);
            }
            number
        };
        if number >> self.bits != 0 {
            return Err(Refused);
        }
        self.count(number as u16);
        Ok(number as u16)
    }
}

fn stats() -> Stats {
    // Hides the parameters from the optimizer, since a real program learns them when it runs.
    let (bits, umax, gamma_star, gamma_zero, constant) = black_box((12, 18, 6, 1, 5));
    Stats::new(bits, umax, gamma_star, gamma_zero, constant)
}

/// Measures the writing and reading of residuals.
pub fn measure(report: &Report) {
    let count = report.shape().sample_count();
    let numbers = residuals(count);
    let start = Instant::now();
    let mut coder = stats();
    let mut writer = BitWriter::new();
    for (t, number) in numbers.iter().enumerate() {
        coder.put(t == 0, *number, &mut writer);
    }
    let body = writer.into_bytes();
    report.line("sample_encode", count, start, || sum_of_bytes(&body));
    let start = Instant::now();
    let mut coder = stats();
    let mut reader = BitReader::new(&body);
    let mut sum = 0;
    for t in 0..count {
        let number = coder.get(t == 0, &mut reader).expect("the numbers again");
        sum = mixed(sum, u64::from(number));
    }
    report.line("sample_decode", count, start, || sum);
}
