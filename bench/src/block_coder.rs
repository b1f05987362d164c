//! The block-adaptive coder in plain Rust, and a measurement of its speed.

mod reader;
mod writer;

use crate::bits::{BitReader, BitWriter};
use crate::report::Report;
use crate::synthetic::{mixed, residuals, sum_of_bytes};
use std::hint::black_box;
use std::time::Instant;

pub use reader::BlockReader;
pub use writer::BlockWriter;

/// The parameters by which residuals are cut into blocks.
#[derive(Clone, Copy)]
pub struct Cut {
    /// The dynamic range D.
    bits: u32,
    /// The bits of an identifier, which also determine the number of lawful k.
    width: u32,
    size: usize,
    reference: u64,
    count: u64,
}

impl Cut {
    pub fn new(bits: u32, size: usize, reference: u64, numbers: usize) -> Cut {
        Cut {
            bits,
            width: if bits <= 8 { 3 } else { 4 },
            size,
            reference,
            count: numbers.div_ceil(size) as u64,
        }
    }

    /// Returns the same cut with the restricted set of code options, for at most four bits.
    fn restricted(self) -> Cut {
        let width = if self.bits <= 2 { 1 } else { 2 };
        Cut { width, ..self }
    }

    /// Returns the number of blocks from this one to the end of its segment.
    fn left(&self, block: u64) -> u64 {
        let position = block % self.reference;
        let near = (64 - position % 64).min(self.reference - position);
        near.min(self.count - block)
    }
}

/// Measures the writing and reading of residuals in blocks of each size, and with the restricted set of code
/// options for residuals of four bits and of two.
pub fn measure(report: &Report) {
    let count = report.shape().sample_count();
    let numbers = residuals(count);
    for size in [8, 16, 32, 64] {
        let cut = Cut::new(12, size, 4096, count);
        coded(report, &size.to_string(), cut, &numbers);
    }
    for bits in [4, 2] {
        let low: Vec<u16> = numbers.iter().map(|number| number % (1 << bits)).collect();
        let cut = Cut::new(bits, 16, 4096, count).restricted();
        coded(report, &format!("restricted_{bits}"), cut, &low);
    }
}

fn coded(report: &Report, name: &str, cut: Cut, numbers: &[u16]) {
    let count = numbers.len();
    // Hides the parameters from the optimizer, since a real program learns them when it runs.
    let cut = black_box(cut);
    let start = Instant::now();
    let mut blocks = BlockWriter::new(cut);
    let mut writer = BitWriter::new();
    for number in numbers {
        blocks.put(*number, &mut writer);
    }
    blocks.end(&mut writer);
    let body = writer.into_bytes();
    report.line(&format!("block_encode_{name}"), count, start, || {
        sum_of_bytes(&body)
    });
    let start = Instant::now();
    let mut blocks = BlockReader::new(cut);
    let mut reader = BitReader::new(&body);
    let mut sum = 0;
    for _ in 0..count {
        let number = blocks.next(&mut reader).expect("the numbers again");
        sum = mixed(sum, u64::from(number));
    }
    report.line(&format!("block_decode_{name}"), count, start, || sum);
}
