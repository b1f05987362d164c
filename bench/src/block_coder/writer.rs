//! The choice of code options, and the writing of blocks.

use super::Cut;
use crate::bits::BitWriter;

/// The code option of a block.
#[derive(Clone, Copy)]
enum Choice {
    Uncoded,
    Second,
    Split(u32),
}

fn pairs_cost(block: &[u16]) -> u64 {
    block
        .chunks_exact(2)
        .map(|pair| {
            let sum = u64::from(pair[0]) + u64::from(pair[1]);
            sum * (sum + 1) / 2 + u64::from(pair[1]) + 1
        })
        .sum()
}

fn quotients_cost(k: u32, block: &[u16]) -> u64 {
    block.iter().map(|value| u64::from(value >> k) + 1).sum()
}

/// Returns the shortest option; of equally short ones, uncoded, then the second extension, then the smallest k.
fn choose(cut: &Cut, block: &[u16]) -> Choice {
    let len = block.len() as u64;
    let mut best = Choice::Uncoded;
    let mut least = u64::from(cut.bits) * len;
    let second = pairs_cost(block) + 1;
    if second < least {
        best = Choice::Second;
        least = second;
    }
    for k in 0..(1u32 << cut.width) - 2 {
        if least <= (u64::from(k) + 1) * len {
            break;
        }
        let cost = quotients_cost(k, block) + u64::from(k) * len;
        if cost < least {
            best = Choice::Split(k);
            least = cost;
        }
    }
    best
}

pub struct BlockWriter {
    cut: Cut,
    start: u64,
    zeros: u64,
    values: [u16; 64],
    held: usize,
}

impl BlockWriter {
    pub fn new(cut: Cut) -> BlockWriter {
        BlockWriter {
            cut,
            start: 0,
            zeros: 0,
            values: [0; 64],
            held: 0,
        }
    }

    #[inline]
    pub fn put(&mut self, value: u16, writer: &mut BitWriter) {
        self.values[self.held] = value;
        self.held += 1;
        if self.held == self.cut.size {
            self.pack(writer);
        }
    }

    pub fn end(&mut self, writer: &mut BitWriter) {
        if self.held > 0 {
            self.values[self.held..].fill(0);
            self.pack(writer);
        }
    }

    fn pack(&mut self, writer: &mut BitWriter) {
        self.held = 0;
        let block = &self.values[..self.cut.size];
        if block.iter().all(|value| *value == 0) {
            self.zeros += 1;
            let left = self.cut.left(self.start);
            if self.zeros == left {
                write_run(&self.cut, if left >= 5 { 4 } else { left - 1 }, writer);
                self.start += left;
                self.zeros = 0;
            }
            return;
        }
        if self.zeros > 0 {
            let code = if self.zeros <= 4 {
                self.zeros - 1
            } else {
                self.zeros
            };
            write_run(&self.cut, code, writer);
        }
        write_block(&self.cut, block, writer);
        self.start += self.zeros + 1;
        self.zeros = 0;
    }
}

fn write_run(cut: &Cut, zeros: u64, writer: &mut BitWriter) {
    writer.push(0, cut.width + 1);
    writer.push_unary(zeros);
}

fn write_block(cut: &Cut, block: &[u16], writer: &mut BitWriter) {
    match choose(cut, block) {
        Choice::Uncoded => {
            writer.push((1 << cut.width) - 1, cut.width);
            write_lows(cut.bits, block, writer);
        }
        Choice::Second => {
            writer.push(1, cut.width + 1);
            for pair in block.chunks_exact(2) {
                let sum = u64::from(pair[0]) + u64::from(pair[1]);
                writer.push_unary(sum * (sum + 1) / 2 + u64::from(pair[1]));
            }
        }
        Choice::Split(k) => {
            writer.push(u64::from(k) + 1, cut.width);
            for value in block {
                writer.push_unary(u64::from(value >> k));
            }
            write_lows(k, block, writer);
        }
    }
}

fn write_lows(k: u32, block: &[u16], writer: &mut BitWriter) {
    let mask = (1u64 << k) - 1;
    for value in block {
        writer.push(u64::from(*value) & mask, k);
    }
}
