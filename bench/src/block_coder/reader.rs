//! The reading of blocks.

use super::Cut;
use crate::bits::{BitReader, Refused};

pub struct BlockReader {
    cut: Cut,
    block: u64,
    values: [u16; 64],
    at: usize,
    zeros: u64,
}

impl BlockReader {
    pub fn new(cut: Cut) -> BlockReader {
        BlockReader {
            cut,
            block: 0,
            values: [0; 64],
            at: cut.size,
            zeros: 0,
        }
    }

    #[inline]
    pub fn next(&mut self, reader: &mut BitReader) -> Result<u16, Refused> {
        if self.at == self.cut.size && self.zeros == 0 {
            self.take_data_set(reader)?;
        }
        if self.at < self.cut.size {
            self.at += 1;
            Ok(self.values[self.at - 1])
        } else {
            self.zeros -= 1;
            Ok(0)
        }
    }

    /// Reads the next coded data set: a zero-block run, or a block.
    fn take_data_set(&mut self, reader: &mut BitReader) -> Result<(), Refused> {
        let Cut { bits, width, .. } = self.cut;
        let most = (1u64 << bits) - 1;
        let number = reader.take(width)?;
        if number == 0 && reader.take(1)? == 0 {
            return self.take_run(reader);
        }
        let values = &mut self.values[..self.cut.size];
        if number == 0 {
            take_pairs(most, values, reader)?;
        } else if number == (1 << width) - 1 {
            for value in values {
                *value = reader.take(bits)? as u16;
            }
        } else {
            take_split(number as u32 - 1, most, values, reader)?;
        }
        self.block += 1;
        self.at = 0;
        Ok(())
    }

    /// Reads the number of zero blocks.
    fn take_run(&mut self, reader: &mut BitReader) -> Result<(), Refused> {
        let left = self.cut.left(self.block);
        let zeros = reader.take_unary(left.max(4))?;
        let blocks = match zeros {
            0..=3 => zeros + 1,
            4 => left,
            _ => zeros,
        };
        if blocks > left {
            return Err(Refused);
        }
        self.block += blocks;
        self.zeros = blocks * self.cut.size as u64;
        Ok(())
    }
}

/// Reads the values of a block under the second extension.
fn take_pairs(most: u64, values: &mut [u16], reader: &mut BitReader) -> Result<(), Refused> {
    for pair in values.chunks_exact_mut(2) {
        let number = reader.take_unary(2 * most * (most + 1))?;
        let sum = ((8 * number + 1).isqrt() - 1) / 2;
        let second = number - sum * (sum + 1) / 2;
        let first = sum - second;
        if first > most || second > most {
            return Err(Refused);
        }
        pair[0] = first as u16;
        pair[1] = second as u16;
    }
    Ok(())
}

/// Reads the values of a block with `k` low bits each.
fn take_split(
    k: u32,
    most: u64,
    values: &mut [u16],
    reader: &mut BitReader,
) -> Result<(), Refused> {
    for value in values.iter_mut() {
        *value = reader.take_unary(most >> k)? as u16;
    }
    for value in values {
        let whole = (u64::from(*value) << k) + reader.take(k)?;
        if whole > most {
            return Err(Refused);
        }
        *value = whole as u16;
    }
    Ok(())
}
