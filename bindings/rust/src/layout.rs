//! How the samples of a scene lie in raw bytes.

use crate::ffi;

/// The order in which raw samples follow one another.
#[derive(Clone, Copy, Debug, PartialEq, Eq)]
pub enum Interleave {
    /// Band after band, in each row after row: band sequential.
    Bsq,
    /// Row after row, in each band after band: band interleaved by line.
    Bil,
    /// Row after row, in each column after column, its bands together: band interleaved by pixel.
    Bip,
}

/// How samples lie in raw bytes: whole numbers of one or two bytes, in two's complement where samples are signed, with nothing between.
#[derive(Clone, Copy, Debug, PartialEq, Eq)]
pub struct Layout {
    pub interleave: Interleave,
    /// The bytes of a sample, 1 or 2.
    pub bytes: u32,
    /// Whether the low byte of a sample comes first.
    pub little: bool,
}

impl Layout {
    /// Samples of so many bytes, in this machine's byte order.
    pub fn native(interleave: Interleave, bytes: u32) -> Layout {
        Layout { interleave, bytes, little: cfg!(target_endian = "little") }
    }

    pub(crate) fn raw(&self) -> ffi::Layout {
        ffi::Layout { interleave: self.interleave as u32, bytes: self.bytes, little: u32::from(self.little) }
    }
}
