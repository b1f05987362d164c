//! Samples as numbers in memory.

use crate::coding::{decode_items, encode};
use crate::fault::Fault;
use crate::layout::{Interleave, Layout};
use crate::params::Params;
use std::mem::{size_of, size_of_val};

mod sealed {
    pub trait Sealed {}
}

/// A whole number of 8 or 16 bits.
pub trait Sample: Copy + sealed::Sealed {
    const SIGNED: bool;

    /// Whether the bits stand for another number under the other sign.
    fn depends_on_sign(self) -> bool;
}

macro_rules! samples {
    ($($type:ty: $signed:expr),*) => {
        $(
            impl sealed::Sealed for $type {}
            impl Sample for $type {
                const SIGNED: bool = $signed;

                fn depends_on_sign(self) -> bool {
                    self.leading_zeros() == 0
                }
            }
        )*
    };
}

samples!(u8: false, i8: true, u16: false, i16: true);

/// Codes samples that follow one another in this order; their type decides the sign, whatever `params` says.
///
/// # Errors
/// Those of [`encode`](crate::encode).
pub fn encode_samples<T: Sample>(params: &Params, interleave: Interleave, samples: &[T]) -> Result<Vec<u8>, Fault> {
    // SAFETY: the bytes are those of the slice, and numbers have no padding.
    let raw = unsafe { std::slice::from_raw_parts(samples.as_ptr().cast(), size_of_val(samples)) };
    encode(&Params { signed: T::SIGNED, ..params.clone() }, Layout::native(interleave, size_of::<T>() as u32), raw)
}

/// Decodes a file to samples in this order.
///
/// # Errors
/// Those of [`decode`](crate::decode), and `SampleRange` of the first sample that isn't a number of this type.
pub fn decode_samples<T: Sample>(file: &[u8], interleave: Interleave) -> Result<(Params, Vec<T>), Fault> {
    let (params, samples): (Params, Vec<T>) = decode_items(file, Layout::native(interleave, size_of::<T>() as u32))?;
    if params.signed != T::SIGNED {
        if let Some(index) = samples.iter().position(|sample| sample.depends_on_sign()) {
            return Err(Fault::SampleRange { index: index as u64 });
        }
    }
    Ok((params, samples))
}
