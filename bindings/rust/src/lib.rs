//! Lossless compression of image cubes, as CCSDS 123.0-B-1 defines it, with the sample-adaptive coder of that standard and the
//! block-adaptive coder of CCSDS 121.0-B.
//!
//! The coder itself is a proved library; this crate is a safe face of it. The build script links `libccsds123.a` from the folder that
//! `CCSDS123_LIB_DIR` names, else from where the repository builds it (`make lib`), else from where pkg-config finds it.
//!
//! ```
//! use ccsds123::{decode_samples, encode_samples, Interleave, Params};
//!
//! # fn main() -> Result<(), ccsds123::Fault> {
//! let (columns, rows, bands) = (64, 32, 5);
//! let samples: Vec<u16> = (0..columns * rows * bands).map(|i| 2000 + (i % 97) as u16).collect();
//!
//! let params = Params::new(columns, rows, bands, 12);
//! let file = encode_samples(&params, Interleave::Bsq, &samples)?;
//! let (found, again) = decode_samples::<u16>(&file, Interleave::Bsq)?;
//!
//! assert!(file.len() < samples.len());
//! assert_eq!(again, samples);
//! assert_eq!(found, params);
//! # Ok(())
//! # }
//! ```
//!
//! [`encode`] and [`decode`] take and return raw bytes in any [`Layout`], as they stand in a file; [`encode_samples`] and [`decode_samples`] work on
//! slices of numbers. [`read_header`] needs only the first bytes of a file. A refusal is a [`Fault`], which prints the line that the command `ccsds` prints.
//! [`RowEncoder`] codes a scene while its rows come, without holding it in memory. No other call keeps state: any number of threads may call at once.

mod coding;
mod fault;
mod ffi;
mod layout;
mod params;
mod rows;
mod samples;

pub use coding::{decode, encode, read_header, version, Header};
pub use fault::{Fault, Field, Member, Room, Rule};
pub use layout::{Interleave, Layout};
pub use params::{Coder, Order, Params, Start, WeightTable};
pub use rows::RowEncoder;
pub use samples::{decode_samples, encode_samples, Sample};
