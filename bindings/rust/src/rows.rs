//! Encoding a scene row by row, without holding it in memory.

use crate::coding::{answer, room_for};
use crate::fault::Fault;
use crate::ffi;
use crate::layout::Layout;
use crate::params::Params;
use std::fmt;
use std::ptr::null_mut;

/// Codes a scene whose raw bytes come row after row, in the order in which they are coded: both interleave the bands, or both are band sequential.
///
/// Where bands are interleaved, a row is one of all bands, and what is kept is a row, the state of the coder, and the file so far. Else it is a row of
/// one band, and what is kept is `previous` + 8 planes, the state of the coder, and the file so far.
///
/// A refusal ends the encoder; each call after it is refused as [`Fault::Usage`]. An encoder stays on the thread that made it.
///
/// ```
/// use ccsds123::{encode, Fault, Interleave, Layout, Order, Params, RowEncoder};
///
/// let layout = Layout { interleave: Interleave::Bip, bytes: 1, little: false };
/// let params = Params { order: Order::BandInterleaved { depth: 2 }, ..Params::new(3, 2, 2, 8) };
/// let mut encoder = RowEncoder::new(&params, layout)?;
/// encoder.rows(b"dfiehg")?;
/// encoder.rows(b"nospqr")?;
/// assert_eq!(encoder.end()?, encode(&params, layout, b"dfiehgnospqr")?);
/// # Ok::<(), Fault>(())
/// ```
pub struct RowEncoder {
    raw: ffi::Encoder,
}

impl RowEncoder {
    /// Begins a scene with these parameters, whose raw bytes will come in this layout.
    ///
    /// # Errors
    /// What [`Params::check`] finds; `Choice` of the layout, of a band sequential order where the layout interleaves bands, and of a band sequential
    /// layout where the order does; `WantOfMemory`.
    pub fn new(params: &Params, layout: Layout) -> Result<RowEncoder, Fault> {
        let mut encoder = RowEncoder { raw: ffi::Encoder { state: null_mut(), is_open: 0 } };
        // SAFETY: all pointers are valid, and the encoder is none.
        answer(|fault| unsafe { ffi::ccsds123_encoder_begin(&mut encoder.raw, &params.scene(layout), fault) })?;
        Ok(encoder)
    }

    /// Takes the raw bytes of the next rows, as many as there are.
    ///
    /// # Errors
    /// `RawLength` where they aren't whole rows, or more than the scene still wants; `SampleRange` with the index in the whole scene; `WantOfMemory`.
    pub fn rows(&mut self, raw: &[u8]) -> Result<(), Fault> {
        // SAFETY: the pointers are valid, the slice has as many bytes as are said, and only the library has written the encoder.
        answer(|fault| unsafe { ffi::ccsds123_encoder_rows(&mut self.raw, raw.as_ptr(), raw.len(), fault) })
    }

    /// Returns the file, once all rows were taken: the one that [`encode`](crate::encode) returns of all raw bytes together.
    ///
    /// # Errors
    /// `RawLength` where rows are missing; `WantOfMemory`.
    pub fn end(mut self) -> Result<Vec<u8>, Fault> {
        match self.end_in(0) {
            Err(Fault::Room { wanted, .. }) => self.end_in(wanted),
            other => other,
        }
    }

    /// Ends in a room of so many bytes.
    fn end_in(&mut self, room: u64) -> Result<Vec<u8>, Fault> {
        let mut file: Vec<u8> = room_for(room)?;
        let mut length = 0;
        // SAFETY: the pointers are valid, `file` has as much room as its capacity, and only the library has written the encoder.
        answer(|fault| unsafe { ffi::ccsds123_encoder_end(&mut self.raw, file.as_mut_ptr(), file.capacity(), &mut length, fault) })?;
        // SAFETY: the call wrote that many bytes.
        unsafe { file.set_len(length as usize) };
        Ok(file)
    }
}

impl Drop for RowEncoder {
    fn drop(&mut self) {
        // SAFETY: only the library has written the encoder.
        unsafe { ffi::ccsds123_encoder_free(&mut self.raw) };
    }
}

impl fmt::Debug for RowEncoder {
    fn fmt(&self, f: &mut fmt::Formatter<'_>) -> fmt::Result {
        f.debug_struct("RowEncoder").field("is_open", &(self.raw.is_open != 0)).finish()
    }
}
