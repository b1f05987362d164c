//! Encoding, decoding, and reading headers.

use crate::fault::Fault;
use crate::ffi;
use crate::layout::Layout;
use crate::params::{usual, Params};
use crate::samples::Sample;
use std::mem::size_of;

/// No header is longer.
const HEADER_BYTES: usize = 4 << 20;

/// What a file's header says.
#[derive(Clone, Debug, PartialEq, Eq)]
pub struct Header {
    pub params: Params,
    /// The bytes of the header, its tables included.
    pub length: usize,
}

/// The version of the library, as major, minor and patch.
pub fn version() -> (u32, u32, u32) {
    // SAFETY: the call takes nothing.
    let number = unsafe { ffi::ccsds123_version() };
    (number / 10_000, number / 100 % 100, number % 100)
}

/// The result of a call that stores its fault.
pub(crate) fn answer(call: impl FnOnce(*mut ffi::Fault) -> i32) -> Result<(), Fault> {
    let mut fault = ffi::Fault::default();
    match call(&mut fault) {
        0 => Ok(()),
        _ => Err(Fault::of(&fault)),
    }
}

impl Params {
    /// Checks parameters and their tables: the first fault, in the order of a header's fields.
    pub fn check(&self) -> Result<(), Fault> {
        let (raw, weights, accumulators) = (self.raw(), self.weight_values(), self.accumulators());
        // SAFETY: all pointers are valid, and each slice has as many items as are said.
        answer(|fault| unsafe { ffi::ccsds123_params_check(&raw, weights.as_ptr(), weights.len(), accumulators.as_ptr(), accumulators.len(), fault) })
    }

    /// The number of raw bytes of a scene with these sizes.
    pub fn raw_length(&self, layout: Layout) -> Result<u64, Fault> {
        let mut bytes = 0;
        // SAFETY: all pointers are valid.
        answer(|fault| unsafe { ffi::ccsds123_raw_length(&self.raw(), &layout.raw(), &mut bytes, fault) })?;
        Ok(bytes)
    }

    /// A length in bytes that no file of these parameters exceeds.
    pub fn bound(&self) -> Result<u64, Fault> {
        let mut bytes = 0;
        // SAFETY: all pointers are valid.
        answer(|fault| unsafe { ffi::ccsds123_bound(&self.raw(), &mut bytes, fault) })?;
        Ok(bytes)
    }
}

/// Room for so many items, or the fault that there is no memory for them.
pub(crate) fn room_for<T>(count: u64) -> Result<Vec<T>, Fault> {
    let mut room = Vec::new();
    let count = usize::try_from(count).map_err(|_| Fault::WantOfMemory)?;
    room.try_reserve_exact(count).map_err(|_| Fault::WantOfMemory)?;
    Ok(room)
}

/// Codes the scene whose raw bytes are given, and returns its file: the one that the standard defines.
///
/// # Errors
/// What [`Params::check`] finds; `Choice` of the layout; `RawLength`; `SampleRange` of the first sample that needs more than `bits`; `WantOfMemory`.
///
/// ```
/// use ccsds123::{decode, encode, Fault, Interleave, Layout, Params};
///
/// let layout = Layout { interleave: Interleave::Bip, bytes: 1, little: false };
/// let params = Params::new(3, 2, 2, 8);
/// let file = encode(&params, layout, b"dfiehgnospqr")?;
/// assert_eq!(decode(&file, layout)?.1, b"dfiehgnospqr");
/// assert_eq!(encode(&params, layout, b"dfieh"), Err(Fault::RawLength { wanted: 12, had: 5 }));
/// # Ok::<(), Fault>(())
/// ```
pub fn encode(params: &Params, layout: Layout, raw: &[u8]) -> Result<Vec<u8>, Fault> {
    params.check()?;
    // Bytes of another length are refused before anything is written.
    let fits = params.raw_length(layout)? == raw.len() as u64;
    let mut file: Vec<u8> = room_for(if fits { params.bound()? } else { 0 })?;
    let mut length = 0;
    // SAFETY: all pointers are valid, the slice has as many bytes as are said, and `file` as much room as its capacity.
    answer(|fault| unsafe { ffi::ccsds123_encode(&params.scene(layout), raw.as_ptr(), raw.len(), file.as_mut_ptr(), file.capacity(), &mut length, fault) })?;
    // SAFETY: the call wrote that many bytes.
    unsafe { file.set_len(length as usize) };
    file.shrink_to_fit();
    Ok(file)
}

/// Decodes a file, and returns its parameters and the raw bytes of its scene in this layout.
///
/// # Errors
/// The first fault of the bytes, where they are no file; `Choice` of the layout; `SampleRange` of a sample that doesn't fit in one byte; `WantOfMemory`.
pub fn decode(file: &[u8], layout: Layout) -> Result<(Params, Vec<u8>), Fault> {
    decode_items(file, layout)
}

/// Decodes a file into numbers, whose bytes are the raw bytes of its scene in this layout.
pub(crate) fn decode_items<T: Sample>(file: &[u8], layout: Layout) -> Result<(Params, Vec<T>), Fault> {
    let params = read_header(file)?.params;
    let wanted = params.raw_length(layout)? / size_of::<T>() as u64;
    // Where there is no memory for the samples, what is wrong with the file itself is still told first.
    let mut items: Vec<T> = room_for(wanted).unwrap_or_default();
    let room = items.capacity() * size_of::<T>();
    let mut length = 0;
    // SAFETY: all pointers are valid, the slice has as many bytes as are said, and `items` as much room as its capacity.
    answer(|fault| unsafe { ffi::ccsds123_decode(file.as_ptr(), file.len(), &layout.raw(), items.as_mut_ptr().cast(), room, &mut length, fault) })
        .map_err(|fault| if matches!(fault, Fault::Room { .. }) { Fault::WantOfMemory } else { fault })?;
    // SAFETY: the call wrote that many bytes, and any bits are a number.
    unsafe { items.set_len(length as usize / size_of::<T>()) };
    Ok((params, items))
}

/// Reads the header that the bytes begin with; more may follow, or be left out. No header is longer than 4 MB.
///
/// # Errors
/// The first fault in the order of the header's fields; `WantOfMemory`.
pub fn read_header(file: &[u8]) -> Result<Header, Fault> {
    match read_with(file, 0, 0) {
        Err(Fault::Room { .. }) => {
            // A weight takes three bits or more, and an accumulator four.
            let most = file.len().min(HEADER_BYTES) as u64 * 8 / 3 + 1;
            read_with(file, most, most)
        }
        other => other,
    }
}

/// Reads a header whose tables have at most so many entries.
fn read_with(file: &[u8], weight_room: u64, accumulator_room: u64) -> Result<Header, Fault> {
    let mut raw = usual();
    let mut weights: Vec<i32> = room_for(weight_room)?;
    let mut accumulators: Vec<u8> = room_for(accumulator_room)?;
    let (mut weight_count, mut accumulator_count, mut length) = (0, 0, 0);
    // SAFETY: all pointers are valid, the slice has as many bytes as are said, and the tables as much room as their capacities.
    answer(|fault| unsafe {
        ffi::ccsds123_read_header(
            file.as_ptr(),
            file.len(),
            &mut raw,
            weights.as_mut_ptr(),
            weights.capacity(),
            &mut weight_count,
            accumulators.as_mut_ptr(),
            accumulators.capacity(),
            &mut accumulator_count,
            &mut length,
            fault,
        )
    })?;
    // SAFETY: the call wrote so many entries of each.
    unsafe {
        weights.set_len(weight_count as usize);
        accumulators.set_len(accumulator_count as usize);
    }
    weights.shrink_to_fit();
    accumulators.shrink_to_fit();
    Ok(Header { params: Params::of(&raw, weights, accumulators), length: length as usize })
}
