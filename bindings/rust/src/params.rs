//! The parameters of a coded image, as its header records them.

use crate::ffi;
use crate::layout::Layout;

/// How an image is predicted and coded. `docs/COMMAND.md` has the range of each member, under the name of its option.
///
/// ```
/// use ccsds123::{Coder, Order, Params};
///
/// let params = Params { order: Order::BandInterleaved { depth: 1 }, coder: Coder::block(), ..Params::new(614, 512, 224, 16) };
/// assert_eq!(params.check(), Ok(()));
/// assert_eq!(Params { omega: 50, ..params }.check().unwrap_err().to_string(), "3 FieldRange Omega 50");
/// ```
#[derive(Clone, Debug, PartialEq, Eq)]
pub struct Params {
    /// N_x, 1 to 65,536.
    pub columns: u32,
    /// N_y, 1 to 65,536.
    pub rows: u32,
    /// N_z, 1 to 65,536.
    pub bands: u32,
    /// D, the bits of a sample, 2 to 16.
    pub bits: u32,
    pub signed: bool,
    pub order: Order,
    /// A byte of your own, 0 to 255.
    pub user: u32,
    /// B, the bytes of an output word, 1 to 8.
    pub word: u32,
    /// P, how many bands before it a band is predicted from, 0 to 15.
    pub previous: u32,
    /// Whether prediction is from central differences alone; else in full mode.
    pub reduced: bool,
    /// Whether local sums are column-oriented; else they are neighbour-oriented.
    pub column_sums: bool,
    /// R, the register size, 32 to 64 bits.
    pub register: u32,
    /// Ω, the weight component resolution, 4 to 19.
    pub omega: u32,
    /// The logarithm to base 2 of t_inc, 4 to 11.
    pub interval_log: u32,
    /// The first weight update scaling exponent, -6 to 9.
    pub vmin: i32,
    /// The last weight update scaling exponent, -6 to 9.
    pub vmax: i32,
    /// The initial weights, where they aren't the standard's default.
    pub weights: Option<WeightTable>,
    pub coder: Coder,
}

/// The order in which samples are coded, whatever the raw layout.
#[derive(Clone, Copy, Debug, PartialEq, Eq)]
pub enum Order {
    BandSequential,
    /// `depth` bands are interleaved together: 1 to the number of bands.
    BandInterleaved {
        depth: u32,
    },
}

/// Initial weights: signed numbers of `bits` bits each, band after band.
///
/// In full mode a band has three, of the north, the west and the north-west difference; then, in either mode, one for each band before it, the
/// nearest first, up to `previous` of them. [`Params::weight_count`] is how many there are in all.
#[derive(Clone, Debug, PartialEq, Eq)]
pub struct WeightTable {
    /// Q, 3 to Ω + 3.
    pub bits: u32,
    pub values: Vec<i32>,
}

/// The entropy coder and its parameters.
#[derive(Clone, Debug, PartialEq, Eq)]
pub enum Coder {
    /// The sample-adaptive coder of CCSDS 123.0-B-1: U_max 8 to 32, γ* 4 to 9, γ₀ 1 to 8 and below γ*.
    Sample { umax: u32, gamma_star: u32, gamma_zero: u32, start: Start },
    /// The block-adaptive coder of CCSDS 121.0-B: J 8, 16, 32 or 64, r 1 to 4,096, the restricted set of options for at most 4 bits.
    Block { size: u32, reference: u32, restricted: bool },
}

/// K, the accumulator initialization constant, 0 to D - 2.
#[derive(Clone, Debug, PartialEq, Eq)]
pub enum Start {
    /// One for all bands.
    Constant(u32),
    /// One for each band.
    Each(Vec<u8>),
}

impl Coder {
    /// The sample-adaptive coder with the defaults of `ccsds compress`.
    pub fn sample() -> Coder {
        Coder::Sample { umax: 16, gamma_star: 6, gamma_zero: 1, start: Start::Constant(3) }
    }

    /// The block-adaptive coder with the defaults of `ccsds compress`.
    pub fn block() -> Coder {
        Coder::Block { size: 8, reference: 64, restricted: false }
    }
}

impl Params {
    /// The defaults of `ccsds compress` for unsigned samples of so many bits.
    pub fn new(columns: u32, rows: u32, bands: u32, bits: u32) -> Params {
        Params {
            columns,
            rows,
            bands,
            bits,
            signed: false,
            order: Order::BandSequential,
            user: 0,
            word: 1,
            previous: 3,
            reduced: false,
            column_sums: false,
            register: 64,
            omega: 13,
            interval_log: 6,
            vmin: -1,
            vmax: 3,
            weights: None,
            coder: Coder::sample(),
        }
    }

    /// The length of a weight table: the weights of all bands.
    pub fn weight_count(&self) -> usize {
        let directional = if self.reduced { 0 } else { 3 };
        (0..self.bands).map(|band| directional + band.min(self.previous) as usize).sum()
    }

    /// The parameters as the library takes them, without their tables.
    pub(crate) fn raw(&self) -> ffi::Params {
        let mut raw = usual();
        raw.columns = self.columns;
        raw.rows = self.rows;
        raw.bands = self.bands;
        raw.bits = self.bits;
        raw.is_signed = u32::from(self.signed);
        (raw.order, raw.depth) = match self.order {
            Order::BandSequential => (0, raw.depth),
            Order::BandInterleaved { depth } => (1, depth),
        };
        raw.user = self.user;
        raw.word = self.word;
        raw.previous = self.previous;
        raw.reduced = u32::from(self.reduced);
        raw.column_sums = u32::from(self.column_sums);
        raw.register_bits = self.register;
        raw.omega = self.omega;
        raw.interval_log = self.interval_log;
        (raw.vmin, raw.vmax) = (self.vmin, self.vmax);
        raw.weight_table = u32::from(self.weights.is_some());
        raw.weight_bits = self.weights.as_ref().map_or(0, |table| table.bits);
        self.coder.put(&mut raw);
        raw
    }

    pub(crate) fn weight_values(&self) -> &[i32] {
        self.weights.as_ref().map_or(&[], |table| &table.values)
    }

    pub(crate) fn accumulators(&self) -> &[u8] {
        match &self.coder {
            Coder::Sample { start: Start::Each(constants), .. } => constants,
            _ => &[],
        }
    }

    /// A scene with these parameters, whose raw bytes lie as said, as the library takes it.
    pub(crate) fn scene(&self, layout: Layout) -> ffi::Scene<'_> {
        ffi::Scene { params: self.raw(), weights: self.weight_values(), accumulators: self.accumulators(), layout: layout.raw() }
    }

    /// The parameters that the library read, with their tables.
    pub(crate) fn of(raw: &ffi::Params, weights: Vec<i32>, accumulators: Vec<u8>) -> Params {
        Params {
            signed: raw.is_signed != 0,
            order: if raw.order == 0 { Order::BandSequential } else { Order::BandInterleaved { depth: raw.depth } },
            user: raw.user,
            word: raw.word,
            previous: raw.previous,
            reduced: raw.reduced != 0,
            column_sums: raw.column_sums != 0,
            register: raw.register_bits,
            omega: raw.omega,
            interval_log: raw.interval_log,
            vmin: raw.vmin,
            vmax: raw.vmax,
            weights: (raw.weight_table != 0).then_some(WeightTable { bits: raw.weight_bits, values: weights }),
            coder: Coder::of(raw, accumulators),
            ..Params::new(raw.columns, raw.rows, raw.bands, raw.bits)
        }
    }
}

impl Coder {
    fn put(&self, raw: &mut ffi::Params) {
        match self {
            Coder::Sample { umax, gamma_star, gamma_zero, start } => {
                (raw.coder, raw.umax, raw.gamma_star, raw.gamma_zero) = (0, *umax, *gamma_star, *gamma_zero);
                match start {
                    Start::Constant(k) => raw.k = *k,
                    Start::Each(_) => raw.accumulator_table = 1,
                }
            }
            Coder::Block { size, reference, restricted } => {
                (raw.coder, raw.block, raw.reference, raw.restricted) = (1, *size, *reference, u32::from(*restricted));
            }
        }
    }

    fn of(raw: &ffi::Params, accumulators: Vec<u8>) -> Coder {
        if raw.coder != 0 {
            return Coder::Block { size: raw.block, reference: raw.reference, restricted: raw.restricted != 0 };
        }
        let start = if raw.accumulator_table != 0 { Start::Each(accumulators) } else { Start::Constant(raw.k) };
        Coder::Sample { umax: raw.umax, gamma_star: raw.gamma_star, gamma_zero: raw.gamma_zero, start }
    }
}

/// The library's own defaults.
pub(crate) fn usual() -> ffi::Params {
    let mut raw = std::mem::MaybeUninit::uninit();
    // SAFETY: the pointer is valid and aligned, and the call sets every member.
    unsafe {
        ffi::ccsds123_params_init(raw.as_mut_ptr());
        raw.assume_init()
    }
}
