//! Samples, and the parameters of their predictor.

use crate::report::Shape;

/// The parameters of a predictor.
#[derive(Clone, Copy)]
pub struct Params {
    pub shape: Shape,
    pub signed: bool,
    pub bits: u32,
    pub previous: u32,
    pub reduced: bool,
    pub column: bool,
    pub register: u32,
    pub omega: u32,
    pub interval_log: u32,
    pub vmin: i32,
    pub vmax: i32,
}

impl Params {
    /// Returns the least sample.
    pub fn smin(&self) -> i32 {
        if self.signed {
            -(1 << (self.bits - 1))
        } else {
            0
        }
    }
}

/// Samples, each kept as its offset from the least one.
pub struct Cube {
    pub shape: Shape,
    pub smin: i32,
    pub offsets: Vec<u16>,
}

impl Cube {
    pub fn row(&self, z: u32, y: u32) -> &[u16] {
        let from = (z as usize * self.shape.rows + y as usize) * self.shape.columns;
        &self.offsets[from..from + self.shape.columns]
    }

    /// Returns a row and the one above it, or the row twice where there is none above.
    #[inline(always)]
    pub fn rows(&self, z: u32, y: u32) -> (&[u16], &[u16]) {
        let columns = self.shape.columns;
        let from = (z as usize * self.shape.rows + y as usize) * columns;
        let over = if y == 0 { from } else { from - columns };
        (
            &self.offsets[from..from + columns],
            &self.offsets[over..over + columns],
        )
    }

    pub fn sample(&self, z: u32, y: u32, x: u32) -> i32 {
        self.smin + i32::from(self.row(z, y)[x as usize])
    }

    pub fn set(&mut self, z: u32, y: u32, x: u32, sample: i32) {
        let at = (z as usize * self.shape.rows + y as usize) * self.shape.columns + x as usize;
        self.offsets[at] = (sample - self.smin) as u16;
    }
}
