//! The predictor of a band in plain Rust, with one call for each sample, and rows read as slices.

use super::cube::{Cube, Params};

/// The predictor of one band.
pub struct Band {
    params: Params,
    smin: i32,
    smid: i32,
    smax: i32,
    z: u32,
    first: usize,
    near: usize,
    next: u64,
    weights: [i32; 18],
}

impl Band {
    pub fn new(params: &Params, z: u32) -> Band {
        let (smin, smid, smax) = if params.signed {
            let half = 1 << (params.bits - 1);
            (-half, 0, half - 1)
        } else {
            (0, 1 << (params.bits - 1), (1 << params.bits) - 1)
        };
        let first = if params.reduced { 0 } else { 3 };
        let near = z.min(params.previous) as usize;
        let mut weights = [0; 18];
        let mut weight = 7 << (params.omega - 3);
        for place in &mut weights[first..first + near] {
            *place = weight;
            weight >>= 3;
        }
        Band {
            params: *params,
            smin,
            smid,
            smax,
            z,
            first,
            near,
            next: 0,
            weights,
        }
    }

    /// Returns the predictor of a band whose weights start from its entries in a weight table of this resolution.
    pub fn from_table(params: &Params, z: u32, resolution: u32, entries: &[i32]) -> Band {
        let mut band = Band::new(params, z);
        let shift = params.omega + 3 - resolution;
        let half = if shift > 0 {
            (1 << (shift - 1)) - 1
        } else {
            0
        };
        for (weight, entry) in band.weights.iter_mut().zip(entries) {
            *weight = (entry << shift) + half;
        }
        band
    }

    /// Returns the mapped residual of the sample at the next place.
    // Inlined into the loop it is slower.
    #[inline(never)]
    pub fn forward(&mut self, cube: &Cube, y: u32, x: u32) -> u16 {
        let t = self.next;
        self.next += 1;
        let sample = cube.sample(self.z, y, x);
        if t == 0 {
            let scaled = self.first_scaled(cube);
            return self.residual_of(scaled, sample);
        }
        let mut differences = [0; 18];
        let scaled = self.predict(cube, y, x, &mut differences);
        self.learn(t, scaled, &differences, sample);
        self.residual_of(scaled, sample)
    }

    /// Returns the sample at the next place, whose mapped residual is `delta`.
    #[inline(never)]
    pub fn inverse(&mut self, cube: &Cube, y: u32, x: u32, delta: u16) -> i32 {
        let t = self.next;
        self.next += 1;
        if t == 0 {
            let scaled = self.first_scaled(cube);
            return self.sample_of(scaled, delta);
        }
        let mut differences = [0; 18];
        let scaled = self.predict(cube, y, x, &mut differences);
        let sample = self.sample_of(scaled, delta);
        self.learn(t, scaled, &differences, sample);
        sample
    }

    fn first_scaled(&self, cube: &Cube) -> i32 {
        if self.params.previous == 0 || self.z == 0 {
            2 * self.smid
        } else {
            2 * cube.sample(self.z - 1, 0, 0)
        }
    }

    #[inline(always)]
    fn predict(&self, cube: &Cube, y: u32, x: u32, differences: &mut [i32; 18]) -> i32 {
        let (row, above) = cube.rows(self.z, y);
        let sum = self.sum_of(y, row, above, x as usize);
        if !self.params.reduced && y > 0 {
            let x = x as usize;
            let north = 4 * i32::from(above[x]) - sum;
            differences[0] = north;
            (differences[1], differences[2]) = if x == 0 {
                (north, north)
            } else {
                (
                    4 * i32::from(row[x - 1]) - sum,
                    4 * i32::from(above[x - 1]) - sum,
                )
            };
        }
        for (i, difference) in differences[self.first..self.first + self.near]
            .iter_mut()
            .enumerate()
        {
            let z = self.z - 1 - i as u32;
            let (row, above) = cube.rows(z, y);
            *difference = self.central(y, row, above, x as usize);
        }
        self.scaled_by(4 * self.smin + sum, differences)
    }

    #[inline(always)]
    fn central(&self, y: u32, row: &[u16], above: &[u16], x: usize) -> i32 {
        let at = |row: &[u16], x: usize| i32::from(row[x]);
        let inside = !self.params.column & (y > 0) & (x > 0) & (x + 1 < row.len());
        let sum = if inside {
            at(row, x - 1) + at(above, x - 1) + at(above, x) + at(above, x + 1)
        } else {
            self.sum_of(y, row, above, x)
        };
        4 * at(row, x) - sum
    }

    #[inline(always)]
    fn sum_of(&self, y: u32, row: &[u16], above: &[u16], x: usize) -> i32 {
        let at = |row: &[u16], x: usize| i32::from(row[x]);
        if y == 0 {
            4 * at(row, x - 1)
        } else if self.params.column {
            4 * at(above, x)
        } else if x == 0 {
            2 * (at(above, x) + at(above, x + 1))
        } else if x + 1 == row.len() {
            at(row, x - 1) + at(above, x - 1) + 2 * at(above, x)
        } else {
            at(row, x - 1) + at(above, x - 1) + at(above, x) + at(above, x + 1)
        }
    }

    fn count(&self) -> usize {
        self.first + self.near
    }

    #[inline(always)]
    fn scaled_by(&self, sum: i32, differences: &[i32; 18]) -> i32 {
        let product = match self.count() {
            0 => 0,
            1..=8 => product_of::<8>(&self.weights, differences),
            _ => product_of::<18>(&self.weights, differences),
        };
        let omega = self.params.omega;
        let unused = 64 - self.params.register;
        let value = product + (i64::from(sum - 4 * self.smid) << omega);
        let held = (value << unused) >> unused;
        let center = (held >> (omega + 1)) + i64::from(2 * self.smid + 1);
        center.clamp(i64::from(2 * self.smin), i64::from(2 * self.smax + 1)) as i32
    }

    #[inline(always)]
    fn learn(&mut self, t: u64, scaled: i32, differences: &[i32; 18], sample: i32) {
        let params = &self.params;
        let intervals = (t as i64 - params.shape.columns as i64) >> params.interval_log;
        let growth = (i64::from(params.vmin) + intervals)
            .clamp(i64::from(params.vmin), i64::from(params.vmax));
        let exponent = growth as i32 + params.bits as i32 - params.omega as i32;
        let negative = 2 * sample < scaled;
        let limit = 1 << (params.omega + 2);
        match self.count() {
            0 => {}
            1..=8 => update::<8>(&mut self.weights, differences, exponent, negative, limit),
            _ => update::<18>(&mut self.weights, differences, exponent, negative, limit),
        }
    }

    #[inline(always)]
    fn residual_of(&self, scaled: i32, sample: i32) -> u16 {
        let predicted = scaled >> 1;
        let near = (predicted - self.smin).min(self.smax - predicted);
        let error = sample - predicted;
        let size = error.abs();
        let turned = if scaled % 2 == 0 { error } else { -error };
        let number = size + size.min(near) - i32::from(turned < 0 && size <= near);
        number as u16
    }

    #[inline(always)]
    fn sample_of(&self, scaled: i32, delta: u16) -> i32 {
        let predicted = scaled >> 1;
        let below = predicted - self.smin;
        let near = below.min(self.smax - predicted);
        let delta = i32::from(delta);
        let error = if 2 * near < delta {
            let size = delta - near;
            if near < below {
                -size
            } else {
                size
            }
        } else {
            let size = (delta + 1) / 2;
            if (delta + scaled) % 2 == 0 {
                size
            } else {
                -size
            }
        };
        predicted + error
    }
}

/// Returns the sum of the products of the first `N` weights and differences.
#[inline(always)]
fn product_of<const N: usize>(weights: &[i32; 18], differences: &[i32; 18]) -> i64 {
    let mut sum = 0;
    for i in 0..N {
        sum += i64::from(weights[i]) * i64::from(differences[i]);
    }
    sum
}

/// Updates the first `N` weights by their differences and the sign of the error.
#[inline(always)]
fn update<const N: usize>(
    weights: &mut [i32; 18],
    differences: &[i32; 18],
    exponent: i32,
    negative: bool,
    limit: i32,
) {
    let turned = |difference: i32| if negative { -difference } else { difference };
    if exponent < 0 {
        let by = -1 - exponent;
        for i in 0..N {
            let step = turned(differences[i]) << by;
            weights[i] = (weights[i] + step).clamp(-limit, limit - 1);
        }
    } else {
        for i in 0..N {
            let step = (turned(differences[i]) + (1 << exponent)) >> (exponent + 1);
            weights[i] = (weights[i] + step).clamp(-limit, limit - 1);
        }
    }
}
