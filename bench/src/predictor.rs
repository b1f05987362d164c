//! The predictor in plain Rust, and a measurement of its speed.

pub mod band;
pub mod cube;

use crate::report::{Report, Shape};
use crate::synthetic::{mixed, Generator};
use band::Band;
use cube::{Cube, Params};
use std::hint::black_box;
use std::io::Write;
use std::time::Instant;

/// The bits of a sample.
pub const BITS: u32 = 12;

/// The order in which the samples are coded.
#[derive(Clone, Copy)]
pub enum Order {
    Bsq,
    Bi(usize),
}

/// A function that returns the predictors of all bands, each before its first place.
type Start = fn(&Params) -> Vec<Band>;

/// Measures `forward` and `inverse` in each mode and order, and in full mode from a weight table.
pub fn measure(report: &Report) {
    let shape = report.shape();
    let modes: [(&str, bool, u32, Start); 3] = [
        ("full_3", false, 3, all_bands),
        ("reduced_0", true, 0, all_bands),
        ("table_3", false, 3, bands_from_table),
    ];
    for (mode, reduced, previous, start_bands) in modes {
        let params = params_of(shape, reduced, previous);
        for (name, order) in [
            ("bsq", Order::Bsq),
            ("bil", Order::Bi(1)),
            ("bip", Order::Bi(shape.bands)),
        ] {
            there_and_back(report, &format!("{mode}_{name}"), &params, order, start_bands);
        }
    }
}

/// Returns the parameters of a measurement: a register of 32 bits, and otherwise the defaults of the command.
pub fn params_of(shape: Shape, reduced: bool, previous: u32) -> Params {
    black_box(Params {
        shape,
        signed: false,
        bits: BITS,
        previous,
        reduced,
        column: false,
        register: 32,
        omega: 13,
        interval_log: 6,
        vmin: -1,
        vmax: 3,
    })
}

/// Measures `forward` and `inverse` in an order.
fn there_and_back(
    report: &Report,
    name: &str,
    params: &Params,
    order: Order,
    start_bands: Start,
) {
    let shape = params.shape;
    let count = shape.sample_count();
    let cube = synthetic_cube(params);
    let mut residuals = vec![0; count];
    let mut bands = start_bands(params);
    let mut slots = residuals.iter_mut();
    let start = Instant::now();
    walk(shape, order, |z, y, x| {
        let residual = bands[z].forward(&cube, y as u32, x as u32);
        *slots.next().unwrap() = residual;
    });
    report.line(&format!("forward_{name}"), count, start, || {
        sum_of(&residuals)
    });
    let mut back = Cube {
        shape,
        smin: params.smin(),
        offsets: vec![0; count],
    };
    let mut bands = start_bands(params);
    let mut slots = residuals.iter();
    let start = Instant::now();
    walk(shape, order, |z, y, x| {
        let sample = bands[z].inverse(&back, y as u32, x as u32, *slots.next().unwrap());
        back.set(z as u32, y as u32, x as u32, sample);
    });
    report.line(&format!("inverse_{name}"), count, start, || {
        sum_of(&back.offsets)
    });
}

pub fn all_bands(params: &Params) -> Vec<Band> {
    (0..params.shape.bands as u32)
        .map(|z| Band::new(params, z))
        .collect()
}

/// Returns the predictors of all bands in full mode, whose weights start from a synthetic table of 14 bits.
fn bands_from_table(params: &Params) -> Vec<Band> {
    let mut generator = Generator::new();
    (0..params.shape.bands as u32)
        .map(|z| {
            let entries: Vec<i32> = (0..z.min(params.previous) + 3)
                .map(|_| i32::from(generator.number(14)) - 8192)
                .collect();
            Band::from_table(params, z, 14, &entries)
        })
        .collect()
}

/// Visits all places in an order.
pub fn walk(shape: Shape, order: Order, mut visit: impl FnMut(usize, usize, usize)) {
    match order {
        Order::Bsq => {
            for z in 0..shape.bands {
                for y in 0..shape.rows {
                    for x in 0..shape.columns {
                        visit(z, y, x);
                    }
                }
            }
        }
        Order::Bi(depth) => {
            for y in 0..shape.rows {
                for first in (0..shape.bands).step_by(depth) {
                    for x in 0..shape.columns {
                        for z in first..shape.bands.min(first + depth) {
                            visit(z, y, x);
                        }
                    }
                }
            }
        }
    }
}

/// Returns a cube that changes slowly, with some noise.
pub fn synthetic_cube(params: &Params) -> Cube {
    let shape = params.shape;
    let mut generator = Generator::new();
    let mut offsets = Vec::with_capacity(shape.sample_count());
    for z in 0..shape.bands {
        for y in 0..shape.rows {
            for x in 0..shape.columns {
                let slow = 16 * z + 4 * y + 2 * x;
                let noise = usize::from(generator.number(6));
                offsets.push(((slow + noise) % (1 << BITS)) as u16);
            }
        }
    }
    Cube {
        shape,
        smin: params.smin(),
        offsets,
    }
}

/// Prints the raw bytes of the synthetic cube, band sequential, two bytes a sample, the high byte first.
pub fn print_raw() {
    let params = params_of(Report { timed: true }.shape(), false, 0);
    let offsets = synthetic_cube(&params).offsets;
    let bytes: Vec<u8> = offsets.iter().flat_map(|offset| offset.to_be_bytes()).collect();
    std::io::stdout().write_all(&bytes).expect("an open output");
}

pub fn sum_of(numbers: &[u16]) -> u64 {
    numbers
        .iter()
        .fold(0, |sum, number| mixed(sum, u64::from(*number)))
}
