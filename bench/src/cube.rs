//! The conversion from and to raw bytes and the walk over all places in plain Rust, and a measurement of their speed.

mod raw;

use crate::report::Report;
use crate::synthetic::{mixed, sum_of_bytes, Generator};
use std::hint::black_box;
use std::time::Instant;

use raw::{Big, Byte, Cube, Format, Little, RawOrder, Spelling};

/// Measures `from_raw`, `to_raw` and the walk.
pub fn measure(report: &Report) {
    for (name, order) in [
        ("bsq", RawOrder::Bsq),
        ("bil", RawOrder::Bil),
        ("bip", RawOrder::Bip),
    ] {
        measure_raw::<Little, 2>(report, name, order, Format::Little);
        measure_raw::<Big, 2>(report, name, order, Format::Big);
        measure_raw::<Byte, 1>(report, name, order, Format::Byte);
    }
    let bands = report.shape().bands;
    walk_bsq(report);
    walk_bi(report, "walk_bi_1", 1);
    walk_bi(report, "walk_bi_5", 5);
    walk_bi(report, "walk_bi_all", bands);
}

/// Measures `from_raw` and `to_raw` of a layout.
fn measure_raw<S: Spelling<SIZE>, const SIZE: usize>(
    report: &Report,
    order_name: &str,
    order: RawOrder,
    format: Format,
) {
    let shape = report.shape();
    let count = shape.sample_count();
    let bytes = raw_bytes(format, count);
    let format_name = format.name();
    // Hides the kind from the optimizer, since a real program learns it when it runs.
    let (signed, bits) = black_box((false, format.bits()));
    let start = Instant::now();
    let cube = Cube::from_raw::<S, SIZE>(shape, signed, bits, order, &bytes)
        .unwrap_or_else(|bad| panic!("sample {}", bad.index));
    let name = format!("from_raw_{order_name}_{format_name}");
    report.line(&name, count, start, || sum_of_cube(&cube));
    let start = Instant::now();
    let again = cube.to_raw::<S, SIZE>(order);
    let name = format!("to_raw_{order_name}_{format_name}");
    report.line(&name, count, start, || sum_of_bytes(&again));
}

fn number_of(z: usize, y: usize, x: usize) -> u64 {
    (z as u64) << 40 | (y as u64) << 20 | x as u64
}

/// Measures a walk band after band.
fn walk_bsq(report: &Report) {
    let shape = black_box(report.shape());
    let start = Instant::now();
    let mut sum = 0;
    for z in 0..shape.bands {
        for y in 0..shape.rows {
            for x in 0..shape.columns {
                sum = mixed(sum, number_of(z, y, x));
            }
        }
    }
    report.line("walk_bsq", shape.sample_count(), start, || sum);
}

/// Measures a walk in band interleaved order with a depth.
fn walk_bi(report: &Report, name: &str, depth: usize) {
    let shape = black_box(report.shape());
    let start = Instant::now();
    let mut sum = 0;
    for y in 0..shape.rows {
        for first in (0..shape.bands).step_by(depth) {
            let end = shape.bands.min(first + depth);
            for x in 0..shape.columns {
                for z in first..end {
                    sum = mixed(sum, number_of(z, y, x));
                }
            }
        }
    }
    report.line(name, shape.sample_count(), start, || sum);
}

/// Returns the raw bytes of so many samples.
fn raw_bytes(format: Format, count: usize) -> Vec<u8> {
    let mut generator = Generator::new();
    let mut bytes = Vec::with_capacity(count * format.size());
    for _ in 0..count {
        let number = generator.number(format.bits());
        match format {
            Format::Little => bytes.extend_from_slice(&number.to_le_bytes()),
            Format::Big => bytes.extend_from_slice(&number.to_be_bytes()),
            Format::Byte => bytes.push(number as u8),
        }
    }
    bytes
}

fn sum_of_cube(cube: &Cube) -> u64 {
    cube.offsets
        .iter()
        .fold(0, |sum, offset| mixed(sum, u64::from(*offset)))
}
