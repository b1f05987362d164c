//! The coding and decoding of whole files in plain Rust, and a measurement of its speed.

use crate::bits::{BitReader, BitWriter, Refused};
use crate::block_coder::{BlockReader, BlockWriter, Cut};
use crate::predictor::cube::{Cube, Params};
use crate::predictor::{all_bands, params_of, sum_of, synthetic_cube, walk, Order};
use crate::report::{Report, Shape};
use crate::sample_coder::Stats;
use crate::synthetic::sum_of_bytes;
use std::hint::black_box;
use std::time::Instant;

/// The length of a header, in bytes.
const HEADER: u64 = 19;

/// An entropy coder, with the parameters that its part of the header records.
#[derive(Clone, Copy)]
pub enum Coder {
    Sample {
        umax: u32,
        gamma_star: u32,
        gamma_zero: u32,
        constant: u32,
    },
    Block {
        size: usize,
        reference: u64,
    },
}

/// Measures both coders in each order, in full mode with three previous bands.
pub fn measure(report: &Report) {
    let shape = report.shape();
    for (name, order) in [
        ("bsq", Order::Bsq),
        ("bil", Order::Bi(1)),
        ("bip", Order::Bi(shape.bands)),
    ] {
        let params = params_of(shape, false, 3);
        let samples = black_box(Coder::Sample {
            umax: 16,
            gamma_star: 6,
            gamma_zero: 1,
            constant: 3,
        });
        there_and_back(report, &format!("sample_{name}"), &params, order, samples);
        let blocks = black_box(Coder::Block {
            size: 16,
            reference: 64,
        });
        there_and_back(report, &format!("block_{name}"), &params, order, blocks);
    }
}

/// Measures encoding and decoding.
fn there_and_back(report: &Report, name: &str, params: &Params, order: Order, coder: Coder) {
    let count = params.shape.sample_count();
    let cube = synthetic_cube(params);
    let start = Instant::now();
    let file = encode(&cube, params, order, coder);
    report.line(&format!("encode_{name}"), count, start, || {
        sum_of_bytes(&file)
    });
    drop(cube);
    let start = Instant::now();
    let cube = decode(&file, params, order, coder).expect("the cube again");
    report.line(&format!("decode_{name}"), count, start, || {
        sum_of(&cube.offsets)
    });
}

fn encode(cube: &Cube, params: &Params, order: Order, coder: Coder) -> Vec<u8> {
    let mut writer = BitWriter::new();
    put_header(params, order, coder, &mut writer);
    put_body(cube, params, order, coder, &mut writer);
    writer.into_bytes()
}

/// Appends the coded residuals of a cube.
pub fn put_body(cube: &Cube, params: &Params, order: Order, coder: Coder, writer: &mut BitWriter) {
    let mut bands = all_bands(params);
    let mut encoder = Encoder::new(params, coder);
    walk(params.shape, order, |z, y, x| {
        let number = bands[z].forward(cube, y as u32, x as u32);
        encoder.put(z, y == 0 && x == 0, number, writer);
    });
    encoder.end(writer);
}

fn decode(file: &[u8], params: &Params, order: Order, coder: Coder) -> Result<Cube, Refused> {
    let mut reader = BitReader::new(file);
    reader.skip(8 * HEADER)?;
    let mut cube = Cube {
        shape: params.shape,
        smin: params.smin(),
        offsets: vec![0; params.shape.sample_count()],
    };
    let mut bands = all_bands(params);
    let mut decoder = Decoder::new(params, coder);
    let mut refused = false;
    walk(params.shape, order, |z, y, x| {
        match decoder.next(z, y == 0 && x == 0, &mut reader) {
            Ok(number) => {
                let sample = bands[z].inverse(&cube, y as u32, x as u32, number);
                cube.set(z as u32, y as u32, x as u32, sample);
            }
            Err(Refused) => refused = true,
        }
    });
    if refused {
        return Err(Refused);
    }
    Ok(cube)
}

/// Appends the header of unsigned samples, full mode, neighbour-oriented sums and default weights.
fn put_header(params: &Params, order: Order, coder: Coder, writer: &mut BitWriter) {
    let Shape {
        columns,
        rows,
        bands,
    } = params.shape;
    writer.push(0, 8);
    for size in [columns, rows, bands] {
        writer.push(size as u64 % 65_536, 16);
    }
    writer.push(0, 3);
    writer.push(u64::from(params.bits) % 16, 4);
    match order {
        Order::Bsq => writer.push(1 << 16, 17),
        Order::Bi(depth) => writer.push(depth as u64, 17),
    }
    writer.push(1, 5);
    writer.push(matches!(coder, Coder::Block { .. }) as u64, 1);
    writer.push(0, 10);
    writer.push(u64::from(params.previous), 6);
    writer.push(0, 4);
    writer.push(u64::from(params.register), 6);
    writer.push(u64::from(params.omega - 4), 4);
    writer.push(u64::from(params.interval_log - 4), 4);
    writer.push((params.vmin + 6) as u64, 4);
    writer.push((params.vmax + 6) as u64, 4);
    writer.push(0, 8);
    put_coder(coder, writer);
}

/// Appends the coder part of a header.
fn put_coder(coder: Coder, writer: &mut BitWriter) {
    match coder {
        Coder::Sample {
            umax,
            gamma_star,
            gamma_zero,
            constant,
        } => {
            writer.push(u64::from(umax), 5);
            writer.push(u64::from(gamma_star - 4), 3);
            writer.push(u64::from(gamma_zero), 3);
            writer.push(u64::from(constant), 4);
            writer.push(0, 1);
        }
        Coder::Block { size, reference } => {
            writer.push(u64::from(size.trailing_zeros() - 3), 3);
            writer.push(reference, 13);
        }
    }
}

/// The state of an entropy coder that writes.
enum Encoder {
    Samples(Vec<Stats>),
    Blocks(BlockWriter),
}

impl Encoder {
    fn new(params: &Params, coder: Coder) -> Encoder {
        match coder {
            Coder::Sample { .. } => Encoder::Samples(all_stats(params, coder)),
            Coder::Block { size, reference } => {
                Encoder::Blocks(BlockWriter::new(cut(params, size, reference)))
            }
        }
    }

    #[inline]
    fn put(&mut self, z: usize, first: bool, number: u16, writer: &mut BitWriter) {
        match self {
            Encoder::Samples(stats) => stats[z].put(first, number, writer),
            Encoder::Blocks(blocks) => blocks.put(number, writer),
        }
    }

    fn end(&mut self, writer: &mut BitWriter) {
        if let Encoder::Blocks(blocks) = self {
            blocks.end(writer);
        }
    }
}

/// The state of an entropy coder that reads.
enum Decoder {
    Samples(Vec<Stats>),
    Blocks(BlockReader),
}

impl Decoder {
    fn new(params: &Params, coder: Coder) -> Decoder {
        match coder {
            Coder::Sample { .. } => Decoder::Samples(all_stats(params, coder)),
            Coder::Block { size, reference } => {
                Decoder::Blocks(BlockReader::new(cut(params, size, reference)))
            }
        }
    }

    #[inline]
    fn next(&mut self, z: usize, first: bool, reader: &mut BitReader) -> Result<u16, Refused> {
        match self {
            Decoder::Samples(stats) => stats[z].get(first, reader),
            Decoder::Blocks(blocks) => blocks.next(reader),
        }
    }
}

fn cut(params: &Params, size: usize, reference: u64) -> Cut {
    Cut::new(params.bits, size, reference, params.shape.sample_count())
}

fn all_stats(params: &Params, coder: Coder) -> Vec<Stats> {
    let Coder::Sample {
        umax,
        gamma_star,
        gamma_zero,
        constant,
    } = coder
    else {
        return Vec::new();
    };
    (0..params.shape.bands)
        .map(|_| Stats::new(params.bits, umax, gamma_star, gamma_zero, constant))
        .collect()
}
