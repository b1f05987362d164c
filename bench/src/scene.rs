//! Scenes for other programs to code: one that resembles that of an imaging spectrometer, and a small one whose
//! blocks take every code option.

use crate::predictor::cube::{Cube, Params};
use crate::predictor::{all_bands, walk, Order};
use crate::report::Shape;
use crate::synthetic::Generator;
use std::io::{BufWriter, Write};

/// The number of materials that the ground of a scene is mixed from.
const MATERIALS: usize = 5;

/// The sizes of the small scene. Its samples don't fill the last block of any size.
const SMALL: Shape = Shape {
    columns: 97,
    rows: 39,
    bands: 5,
};

/// Writes a scene to standard output, interleaved by line, two bytes a sample, the low byte first.
///
/// The ground is a mixture of materials whose shares change slowly over it; each has a smooth spectrum with two
/// absorption lines. Light falls off to the sides, the detector of each column and band has a gain and an offset of its
/// own, and noise grows with the square root of the signal.
pub fn print_scene(seed: u64, shape: Shape, bits: u32) {
    let mut generator = Generator::seeded(seed);
    let spectra: Vec<Vec<f64>> = (0..MATERIALS)
        .map(|_| spectrum(&mut generator, shape.bands))
        .collect();
    let ground: Vec<Field> = (0..MATERIALS).map(|_| Field::new(&mut generator)).collect();
    let detectors: Vec<(f64, f64)> = (0..shape.columns * shape.bands)
        .map(|_| (1.0 + 0.01 * noise(&mut generator), 2.0 * noise(&mut generator)))
        .collect();
    let most = f64::from((1_u32 << bits) - 1);
    let mut out = BufWriter::new(std::io::stdout().lock());
    for y in 0..shape.rows {
        let shares: Vec<Vec<f64>> = (0..shape.columns)
            .map(|x| shares_at(&ground, x as f64, y as f64))
            .collect();
        for z in 0..shape.bands {
            for (x, shares) in shares.iter().enumerate() {
                let mixed: f64 = shares.iter().zip(&spectra).map(|(share, of)| share * of[z]).sum();
                let aside = 2.0 * x as f64 / shape.columns as f64 - 1.0;
                let signal = 0.6 * most * mixed * (1.0 - 0.15 * aside * aside);
                let (gain, offset) = detectors[z * shape.columns + x];
                let noisy = gain * signal + offset + 0.08 * signal.sqrt() * noise(&mut generator);
                let sample = noisy.clamp(0.0, most) as u16;
                out.write_all(&sample.to_le_bytes()).expect("an open output");
            }
        }
    }
    out.flush().expect("an open output");
}

/// Returns a smooth spectrum between 0 and 1, with two absorption lines.
fn spectrum(generator: &mut Generator, bands: usize) -> Vec<f64> {
    let (level, slope) = (0.3 + 0.5 * unit(generator), 0.6 * unit(generator) - 0.3);
    let lines: Vec<(f64, f64, f64)> = (0..2)
        .map(|_| (unit(generator), 0.02 + 0.06 * unit(generator), 0.6 * unit(generator)))
        .collect();
    (0..bands)
        .map(|z| {
            let at = z as f64 / bands as f64;
            let dips: f64 = lines
                .iter()
                .map(|(center, width, depth)| 1.0 - depth * (-((at - center) / width).powi(2)).exp())
                .product();
            (level + slope * at).clamp(0.05, 1.0) * dips
        })
        .collect()
}

/// A function that changes slowly over the ground: the sum of waves of four lengths.
struct Field {
    waves: Vec<(f64, f64, f64)>,
}

impl Field {
    fn new(generator: &mut Generator) -> Field {
        let waves = [300.0, 110.0, 37.0, 13.0]
            .iter()
            .map(|length| {
                let turn = std::f64::consts::TAU * unit(generator);
                (turn.cos() / length, turn.sin() / length, std::f64::consts::TAU * unit(generator))
            })
            .collect();
        Field { waves }
    }

    fn at(&self, x: f64, y: f64) -> f64 {
        self.waves
            .iter()
            .enumerate()
            .map(|(i, (along, down, phase))| (x * along + y * down + phase).sin() / (i + 1) as f64)
            .sum()
    }
}

/// Returns the share of each material at a point; the shares add up to 1.
fn shares_at(ground: &[Field], x: f64, y: f64) -> Vec<f64> {
    let weights: Vec<f64> = ground.iter().map(|field| (1.5 * field.at(x, y)).exp()).collect();
    let sum: f64 = weights.iter().sum();
    weights.iter().map(|weight| weight / sum).collect()
}

/// Returns a random number of at least 0 and less than 1.
fn unit(generator: &mut Generator) -> f64 {
    f64::from(generator.number(16)) / 65_536.0
}

/// Returns approximately normal noise, with a standard deviation of 1.
fn noise(generator: &mut Generator) -> f64 {
    (0..4).map(|_| unit(generator) - 0.5).sum::<f64>() * f64::sqrt(3.0)
}

/// Writes the small scene to standard output, band sequential, two bytes a sample, the high byte first.
pub fn print_small(bits: u32) {
    print_numbers(&small_cube(bits).offsets);
}

/// Writes the mapped residuals of the small scene, in band sequential order, as `print_small` writes samples.
pub fn print_residuals(bits: u32) {
    let params = small_params(bits);
    let cube = small_cube(bits);
    let mut bands = all_bands(&params);
    let mut residuals = Vec::with_capacity(SMALL.sample_count());
    walk(SMALL, Order::Bsq, |z, y, x| {
        residuals.push(bands[z].forward(&cube, y as u32, x as u32));
    });
    print_numbers(&residuals);
}

/// Returns the parameters of the small scene: the defaults of the command, but a register of 32 bits.
fn small_params(bits: u32) -> Params {
    Params {
        shape: SMALL,
        signed: false,
        bits,
        previous: 3,
        reduced: false,
        column: false,
        register: 32,
        omega: 13,
        interval_log: 6,
        vmin: -1,
        vmax: 3,
    }
}

/// Returns the small scene. Each band has rows of noise that gets stronger row by row, rows of a slope, and rows that are
/// nearly constant. Its blocks take every split and the uncoded option, and form short and long runs of zero blocks, the
/// last of which reaches the end of the image.
fn small_cube(bits: u32) -> Cube {
    let mut generator = Generator::seeded(u64::from(bits));
    let mut offsets = Vec::with_capacity(SMALL.sample_count());
    for z in 0..SMALL.bands {
        for y in 0..SMALL.rows {
            for x in 0..SMALL.columns {
                let offset = match y {
                    0..=15 => generator.number((y as u32 + 1).min(bits)),
                    16..=23 => (3 * z + y + x / 8) as u16,
                    _ => (1_u16 << (bits - 1)) + u16::from(y == 30 && x % 31 == 0),
                };
                offsets.push(offset & (u16::MAX >> (16 - bits)));
            }
        }
    }
    Cube {
        shape: SMALL,
        smin: 0,
        offsets,
    }
}

fn print_numbers(numbers: &[u16]) {
    let bytes: Vec<u8> = numbers.iter().flat_map(|number| number.to_be_bytes()).collect();
    std::io::stdout().write_all(&bytes).expect("an open output");
}
