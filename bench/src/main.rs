//! The loops of the benchmark program `speed` in plain Rust, over the same data and with the same checksums, and
//! scenes for other programs to code.
//!
//!     plain                                          the checksum of each loop except the pipeline's, over a small cube
//!     plain SUBJECT                                  a line for each loop of a subject, timed
//!     plain raw                                      the raw bytes of the cube that is measured
//!     plain scene SEED COLUMNS ROWS BANDS BITS       raw bytes that look like an imaging spectrometer's
//!     plain small BITS, plain residuals BITS         a small scene, and its mapped residuals
//!     plain body NUMBER..                            the body of an image's file

mod bits;
mod block_coder;
mod body;
mod cube;
mod files;
mod lanes;
mod predictor;
mod report;
mod ring;
mod sample_coder;
mod scene;
mod synthetic;

use report::{Report, Shape};

/// How often each subject's loops are measured.
const ROUNDS: usize = 5;

fn main() {
    let words: Vec<String> = std::env::args().skip(1).collect();
    let number = |i: usize| words[i].parse::<u64>().expect("a number");
    match words.first().map(String::as_str) {
        None => {
            let report = Report { timed: false };
            cube::measure(&report);
            predictor::measure(&report);
            sample_coder::measure(&report);
            block_coder::measure(&report);
            files::measure(&report);
            lanes::measure(&report);
        }
        Some("raw") => predictor::print_raw(),
        Some("scene") => {
            let [columns, rows, bands] = [2, 3, 4].map(|i| number(i) as usize);
            let shape = Shape {
                columns,
                rows,
                bands,
            };
            scene::print_scene(number(1), shape, number(5) as u32);
        }
        Some("small") => scene::print_small(number(1) as u32),
        Some("residuals") => scene::print_residuals(number(1) as u32),
        Some("body") => {
            let numbers: Vec<i64> = words[1..].iter().map(|word| word.parse().expect("a number")).collect();
            body::print_body(&numbers);
        }
        Some(subject) => {
            for _ in 0..ROUNDS {
                measure(subject);
            }
        }
    }
}

/// Measures the loops of a subject.
fn measure(subject: &str) {
    let report = Report { timed: true };
    match subject {
        "cube" => cube::measure(&report),
        "predictor" => predictor::measure(&report),
        "sample_coder" => sample_coder::measure(&report),
        "block_coder" => block_coder::measure(&report),
        "files" => files::measure(&report),
        "lanes" => lanes::measure(&report),
        _ => {}
    }
}
