//! The body of an image's file, with parameters from the command line.

use crate::bits::BitWriter;
use crate::files::{put_body, Coder};
use crate::predictor::cube::{Cube, Params};
use crate::predictor::Order;
use crate::report::Shape;
use std::io::{Read, Write};

/// Prints the body, filled with zeros to whole bytes.
///
/// Standard input contains the offsets of the samples, band sequential, two bytes each, the high byte first. The numbers
/// are columns, rows, bands, bits, 1 for signed samples, the interleaving depth or 0, previous bands, 1 for reduced mode,
/// 1 for column-oriented sums, the register size, omega, the exponent of the change interval, v_min and v_max, and those
/// of the coder: the unary length limit, the rescaling counter size, the initial count exponent and the accumulator
/// initialization constant; or the block size and the reference interval.
pub fn print_body(numbers: &[i64]) {
    let &[columns, rows, bands, bits, signed, depth, previous, reduced, column, register, omega, interval_log, vmin, vmax, ref coder @ ..] =
        numbers
    else {
        panic!("too few numbers");
    };
    let params = Params {
        shape: Shape {
            columns: columns as usize,
            rows: rows as usize,
            bands: bands as usize,
        },
        signed: signed == 1,
        bits: bits as u32,
        previous: previous as u32,
        reduced: reduced == 1,
        column: column == 1,
        register: register as u32,
        omega: omega as u32,
        interval_log: interval_log as u32,
        vmin: vmin as i32,
        vmax: vmax as i32,
    };
    let order = match depth {
        0 => Order::Bsq,
        _ => Order::Bi(depth as usize),
    };
    let mut writer = BitWriter::new();
    put_body(&cube_of(&params), &params, order, coder_of(coder), &mut writer);
    std::io::stdout().write_all(&writer.into_bytes()).expect("an open output");
}

fn cube_of(params: &Params) -> Cube {
    let mut bytes = Vec::new();
    std::io::stdin().read_to_end(&mut bytes).expect("an open input");
    Cube {
        shape: params.shape,
        smin: params.smin(),
        offsets: bytes.chunks_exact(2).map(|two| u16::from_be_bytes([two[0], two[1]])).collect(),
    }
}

fn coder_of(numbers: &[i64]) -> Coder {
    match *numbers {
        [umax, gamma_star, gamma_zero, constant] => Coder::Sample {
            umax: umax as u32,
            gamma_star: gamma_star as u32,
            gamma_zero: gamma_zero as u32,
            constant: constant as u32,
        },
        [size, reference] => Coder::Block {
            size: size as usize,
            reference: reference as u64,
        },
        _ => panic!("four numbers of the sample-adaptive coder, or two of the block-adaptive one"),
    }
}
