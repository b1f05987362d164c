//! What is coded comes back, and what isn't lawful is refused by name.

use ccsds123::{
    decode, decode_samples, encode, encode_samples, read_header, Coder, Fault, Field, Interleave, Layout, Member, Order, Params, RowEncoder, Rule, Start,
    WeightTable,
};

const ALL: [Interleave; 3] = [Interleave::Bsq, Interleave::Bil, Interleave::Bip];

/// The header of two samples of eight bits, one row below the other, and the file of twice 200: `samples/small.hex`.
const SMALL: &str = "00000100020001110000080002a092590082269080";

fn bytes_of(hexadecimal: &str) -> Vec<u8> {
    (0..hexadecimal.len()).step_by(2).map(|at| u8::from_str_radix(&hexadecimal[at..at + 2], 16).unwrap()).collect()
}

fn small() -> Params {
    Params { previous: 0, reduced: true, column_sums: true, register: 32, ..Params::new(1, 2, 1, 8) }
}

/// Samples that climb along the track, with some noise.
fn scene(params: &Params) -> Vec<u16> {
    let count = params.columns * params.rows * params.bands;
    (0..count).map(|i| ((i / 7) as u16 ^ (i.wrapping_mul(2_654_435_761) >> 28) as u16) & ((1u32 << params.bits) - 1) as u16).collect()
}

#[test]
fn the_small_file_is_the_worked_one() {
    let layout = Layout { interleave: Interleave::Bsq, bytes: 1, little: false };
    assert_eq!(encode(&small(), layout, &[200, 200]), Ok(bytes_of(SMALL)));
    assert_eq!(decode(&bytes_of(SMALL), layout), Ok((small(), vec![200, 200])));
}

#[test]
fn each_layout_gives_the_same_file() {
    let params = Params::new(5, 4, 3, 8);
    let samples: Vec<u8> = (0..60).collect();
    for interleave in ALL {
        let file = encode_samples(&params, interleave, &samples).unwrap();
        for (bytes, little) in [(1, false), (2, false), (2, true)] {
            let layout = Layout { interleave, bytes, little };
            let (found, raw) = decode(&file, layout).unwrap();
            assert_eq!(found, params);
            assert_eq!(encode(&params, layout, &raw), Ok(file.clone()));
        }
    }
}

#[test]
fn tables_come_back() {
    let usual = Params { order: Order::BandInterleaved { depth: 2 }, ..Params::new(6, 5, 4, 12) };
    let weights = WeightTable { bits: 7, values: (0..usual.weight_count() as i32).map(|i| i * 5 % 127 - 63).collect() };
    let coder = Coder::Sample { umax: 18, gamma_star: 8, gamma_zero: 2, start: Start::Each(vec![0, 10, 3, 7]) };
    let params = Params { weights: Some(weights), coder, ..usual };
    let file = encode_samples(&params, Interleave::Bil, &scene(&params)).unwrap();
    let header = read_header(&file).unwrap();
    assert_eq!(header.params, params);
    assert_eq!(read_header(&file[..header.length]).unwrap(), header);
    assert_eq!(read_header(&file[..header.length - 1]), Err(Fault::ShortHeader));
    assert_eq!(decode_samples(&file, Interleave::Bil), Ok((params.clone(), scene(&params))));
}

#[test]
fn both_coders_and_orders_come_back() {
    for coder in [Coder::sample(), Coder::block(), Coder::Block { size: 64, reference: 3, restricted: false }] {
        for order in [Order::BandSequential, Order::BandInterleaved { depth: 1 }, Order::BandInterleaved { depth: 9 }] {
            let params = Params { order, coder: coder.clone(), ..Params::new(70, 6, 9, 13) };
            let file = encode_samples(&params, Interleave::Bsq, &scene(&params)).unwrap();
            assert!(file.len() as u64 <= params.bound().unwrap());
            assert_eq!(decode_samples(&file, Interleave::Bsq), Ok((params.clone(), scene(&params))));
        }
    }
}

#[test]
fn signed_samples_are_no_unsigned_ones() {
    let params = Params { signed: true, ..Params::new(2, 2, 1, 16) };
    let file = encode_samples(&params, Interleave::Bsq, &[5i16, 7, -1, i16::MIN]).unwrap();
    assert_eq!(decode_samples(&file, Interleave::Bsq), Ok((params, vec![5i16, 7, -1, i16::MIN])));
    assert_eq!(decode_samples::<u16>(&file, Interleave::Bsq), Err(Fault::SampleRange { index: 2 }));
    assert_eq!(decode_samples::<i8>(&file, Interleave::Bsq), Err(Fault::SampleRange { index: 3 }));
}

#[test]
fn what_is_not_lawful_is_refused_by_name() {
    let params = Params::new(4, 3, 2, 12);
    let layout = Layout { interleave: Interleave::Bsq, bytes: 2, little: true };
    let raw = vec![0; 48];
    let cases = [
        (Params { columns: 0, ..params.clone() }, Fault::FieldRange { field: Field::Columns, value: 0 }),
        (Params { bits: 17, ..params.clone() }, Fault::FieldRange { field: Field::DynamicRange, value: 17 }),
        (Params { order: Order::BandInterleaved { depth: 3 }, ..params.clone() }, Fault::Disagree { rule: Rule::DepthOverBands }),
        (Params { register: 32, omega: 19, ..params.clone() }, Fault::Disagree { rule: Rule::RegisterTooSmall }),
        (Params { vmin: -7, ..params.clone() }, Fault::FieldRange { field: Field::VMin, value: -7 }),
        (Params { weights: Some(WeightTable { bits: 5, values: vec![] }), ..params.clone() }, Fault::Disagree { rule: Rule::WeightTableLength }),
        (Params { columns: 3, ..params.clone() }, Fault::RawLength { wanted: 36, had: 48 }),
    ];
    for (wrong, fault) in cases {
        assert_eq!(encode(&wrong, layout, &raw), Err(fault));
    }
    assert_eq!(encode(&Params { bits: 4, coder: Coder::block(), ..params }, layout, &[16, 0].repeat(24)), Err(Fault::SampleRange { index: 0 }));
}

#[test]
fn no_cut_or_damaged_file_is_read_outside_its_bytes() {
    let params = Params::new(9, 8, 7, 10);
    let file = encode_samples(&params, Interleave::Bsq, &scene(&params)).unwrap();
    for end in 0..file.len() {
        assert!(decode_samples::<u16>(&file[..end], Interleave::Bsq).is_err());
    }
    for bit in 0..8 * file.len() {
        let mut damaged = file.clone();
        damaged[bit / 8] ^= 1 << (bit % 8);
        let _ = decode_samples::<u16>(&damaged, Interleave::Bsq);
    }
}

#[test]
fn many_threads_at_once() {
    let params = Params::new(60, 20, 8, 12);
    let file = encode_samples(&params, Interleave::Bip, &scene(&params)).unwrap();
    std::thread::scope(|scope| {
        for _ in 0..8 {
            scope.spawn(|| {
                for _ in 0..10 {
                    assert_eq!(encode_samples(&params, Interleave::Bip, &scene(&params)).as_ref(), Ok(&file));
                    assert_eq!(decode_samples(&file, Interleave::Bip), Ok((params.clone(), scene(&params))));
                }
            });
        }
    });
}

/// Checks that rows of so many bytes, handed over two at a time, give the file of all raw bytes.
fn check_rows(params: &Params, interleave: Interleave, row: usize) {
    let layout = Layout { interleave, bytes: 2, little: true };
    let raw: Vec<u8> = scene(params).iter().flat_map(|sample| sample.to_le_bytes()).collect();
    let mut encoder = RowEncoder::new(params, layout).unwrap();
    for rows in raw.chunks(2 * row) {
        encoder.rows(rows).unwrap();
    }
    assert_eq!(encoder.end(), encode(params, layout, &raw));
}

#[test]
fn rows_give_the_same_file() {
    for depth in 1..=4 {
        let params = Params { order: Order::BandInterleaved { depth }, ..Params::new(6, 5, 4, 12) };
        for interleave in [Interleave::Bil, Interleave::Bip] {
            check_rows(&params, interleave, 48);
        }
    }
    for previous in [0, 1, 3, 15] {
        for bands in [1, 4, 8, 9, 40] {
            check_rows(&Params { previous, ..Params::new(6, 5, bands, 12) }, Interleave::Bsq, 12);
        }
    }
}

#[test]
fn orders_and_layouts_that_disagree_are_refused_by_name() {
    let layout = |interleave| Layout { interleave, bytes: 2, little: false };
    let (sequential, interleaved) = (Params::new(6, 5, 4, 12), Params { order: Order::BandInterleaved { depth: 1 }, ..Params::new(6, 5, 4, 12) });
    for interleave in [Interleave::Bil, Interleave::Bip] {
        assert_eq!(RowEncoder::new(&sequential, layout(interleave)).err(), Some(Fault::Choice { member: Member::Order, value: 0 }));
    }
    assert_eq!(RowEncoder::new(&interleaved, layout(Interleave::Bsq)).err(), Some(Fault::Choice { member: Member::Interleave, value: 0 }));
}

#[test]
fn rows_are_refused_by_name() {
    let interleaved = Params { order: Order::BandInterleaved { depth: 1 }, ..Params::new(6, 5, 4, 12) };
    for (params, interleave, row) in [(&interleaved, Interleave::Bil, 48), (&Params::new(6, 5, 4, 12), Interleave::Bsq, 12)] {
        let layout = Layout { interleave, bytes: 2, little: false };
        let begun = || RowEncoder::new(params, layout).unwrap();
        let mut encoder = begun();
        assert_eq!(encoder.rows(&vec![0; row - 1]), Err(Fault::RawLength { wanted: 240, had: row as u64 - 1 }));
        assert_eq!(encoder.rows(&vec![0; row]), Err(Fault::Usage));
        assert_eq!(encoder.end(), Err(Fault::Usage));
        let mut encoder = begun();
        assert_eq!(encoder.rows(&vec![0; row]), Ok(()));
        assert_eq!(encoder.end(), Err(Fault::RawLength { wanted: 240, had: row as u64 }));
        let mut encoder = begun();
        assert_eq!(encoder.rows(&vec![0; row]), Ok(()));
        assert_eq!(encoder.rows(&vec![255; row]), Err(Fault::SampleRange { index: row as u64 / 2 }));
        drop(begun());
    }
}
