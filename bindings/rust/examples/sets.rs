//! Codes the numbered scenes of a folder, and decodes their files: what `tests/rust_bindings.py` compares with the program.
//!
//!     sets FOLDER COUNT
//!
//! For each number N the folder holds `N.set`, the parameters by name, a line each, and `N.raw`, the raw bytes. They become `N.file`, and `N.back`, the
//! raw bytes again. A refusal is written in their place.

use ccsds123::{decode, encode, Coder, Fault, Interleave, Layout, Order, Params, Start, WeightTable};
use std::collections::HashMap;
use std::{env, fs, io};

/// The numbers that stand behind a name, as a set gives them.
struct Set(HashMap<String, Vec<i64>>);

impl Set {
    fn read(path: &str) -> io::Result<Set> {
        let text = fs::read_to_string(path)?;
        let lines = text.lines().filter_map(|line| line.split_once(' '));
        Ok(Set(lines.map(|(name, rest)| (name.to_string(), rest.split(' ').filter_map(|it| it.parse().ok()).collect())).collect()))
    }

    fn number(&self, name: &str) -> u32 {
        self.0[name][0] as u32
    }

    fn flag(&self, name: &str) -> bool {
        self.number(name) != 0
    }

    fn list(&self, name: &str) -> Option<&Vec<i64>> {
        self.0.get(name)
    }

    fn params(&self) -> Params {
        let depth = self.number("depth");
        Params {
            signed: self.flag("signed"),
            order: if self.flag("order") { Order::BandInterleaved { depth } } else { Order::BandSequential },
            user: self.number("user"),
            word: self.number("word"),
            previous: self.number("previous"),
            reduced: self.flag("reduced"),
            column_sums: self.flag("column_sums"),
            register: self.number("register"),
            omega: self.number("omega"),
            interval_log: self.number("interval_log"),
            vmin: self.0["vmin"][0] as i32,
            vmax: self.0["vmax"][0] as i32,
            weights: self.list("weights").map(|it| WeightTable { bits: it[0] as u32, values: it[1..].iter().map(|entry| *entry as i32).collect() }),
            coder: self.coder(),
            ..Params::new(self.number("columns"), self.number("rows"), self.number("bands"), self.number("bits"))
        }
    }

    fn coder(&self) -> Coder {
        if self.flag("coder") {
            return Coder::Block { size: self.number("block"), reference: self.number("reference"), restricted: self.flag("restricted") };
        }
        let start = match self.list("accumulators") {
            Some(constants) => Start::Each(constants.iter().map(|it| *it as u8).collect()),
            None => Start::Constant(self.number("k")),
        };
        Coder::Sample { umax: self.number("umax"), gamma_star: self.number("gamma_star"), gamma_zero: self.number("gamma_zero"), start }
    }

    fn layout(&self) -> Layout {
        let interleave = [Interleave::Bsq, Interleave::Bil, Interleave::Bip][self.number("interleave") as usize];
        Layout { interleave, bytes: self.number("sample_bytes"), little: self.flag("little") }
    }
}

fn told(result: Result<Vec<u8>, Fault>) -> Vec<u8> {
    result.unwrap_or_else(|fault| fault.to_string().into_bytes())
}

fn main() -> io::Result<()> {
    let words: Vec<String> = env::args().collect();
    for number in 0..words[2].parse().expect("COUNT is a number") {
        let name = format!("{}/{number}", words[1]);
        let set = Set::read(&format!("{name}.set"))?;
        let file = told(encode(&set.params(), set.layout(), &fs::read(format!("{name}.raw"))?));
        fs::write(format!("{name}.file"), &file)?;
        let back = decode(&file, set.layout()).map(|(params, raw)| {
            assert_eq!(params, set.params());
            raw
        });
        fs::write(format!("{name}.back"), told(back))?;
    }
    Ok(())
}
