//! Cubes, and their raw bytes in each layout.

use crate::report::Shape;

#[derive(Clone, Copy)]
pub enum RawOrder {
    Bsq,
    Bil,
    Bip,
}

/// The size and the byte order of a raw sample.
#[derive(Clone, Copy)]
pub enum Format {
    Little,
    Big,
    Byte,
}

impl Format {
    pub fn name(self) -> &'static str {
        match self {
            Format::Little => "little",
            Format::Big => "big",
            Format::Byte => "byte",
        }
    }

    /// Returns the bits of a sample.
    pub fn bits(self) -> u32 {
        match self {
            Format::Little | Format::Big => 12,
            Format::Byte => 8,
        }
    }

    pub fn size(self) -> usize {
        match self {
            Format::Little | Format::Big => 2,
            Format::Byte => 1,
        }
    }
}

/// Samples of so many bits, signed or not, each kept as its offset from the least one.
pub struct Cube {
    shape: Shape,
    signed: bool,
    bits: u32,
    pub offsets: Vec<u16>,
}

/// The conversion of a sample from and to its raw bytes.
pub trait Spelling<const SIZE: usize> {
    fn number(bytes: [u8; SIZE]) -> u16;
    fn bytes(number: u16) -> [u8; SIZE];
}

pub struct Little;
pub struct Big;
pub struct Byte;

impl Spelling<2> for Little {
    fn number(bytes: [u8; 2]) -> u16 {
        u16::from_le_bytes(bytes)
    }
    fn bytes(number: u16) -> [u8; 2] {
        number.to_le_bytes()
    }
}

impl Spelling<2> for Big {
    fn number(bytes: [u8; 2]) -> u16 {
        u16::from_be_bytes(bytes)
    }
    fn bytes(number: u16) -> [u8; 2] {
        number.to_be_bytes()
    }
}

impl Spelling<1> for Byte {
    fn number(bytes: [u8; 1]) -> u16 {
        u16::from(bytes[0])
    }
    fn bytes(number: u16) -> [u8; 1] {
        [number as u8]
    }
}

/// The refusal of a sample that is out of range, with its index in the raw layout.
#[derive(Debug)]
pub struct Bad {
    pub index: usize,
}

impl Cube {
    /// Reads raw bytes, or returns the first sample that isn't of the kind.
    pub fn from_raw<S: Spelling<SIZE>, const SIZE: usize>(
        shape: Shape,
        signed: bool,
        bits: u32,
        order: RawOrder,
        bytes: &[u8],
    ) -> Result<Cube, Bad> {
        let mut cube = Cube {
            shape,
            signed,
            bits,
            offsets: vec![0u16; shape.sample_count()],
        };
        match order {
            RawOrder::Bsq | RawOrder::Bil => cube.read_lines::<S, SIZE>(order, bytes)?,
            RawOrder::Bip => cube.read_pixels::<S, SIZE>(bytes)?,
        }
        Ok(cube)
    }

    /// Reads raw bytes row after row of single bands.
    fn read_lines<S: Spelling<SIZE>, const SIZE: usize>(
        &mut self,
        order: RawOrder,
        bytes: &[u8],
    ) -> Result<(), Bad> {
        let Shape {
            columns,
            rows,
            bands,
        } = self.shape;
        let conversion = self.conversion();
        for (i, raw) in bytes.chunks_exact(columns * SIZE).enumerate() {
            let row = match order {
                RawOrder::Bil => (i % bands) * rows + i / bands,
                _ => i,
            };
            let row = &mut self.offsets[row * columns..][..columns];
            if conversion.read_row::<S, SIZE>(raw.chunks_exact(SIZE), row) != 0 {
                let beyond = |offset: &u16| offset & !conversion.most != 0;
                let x = row.iter().position(beyond).unwrap();
                return Err(Bad {
                    index: i * columns + x,
                });
            }
        }
        Ok(())
    }

    /// Reads raw bytes row after row of pixels.
    fn read_pixels<S: Spelling<SIZE>, const SIZE: usize>(
        &mut self,
        bytes: &[u8],
    ) -> Result<(), Bad> {
        let Shape {
            columns,
            rows,
            bands,
        } = self.shape;
        let conversion = self.conversion();
        for (y, raw) in bytes.chunks_exact(columns * bands * SIZE).enumerate() {
            let mut over = 0;
            for z in 0..bands {
                let row = &mut self.offsets[(z * rows + y) * columns..][..columns];
                let line = raw[z * SIZE..].chunks(bands * SIZE);
                over |= conversion.read_row::<S, SIZE>(line, row);
            }
            if over != 0 {
                let bad = (0..columns * bands).find(|i| {
                    let at = (i % bands * rows + y) * columns + i / bands;
                    self.offsets[at] & !conversion.most != 0
                });
                return Err(Bad {
                    index: y * columns * bands + bad.unwrap(),
                });
            }
        }
        Ok(())
    }

    /// Returns the conversion of raw numbers to offsets.
    fn conversion(&self) -> Conversion {
        Conversion {
            signed: self.signed,
            shift: shift_of(self.signed, self.bits),
            most: ((1u32 << self.bits) - 1) as u16,
        }
    }

    pub fn to_raw<S: Spelling<SIZE>, const SIZE: usize>(&self, order: RawOrder) -> Vec<u8> {
        let Shape {
            columns,
            rows,
            bands,
        } = self.shape;
        let shift = shift_of(self.signed, self.bits);
        let mut bytes = vec![0; self.offsets.len() * SIZE];
        match order {
            RawOrder::Bsq | RawOrder::Bil => {
                for (i, raw) in bytes.chunks_exact_mut(columns * SIZE).enumerate() {
                    let row = match order {
                        RawOrder::Bil => (i % bands) * rows + i / bands,
                        _ => i,
                    };
                    let row = &self.offsets[row * columns..][..columns];
                    for (offset, raw) in row.iter().zip(raw.chunks_exact_mut(SIZE)) {
                        raw.copy_from_slice(&S::bytes(offset.wrapping_sub(shift)));
                    }
                }
            }
            RawOrder::Bip => {
                for (y, raw) in bytes.chunks_exact_mut(columns * bands * SIZE).enumerate() {
                    for z in 0..bands {
                        let row = &self.offsets[(z * rows + y) * columns..][..columns];
                        let line = raw[z * SIZE..].chunks_mut(bands * SIZE);
                        for (offset, raw) in row.iter().zip(line) {
                            raw[..SIZE].copy_from_slice(&S::bytes(offset.wrapping_sub(shift)));
                        }
                    }
                }
            }
        }
        bytes
    }
}

/// The conversion of raw numbers to offsets from the least sample.
#[derive(Clone, Copy)]
struct Conversion {
    signed: bool,
    shift: u16,
    /// The greatest offset.
    most: u16,
}

impl Conversion {
    /// Reads a row, and returns the bits of its offsets beyond those of the greatest one.
    #[inline(always)]
    fn read_row<'a, S: Spelling<SIZE>, const SIZE: usize>(
        self,
        raw: impl Iterator<Item = &'a [u8]>,
        row: &mut [u16],
    ) -> u16 {
        let mut over = 0;
        for (offset, raw) in row.iter_mut().zip(raw) {
            let number = S::number(raw[..SIZE].try_into().unwrap());
            // With one byte a signed number's sign is the eighth bit.
            let extended = if self.signed && SIZE == 1 {
                number as u8 as i8 as u16
            } else {
                number
            };
            *offset = extended.wrapping_add(self.shift);
            over |= *offset & !self.most;
        }
        over
    }
}

/// Returns the offset of a sample of 0.
fn shift_of(signed: bool, bits: u32) -> u16 {
    if signed {
        1 << (bits - 1)
    } else {
        0
    }
}
