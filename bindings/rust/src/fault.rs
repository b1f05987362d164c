//! Why the coder refuses.

use crate::ffi;
use std::error::Error;
use std::fmt;

/// Defines an enum of the names that the library counts from 1.
macro_rules! names {
    ($(#[$about:meta])* $name:ident { $($item:ident),* $(,)? }) => {
        $(#[$about])*
        #[derive(Clone, Copy, Debug, PartialEq, Eq)]
        pub enum $name {
            $($item),*
        }

        impl $name {
            const ALL: &'static [$name] = &[$($name::$item),*];

            fn of(number: u32) -> Option<$name> {
                $name::ALL.get((number as usize).checked_sub(1)?).copied()
            }
        }
    };
}

names! {
    /// A parameter that has a range of its own.
    Field {
        Columns, Rows, Bands, DynamicRange, User, Depth, WordSize, Previous, Register, Omega, Interval, VMin, VMax, WeightStart, Resolution, WeightEntry,
        Umax, GammaStar, GammaZero, AccumulatorTable, BlockSize, Restricted, Reference, Predictors, Slots,
    }
}

names! {
    /// A rule between parameters.
    Rule {
        DepthOverBands, FullOneColumn, NeighbourOneColumn, RegisterTooSmall, ExponentOrder, DefaultWithTable, DefaultWithResolution, ResolutionOverOmega,
        WeightTableLength, CounterOrder, StartConstant, ConstantWithTable, AccumulatorTableLength, AccumulatorEntry, RestrictedOverFour,
    }
}

names! {
    /// A room of the library's caller.
    Room { File, Raw, Weights, Accumulators }
}

names! {
    /// A member that is one of a few constants.
    Member { Order, Coder, Interleave, Bytes }
}

/// Why a call is refused. It prints its number, its name and its values, as the command `ccsds` does; `docs/COMMAND.md` says of each what to do.
///
/// A bit, place, block, index or band counts from 0. Some are refusals of the command alone, and no call of this crate returns them.
#[derive(Clone, Copy, Debug, PartialEq, Eq)]
#[non_exhaustive]
pub enum Fault {
    /// The bytes end inside the header.
    ShortHeader,
    /// This bit of the header must be 0 and is 1.
    Reserved { bit: u64 },
    /// A parameter is out of its range.
    FieldRange { field: Field, value: i64 },
    /// Parameters break a rule.
    Disagree { rule: Rule },
    /// The file's weights start from a table that isn't in it.
    TableElsewhere,
    /// The file ends too early; `bit` is its length in bits.
    Truncated { bit: u64 },
    /// At this place in encoding order the bits are no lawful code word.
    BadCode { place: u64 },
    /// This block holds a value out of range.
    BadOption { block: u64 },
    /// A run of zero blocks is longer than the rest of its segment.
    RunPastSegment { block: u64 },
    /// A bit after the last code word is 1.
    BadFill,
    /// An output word or more follows the last code word; `bits` is how many bits do.
    TooLong { bits: u64 },
    /// Memory could not be allocated.
    WantOfMemory,
    /// The raw sample with this index, in the order of the layout, is out of range; or, where a file is decoded, doesn't fit in its byte.
    SampleRange { index: u64 },
    /// There are `had` raw bytes, and the sizes ask for `wanted`.
    RawLength { wanted: u64, had: u64 },
    /// Of the command's threads.
    BadDeal { band: u64 },
    /// Of the command's threads.
    SpawnRefused,
    /// Of the command's threads.
    Stopped { predictor: u64, sent: u64 },
    /// The file is too long.
    Read,
    /// Of the command's devices.
    Write { written: u64 },
    /// Of the command's words.
    Usage,
    /// A room of the library's caller is too small; this crate asks with enough of it.
    Room { room: Room, wanted: u64, had: u64 },
    /// The library knows another size of its parameters: it is of another version.
    StructSize { known: u64, given: u64 },
    /// A member has no such value, such as 3 bytes a sample.
    Choice { member: Member, value: i64 },
    /// A number that this crate doesn't know: the library is of a later version.
    Other { number: u32 },
}

impl Fault {
    /// The fault that the library told.
    pub(crate) fn of(raw: &ffi::Fault) -> Fault {
        let (first, second) = (raw.first as u64, raw.second as u64);
        Fault::named(raw).unwrap_or(match raw.number {
            1 => Fault::ShortHeader,
            2 => Fault::Reserved { bit: first },
            5 => Fault::TableElsewhere,
            6 => Fault::Truncated { bit: first },
            7 => Fault::BadCode { place: first },
            8 => Fault::BadOption { block: first },
            9 => Fault::RunPastSegment { block: first },
            10 => Fault::BadFill,
            11 => Fault::TooLong { bits: first },
            12 => Fault::WantOfMemory,
            13 => Fault::SampleRange { index: first },
            14 => Fault::RawLength { wanted: first, had: second },
            15 => Fault::BadDeal { band: first },
            16 => Fault::SpawnRefused,
            17 => Fault::Stopped { predictor: first, sent: second },
            18 => Fault::Read,
            19 => Fault::Write { written: first },
            20 => Fault::Usage,
            22 => Fault::StructSize { known: first, given: second },
            number => Fault::Other { number },
        })
    }

    /// The fault, where it is one with a name that is known.
    fn named(raw: &ffi::Fault) -> Option<Fault> {
        match raw.number {
            3 => Some(Fault::FieldRange { field: Field::of(raw.name)?, value: raw.first }),
            4 => Some(Fault::Disagree { rule: Rule::of(raw.name)? }),
            21 => Some(Fault::Room { room: Room::of(raw.name)?, wanted: raw.first as u64, had: raw.second as u64 }),
            23 => Some(Fault::Choice { member: Member::of(raw.name)?, value: raw.first }),
            _ => None,
        }
    }
}

impl fmt::Display for Fault {
    fn fmt(&self, f: &mut fmt::Formatter<'_>) -> fmt::Result {
        match *self {
            Fault::ShortHeader => write!(f, "1 ShortHeader"),
            Fault::Reserved { bit } => write!(f, "2 Reserved {bit}"),
            Fault::FieldRange { field, value } => write!(f, "3 FieldRange {field:?} {value}"),
            Fault::Disagree { rule } => write!(f, "4 Disagree {rule:?}"),
            Fault::TableElsewhere => write!(f, "5 TableElsewhere"),
            Fault::Truncated { bit } => write!(f, "6 Truncated {bit}"),
            Fault::BadCode { place } => write!(f, "7 BadCode {place}"),
            Fault::BadOption { block } => write!(f, "8 BadOption {block}"),
            Fault::RunPastSegment { block } => write!(f, "9 RunPastSegment {block}"),
            Fault::BadFill => write!(f, "10 BadFill"),
            Fault::TooLong { bits } => write!(f, "11 TooLong {bits}"),
            Fault::WantOfMemory => write!(f, "12 WantOfMemory"),
            Fault::SampleRange { index } => write!(f, "13 SampleRange {index}"),
            Fault::RawLength { wanted, had } => write!(f, "14 RawLength {wanted} {had}"),
            Fault::BadDeal { band } => write!(f, "15 BadDeal {band}"),
            Fault::SpawnRefused => write!(f, "16 SpawnRefused"),
            Fault::Stopped { predictor, sent } => write!(f, "17 Stopped {predictor} {sent}"),
            Fault::Read => write!(f, "18 Read"),
            Fault::Write { written } => write!(f, "19 Write {written}"),
            Fault::Usage => write!(f, "20 Usage"),
            Fault::Room { room, wanted, had } => write!(f, "21 Room {room:?} {wanted} {had}"),
            Fault::StructSize { known, given } => write!(f, "22 StructSize {known} {given}"),
            Fault::Choice { member, value } => write!(f, "23 Choice {member:?} {value}"),
            Fault::Other { number } => write!(f, "{number}"),
        }
    }
}

impl Error for Fault {}

#[cfg(test)]
mod tests {
    use super::*;

    fn text(raw: &ffi::Fault) -> String {
        let mut room = [0u8; 96];
        // SAFETY: the fault is valid, and the room has as many bytes as are said.
        let length = unsafe { ffi::ccsds123_fault_text(raw, room.as_mut_ptr(), room.len()) };
        String::from_utf8(room[..length].to_vec()).unwrap()
    }

    /// Each fault of the program prints what the library writes of it.
    #[test]
    fn prints_the_text_of_the_library() {
        for number in 1..=20 {
            let names = match number {
                3 => 1..=25,
                4 => 1..=15,
                _ => 0..=0,
            };
            for name in names {
                let raw = ffi::Fault { number, name, first: 7, second: 70 };
                assert_eq!(Fault::of(&raw).to_string(), text(&raw));
            }
        }
    }
}
