//! The answers in flat numbers: the refusal first, every other number 0 on a refusal, a register handed back as given.
//! The fields and their order are those of include/cocklejoist.h.

/// B: the largest q, and the largest p of either sign.
pub const LIMIT: i64 = 1_073_741_823;
/// The largest memory of a valid register, of either sign.
pub const MOST_MEMORY: i64 = 1 << 30;
pub const MOST_BITS: usize = 4096;
pub const WHITEN_BYTES: usize = 512;
pub const METERS: usize = 32;
pub const PLACE_BYTES: usize = 514;
pub const STORE_BYTES: usize = METERS * PLACE_BYTES;
pub const BLOCK_BYTES: usize = 16_384;
pub const HEADER_BYTES: usize = 6;
pub const RECORD_BITS: usize = 512;

#[repr(C)]
#[derive(Clone, Copy, PartialEq, Eq, Debug, Default, Hash)]
pub struct Register {
    pub q: u32,
    pub cells: u32,
    pub memory: i32,
}

#[repr(C)]
#[derive(Clone, Copy, PartialEq, Eq, Debug, Default)]
pub struct Fraction {
    pub refusal: u32,
    pub p: i32,
    pub q: u32,
}

#[repr(C)]
#[derive(Clone, Copy, PartialEq, Eq, Debug, Default)]
pub struct Loaded {
    pub refusal: u32,
    pub state: Register,
}

#[repr(C)]
#[derive(Clone, Copy, PartialEq, Eq, Debug, Default)]
pub struct Stepped {
    pub refusal: u32,
    pub bit: u32,
    pub state: Register,
}

#[repr(C)]
#[derive(Clone, Copy, PartialEq, Eq, Debug, Default)]
pub struct Walked {
    pub refusal: u32,
    pub lead: u32,
    pub period: u32,
    pub sum: u32,
}

#[repr(C)]
#[derive(Clone, Copy, PartialEq, Eq, Debug, Default)]
pub struct Storage {
    pub refusal: u32,
    pub cells: u32,
    pub memory_bits: u32,
}

#[repr(C)]
#[derive(Clone, Copy, PartialEq, Eq, Debug, Default)]
pub struct Entry {
    pub refusal: u32,
    pub period: u32,
}

#[repr(C)]
#[derive(Clone, Copy, PartialEq, Eq, Debug, Default)]
pub struct Word {
    pub refusal: u32,
    pub word: u64,
}

#[repr(C)]
#[derive(Clone, Copy, PartialEq, Eq, Debug, Default)]
pub struct Taken {
    pub refusal: u32,
    pub place: u32,
}

/// A record of two antennas' blocks; its bytes are `length` from `start` in the block of `antenna`.
#[repr(C)]
#[derive(Clone, Copy, PartialEq, Eq, Debug, Default)]
pub struct Read {
    pub refusal: u32,
    pub place: u32,
    pub count: u32,
    pub antenna: u32,
    pub start: u32,
    pub length: u32,
}

impl Fraction {
    pub fn refused(refusal: u32) -> Fraction {
        Fraction { refusal, p: 0, q: 0 }
    }

    pub fn of(p: i64, q: i64) -> Fraction {
        Fraction { refusal: 0, p: i32::try_from(p).expect("p inside the limits"), q: u32::try_from(q).expect("q inside the limits") }
    }
}
