//! The functions of the C interface, as the comparison calls them: once linked from the static library, once made of the reference
//! (planted.rs), with a mistake in it.

use crate::lent::{Bytes, LentRegister};
use reference::answers::{Entry, Fraction, Loaded, Read, Register, Stepped, Storage, Taken, Walked, Word};

pub trait Library: Sync {
    fn learn(&self, bytes: &mut Bytes, count: u64) -> Fraction;
    fn learn_meter(&self, store: &mut Bytes, meter: u32) -> Fraction;
    fn read_back(&self, register: Register) -> Fraction;
    fn load(&self, p: i32, q: u32) -> Loaded;
    fn step(&self, register: Register) -> Stepped;
    fn walk(&self, register: Register, allowance: u32) -> Walked;
    fn sheet(&self, register: Register) -> Storage;
    fn period(&self, q: u32) -> Entry;
    fn output_word(&self, p: i32, q: u32) -> Word;
    fn whiten(&self, register: &mut LentRegister, bytes: &mut Bytes) -> u32;
    fn take(&self, store: &mut Bytes, block: &mut Bytes) -> Taken;
    fn read(&self, first: &mut Bytes, second: &mut Bytes, meter: u32, ordinal: u32) -> Read;
}

mod c {
    use super::*;

    // As include/cocklejoist.h declares them, which tests/header/run holds them to.
    extern "C" {
        pub fn cj_learn(bytes: *const u8, len: usize, count: u64) -> Fraction;
        pub fn cj_learn_meter(store: *const u8, len: usize, meter: u32) -> Fraction;
        pub fn cj_read_back(r: Register) -> Fraction;
        pub fn cj_load(p: i32, q: u32) -> Loaded;
        pub fn cj_step(r: Register) -> Stepped;
        pub fn cj_walk(r: Register, allowance: u32) -> Walked;
        pub fn cj_sheet(r: Register) -> Storage;
        pub fn cj_period(q: u32) -> Entry;
        pub fn cj_output_word(p: i32, q: u32) -> Word;
        pub fn cj_whiten(r: *mut Register, bytes: *mut u8, len: usize) -> u32;
        pub fn cj_take(store: *mut u8, store_len: usize, block: *const u8, block_len: usize) -> Taken;
        pub fn cj_read(first: *const u8, first_len: usize, second: *const u8, second_len: usize, meter: u32, ordinal: u32) -> Read;
    }
}

/// The static library. Each call is safe: the header asks for a pointer to as many bytes as the length says, lent for the call and not
/// shared, and a `&mut Bytes` is that.
pub struct Linked;

impl Library for Linked {
    fn learn(&self, bytes: &mut Bytes, count: u64) -> Fraction {
        unsafe { c::cj_learn(bytes.start(), bytes.len(), count) }
    }

    fn learn_meter(&self, store: &mut Bytes, meter: u32) -> Fraction {
        unsafe { c::cj_learn_meter(store.start(), store.len(), meter) }
    }

    fn read_back(&self, register: Register) -> Fraction {
        unsafe { c::cj_read_back(register) }
    }

    fn load(&self, p: i32, q: u32) -> Loaded {
        unsafe { c::cj_load(p, q) }
    }

    fn step(&self, register: Register) -> Stepped {
        unsafe { c::cj_step(register) }
    }

    fn walk(&self, register: Register, allowance: u32) -> Walked {
        unsafe { c::cj_walk(register, allowance) }
    }

    fn sheet(&self, register: Register) -> Storage {
        unsafe { c::cj_sheet(register) }
    }

    fn period(&self, q: u32) -> Entry {
        unsafe { c::cj_period(q) }
    }

    fn output_word(&self, p: i32, q: u32) -> Word {
        unsafe { c::cj_output_word(p, q) }
    }

    fn whiten(&self, register: &mut LentRegister, bytes: &mut Bytes) -> u32 {
        unsafe { c::cj_whiten(register.start(), bytes.start(), bytes.len()) }
    }

    fn take(&self, store: &mut Bytes, block: &mut Bytes) -> Taken {
        unsafe { c::cj_take(store.start(), store.len(), block.start(), block.len()) }
    }

    fn read(&self, first: &mut Bytes, second: &mut Bytes, meter: u32, ordinal: u32) -> Read {
        unsafe { c::cj_read(first.start(), first.len(), second.start(), second.len(), meter, ordinal) }
    }
}
