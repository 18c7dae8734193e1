//! Inputs to compare with, that seek the boundaries: each is made of numbers near a limit as often as of numbers drawn at random.

use crate::answers::{Register, BLOCK_BYTES, LIMIT, METERS, MOST_BITS, MOST_MEMORY, PLACE_BYTES, RECORD_BITS, STORE_BYTES};
use crate::fractions::bits_of;
use crate::registers::{length, state_of};
use crate::store::{record_of, records, store_of};

/// A generator of random numbers (splitmix64): the same seed, the same inputs.
pub struct Random(u64);

impl Random {
    pub fn new(seed: u64, stream: u64, case: u64) -> Random {
        let mut random = Random(seed ^ stream.wrapping_mul(0xD6E8_FEB8_6659_FD93));
        let first = random.next();
        Random(first ^ case.wrapping_mul(0xA076_1D64_78BD_642F))
    }

    pub fn next(&mut self) -> u64 {
        self.0 = self.0.wrapping_add(0x9E37_79B9_7F4A_7C15);
        let mut x = self.0;
        x = (x ^ x >> 30).wrapping_mul(0xBF58_476D_1CE4_E5B9);
        x = (x ^ x >> 27).wrapping_mul(0x94D0_49BB_1331_11EB);
        x ^ x >> 31
    }

    /// A number below n.
    pub fn below(&mut self, n: usize) -> usize {
        (self.next() as u128 * n as u128 >> 64) as usize
    }

    /// A number from low to high, both included.
    pub fn between(&mut self, low: i64, high: i64) -> i64 {
        low + self.below((high - low + 1) as usize) as i64
    }

    pub fn once_in(&mut self, n: usize) -> bool {
        self.below(n) == 0
    }

    pub fn pick<T: Clone>(&mut self, from: &[T]) -> T {
        from[self.below(from.len())].clone()
    }

    /// A number of a random bit length up to `width`, so that small ones are as likely as large ones.
    pub fn wide(&mut self, width: usize) -> i64 {
        let length = self.below(width + 1);
        (self.next() & ((1u64 << length) - 1)) as i64
    }

    pub fn bits(&mut self, n: usize) -> Vec<bool> {
        let mut bits = Vec::with_capacity(n);
        while bits.len() < n {
            let word = self.next();
            bits.extend((0..64.min(n - bits.len())).map(|i| word >> i & 1 == 1));
        }
        bits
    }

    pub fn bytes(&mut self, n: usize) -> Vec<u8> {
        (0..n).map(|_| self.next() as u8).collect()
    }
}

/// One of the values, each as likely; they may draw from the same source themselves.
#[macro_export]
macro_rules! pick {
    ($random:expr, $($value:expr),+ $(,)?) => {{
        let values = [$($value),+];
        $random.pick(&values)
    }};
}

/// A denominator inside the limits.
pub fn good_q(random: &mut Random) -> i64 {
    let q = match random.below(6) {
        0 => pick!(random, 1, 1, 3, 5, 7, LIMIT, LIMIT - 2, LIMIT - 4, (1 << 29) - 1, (1 << 29) + 1, 1 << 28 | 1),
        1 => (1 << (random.below(30) + 1)) + pick!(random, -3, -1, 1, 3),
        2 => random.between(1, 130),
        3 => LIMIT - random.between(0, 600),
        _ => random.wide(30),
    };
    (q | 1).clamp(1, LIMIT)
}

/// A denominator, inside the limits or not.
pub fn any_q(random: &mut Random) -> u32 {
    match random.below(8) {
        0 => {
            pick!(random, 0, 2, 4, 1 << 30, (1 << 30) + 1, (1 << 30) + 3, LIMIT as u32 - 1, 1 << 31, (1 << 31) + 1, u32::MAX, u32::MAX - 1)
        }
        1 => random.next() as u32,
        _ => good_q(random) as u32,
    }
}

/// A numerator beside this denominator: often near a limit, a multiple of q, or a power of two.
pub fn any_p(random: &mut Random, q: i64) -> i32 {
    let p = match random.below(9) {
        0 => pick!(random, 0, 1, 2, 3, LIMIT, LIMIT - 1, LIMIT + 1, LIMIT + 2, i32::MAX as i64),
        1 => -pick!(random, 0, 1, 2, 3, LIMIT, LIMIT - 1, LIMIT + 1, LIMIT + 2, i32::MAX as i64 + 1),
        2 => q * random.between(-3, 3) + random.between(-2, 2),
        3 => (1 << random.below(31)) + random.between(-1, 1),
        4 => -(1 << random.below(31)) + random.between(-1, 1),
        5 => random.next() as i32 as i64,
        6 => -random.wide(30),
        7 => -random.between(0, q),
        _ => random.wide(30),
    };
    p.clamp(i32::MIN as i64, i32::MAX as i64) as i32
}

/// A numerator inside the limits.
pub fn good_p(random: &mut Random, q: i64) -> i64 {
    (any_p(random, q) as i64).clamp(-LIMIT, LIMIT)
}

/// A pair inside the limits, sometimes with a common factor.
pub fn good_pair(random: &mut Random) -> (i64, i64) {
    if random.once_in(5) {
        let factor = random.between(1, 40) | 1;
        let q = ((good_q(random) / factor) | 1).max(1);
        let q = if q * factor > LIMIT { 1 } else { q };
        let p = good_p(random, q) / factor;
        return (p * factor, q * factor);
    }
    let q = good_q(random);
    (good_p(random, q), q)
}

fn any_memory(random: &mut Random) -> i32 {
    let memory = match random.below(6) {
        0 => pick!(random, 0, 1, 2, MOST_MEMORY, MOST_MEMORY - 1, MOST_MEMORY + 1, i32::MAX as i64),
        1 => -pick!(random, 0, 1, 2, MOST_MEMORY, MOST_MEMORY - 1, MOST_MEMORY + 1, i32::MAX as i64 + 1),
        2 => random.wide(30),
        3 => -random.wide(30),
        _ => random.between(-35, 35),
    };
    memory as i32
}

/// A register whose numerator is p, where its memory has room for it.
fn register_of(p: i128, q: u32) -> Option<Register> {
    let (cells, memory) = state_of(p, q);
    Some(Register { q, cells, memory: i32::try_from(memory).ok()? })
}

/// A register whose fraction in lowest terms stands at the limits.
fn register_at_limits(random: &mut Random) -> Option<Register> {
    let size = pick!(random, LIMIT, LIMIT, LIMIT + 1, LIMIT + 1, LIMIT - 1, LIMIT + 2, LIMIT * 2, LIMIT * 2 + 1);
    let p = if random.once_in(2) { size } else { -size } as i128;
    let q = good_q(random);
    let factor = if random.once_in(2) { 1 } else { (LIMIT / q).min(random.between(1, 9)) | 1 };
    let q = q * factor;
    if q > LIMIT {
        return None;
    }
    register_of(p * factor as i128, q as u32)
}

/// A register, valid more often than not.
pub fn any_register(random: &mut Random) -> Register {
    let made = match random.below(8) {
        0 => {
            let (p, q) = good_pair(random);
            register_of(p as i128, q as u32)
        }
        1 => {
            // without lead-in, or just past it
            let q = good_q(random);
            let p = pick!(random, 0, -q, 1, -q - 1, -random.between(0, q), -random.between(0, q), -random.between(0, q));
            register_of(p as i128, q as u32)
        }
        2 => register_at_limits(random),
        3 => {
            // a common factor with a numerator of any size
            let factor = pick!(random, 3, 5, 7, 9, 15, 21, 1023, 32767);
            let q = ((good_q(random) / factor).max(1) | 1).min(LIMIT / factor - 1 | 1) * factor;
            let sign = if random.once_in(2) { 1 } else { -1 };
            register_of((sign * random.wide(44) * factor) as i128, q.min(LIMIT) as u32)
        }
        _ => None,
    };
    if let Some(register) = made {
        return register;
    }
    let q = any_q(random);
    let r = length(q);
    let top = if r >= 32 { u32::MAX } else { (1u32 << r) - 1 };
    let cells = match random.below(10) {
        0 => 0,
        1 => top,
        2 => top.wrapping_add(1 + random.below(2) as u32),
        3 => 1 << random.below(32),
        4 if random.once_in(3) => random.next() as u32,
        _ => random.next() as u32 & top,
    };
    Register { q, cells, memory: any_memory(random) }
}

/// A register with q near a million or ten millions, with lead-in or without.
pub fn long_walker(random: &mut Random) -> Register {
    let q = pick!(random, 1_000_001, 10_000_001) + 2 * random.between(-20_000, 20_000);
    let p = pick!(random, -random.between(0, q), -random.between(0, q), any_p(random, q) as i64, random.wide(44), -random.wide(44));
    register_of(p as i128, q as u32).expect("a memory of 2^25 or less")
}

/// A number of bits: often at a boundary of the rules or of a method.
fn any_length(random: &mut Random) -> usize {
    match random.below(12) {
        0 => pick!(random, 0, 1, 2, 3, 7, 8, 9, 15, 16, 17),
        1..=3 => random.between(56, 68) as usize,
        4 => random.between(28, 36) as usize,
        5 | 6 => random.below(64),
        7..=9 => random.below(130),
        10 => pick!(random, 91, 92, 93, 94, 95, 96, 97, 125, 126, 127, 128, 129, 160, 191, 192, 193),
        _ => random.below(300),
    }
}

/// The rare long one, since the reference takes its time with it.
pub fn long_length(random: &mut Random) -> usize {
    match random.below(3) {
        0 => pick!(random, 4095, 4096, 4096, 4088, 4089, 4064, 4065, 2048, 1024),
        1 => MOST_BITS - random.below(70),
        _ => random.below(MOST_BITS + 1),
    }
}

/// The bits of a burst: random, of a fraction at or just past the limits, of a fraction with a bit or two wrong, nearly all alike.
pub fn burst(random: &mut Random, n: usize) -> Vec<bool> {
    let fraction = |random: &mut Random| {
        let q = good_q(random);
        let p = match random.below(4) {
            0 => any_p(random, q) as i64,
            1 => pick!(random, LIMIT, -LIMIT, LIMIT + 1, -LIMIT - 1, q, -q, q + 1, -q - 1),
            _ => good_p(random, q),
        };
        let q = if random.once_in(12) { pick!(random, LIMIT + 2, LIMIT + 4, 2 * LIMIT + 1) } else { q };
        bits_of(p as i128, q as i128, n)
    };
    let mut bits = match random.below(8) {
        0 => random.bits(n),
        1 => vec![random.once_in(2); n],
        _ => fraction(random),
    };
    if n > 0 {
        match random.below(6) {
            0 => {
                let i = random.below(n);
                bits[i] = !bits[i];
            }
            1 => {
                let i = pick!(random, n - 1, n - 1, 0, n / 2, 60.min(n - 1), 61.min(n - 1), 31.min(n - 1), n - 1 - (n - 1).min(8));
                bits[i] = !bits[i];
            }
            _ => {}
        }
    }
    bits
}

/// The bits of a pair inside the limits, but for the last one, at a length where that bit alone decides.
pub fn burst_wrong_at_its_end(random: &mut Random) -> Vec<bool> {
    let n = pick!(random, MOST_BITS, MOST_BITS, MOST_BITS - 1, 64, 65, 96, 97);
    let (p, q) = good_pair(random);
    let mut bits = bits_of(p as i128, q as i128, n);
    bits[n - 1] = !bits[n - 1];
    bits
}

/// A burst of up to a few hundred bits.
pub fn short_burst(random: &mut Random) -> Vec<bool> {
    let n = any_length(random);
    burst(random, n)
}

/// A count for a burst that is held in bytes: the true one, or one that breaks a rule.
pub fn any_count(random: &mut Random, n: usize) -> u64 {
    match random.below(40) {
        0 => pick!(random, 4096, 4097, 4098, 4104, 8192, 65536),
        1 => pick!(random, u64::MAX, u64::MAX - 6, u64::MAX - 7, u64::MAX - 8, 1 << 63, 1 << 32, (1 << 32) + 8, 1 << 61, 1 << 16),
        2 => (n + random.below(12)) as u64,
        3 => (n.div_ceil(8) * 8 + random.below(2)) as u64,
        4 => random.below(n + 1) as u64,
        _ => n as u64,
    }
}

/// The lengths of the 32 bursts of a store, some empty, some full.
fn fills(random: &mut Random) -> Vec<usize> {
    let style = random.below(4);
    (0..METERS)
        .map(|_| match style {
            0 => 0,
            1 => pick!(random, 0, 0, 1, 7, 8, 9, 4095, 4096),
            2 => random.below(MOST_BITS + 1),
            _ => MOST_BITS - random.below(600),
        })
        .collect()
}

/// A store that keeps the rules.
pub fn good_store(random: &mut Random) -> Vec<u8> {
    let bursts: Vec<Vec<bool>> = fills(random).into_iter().map(|n| random.bits(n)).collect();
    store_of(&bursts)
}

/// Breaks, perhaps, one rule of a store.
pub fn damage_store(random: &mut Random, store: &mut Vec<u8>) {
    let place = pick!(random, 0, 0, METERS - 1, METERS - 1, random_place(random)) * PLACE_BYTES;
    match random.below(7) {
        0 => {
            // the first bit past the count, or the last bit of the place
            let count = store[place] as usize * 256 + store[place + 1] as usize;
            let bit = pick!(random, count, count, MOST_BITS - 1, count + random.below(20)).min(MOST_BITS - 1);
            store[place + 2 + bit / 8] |= 1 << (bit % 8);
        }
        1 => {
            let count = pick!(random, 4097u16, 4098, 4352, 8192, u16::MAX, 4096);
            store[place..place + 2].copy_from_slice(&count.to_be_bytes());
        }
        2 => {
            // a count that is one too small cuts off a bit that may be set
            let count = (store[place] as u16 * 256 + store[place + 1] as u16).saturating_sub(random.between(1, 9) as u16);
            store[place..place + 2].copy_from_slice(&count.to_be_bytes());
        }
        3 => store.truncate(STORE_BYTES - pick!(random, 1, 2, 514, STORE_BYTES, STORE_BYTES - 1)),
        4 => store.extend(vec![0; pick!(random, 1, 64, 514)]),
        5 => {
            let i = random.below(store.len());
            store[i] ^= 1 << random.below(8);
        }
        _ => store[place + PLACE_BYTES - 1] |= 0x80,
    }
}

fn random_place(random: &mut Random) -> usize {
    random.below(METERS)
}

/// A record's bit count.
fn record_length(random: &mut Random) -> usize {
    match random.below(4) {
        0 => pick!(random, 1, 2, 7, 8, 9, 511, 512, 505, 504),
        1 => random.between(1, 20) as usize,
        _ => random.between(1, RECORD_BITS as i64) as usize,
    }
}

/// A well-formed block, and where its records begin. Where `room` says how many bits each place still takes, it often fills one to the last.
pub fn good_block(random: &mut Random, room: &[usize]) -> (Vec<u8>, Vec<usize>) {
    let mut block = Vec::new();
    let mut starts = Vec::new();
    let mut left = room.to_vec();
    let records = pick!(random, 0, 1, 1, 2, 2, 3, 5, 9, 30, 400);
    let favourite = random.between(1, METERS as i64) as usize;
    let careful = !random.once_in(3);
    let short = random.once_in(3);
    for _ in 0..records {
        let meter = if random.once_in(2) { favourite } else { pick!(random, 1, METERS, random_place(random) + 1) };
        let mut n = if short { random.between(1, 9) as usize } else { record_length(random) };
        if careful {
            n = n.min(left[meter - 1]);
        }
        let left_here = left[meter - 1];
        if left_here > 0 && left_here <= RECORD_BITS && random.once_in(2) {
            n = pick!(random, left_here, left_here, left_here + 1, left_here.max(2) - 1).min(RECORD_BITS);
        }
        if n == 0 || block.len() + 6 + n.div_ceil(8) > BLOCK_BYTES {
            continue;
        }
        left[meter - 1] = left[meter - 1].saturating_sub(n);
        starts.push(block.len());
        block.extend(record_of(meter, &random.bits(n)));
    }
    (block, starts)
}

/// A well-formed block of exactly 16,384 bytes: records of 512 bits for all meters in turn, and two that end it.
pub fn full_block(random: &mut Random) -> Vec<u8> {
    let mut block = Vec::new();
    let mut meter = random.below(METERS);
    while BLOCK_BYTES - block.len() >= 140 {
        block.extend(record_of(meter % METERS + 1, &random.bits(RECORD_BITS)));
        meter += 1;
    }
    let left = BLOCK_BYTES - block.len() - 12;
    for bytes in [left / 2, left - left / 2] {
        block.extend(record_of(meter % METERS + 1, &random.bits(8 * bytes)));
        meter += 1;
    }
    assert!(block.len() == BLOCK_BYTES);
    block
}

/// A well-formed block of bursts, those of some meters, each cut into records of any length, in turn; and where its records begin. One
/// burst in many has more bits than a place holds.
pub fn block_of_bursts(random: &mut Random) -> (Vec<u8>, Vec<usize>) {
    let meters = pick!(random, 1, 1, 2, 3, 5, 12, METERS);
    let mut left: Vec<(usize, Vec<bool>)> = (0..meters)
        .map(|_| {
            let n = if random.once_in(8) { long_length(random) + pick!(random, 0, 0, 0, 600) } else { any_length(random) };
            (random_place(random) + 1, burst(random, n))
        })
        .collect();
    let (mut block, mut starts) = (Vec::new(), Vec::new());
    while !left.is_empty() {
        let i = random.below(left.len());
        let (meter, bits) = &mut left[i];
        let n = pick!(random, RECORD_BITS, RECORD_BITS, record_length(random)).min(bits.len());
        if n == 0 || block.len() + 6 + n.div_ceil(8) > BLOCK_BYTES {
            left.swap_remove(i);
            continue;
        }
        starts.push(block.len());
        block.extend(record_of(*meter, &bits[..n]));
        bits.drain(..n);
    }
    (block, starts)
}

/// A block to list: of bursts, of records of random bits, as long as a block may be, torn, damaged, or of random bytes.
pub fn block_to_list(random: &mut Random) -> Vec<u8> {
    let (mut block, starts) = match random.below(12) {
        0 => (full_block(random), vec![0, 70, 140, 70 * 200]),
        1..=3 => good_block(random, &[MOST_BITS; METERS]),
        4 => (random_bytes(random), vec![]),
        _ => block_of_bursts(random),
    };
    match random.below(10) {
        0..=4 => damage_block(random, &mut block, &starts),
        5 => block.truncate(random.below(block.len() + 1)),
        6 if random.once_in(2) => block.resize(block.len().max(BLOCK_BYTES + pick!(random, 0, 1, 2, 70)), 0x5A),
        _ => {}
    }
    block
}

/// Bytes that no one made, of any number.
fn random_bytes(random: &mut Random) -> Vec<u8> {
    let n = pick!(random, 0, 1, 5, 6, 15, random.below(100), random.below(BLOCK_BYTES + 100));
    random.bytes(n)
}

/// Breaks, perhaps, one rule of a block at one of its records.
pub fn damage_block(random: &mut Random, block: &mut Vec<u8>, starts: &[usize]) {
    // an earlier damage may have cut off a header
    let whole: Vec<usize> = starts.iter().copied().filter(|start| start + 6 <= block.len()).collect();
    if whole.is_empty() || random.once_in(20) {
        let n = pick!(random, 1, 2, 5, 6, 7);
        let tail = if random.once_in(2) { record_of(1, &random.bits(20))[..n].to_vec() } else { random.bytes(n) };
        block.extend(tail);
        return;
    }
    let at = random.pick(&whole);
    let mut set = |i: usize, byte: u8| block[at + i] = byte;
    match random.below(10) {
        0 => set(random.below(2), random.next() as u8),
        1 => {
            let meter = pick!(random, 0u16, 33, 34, 256, 257, 288, 0x2000, u16::MAX, 0x0100 | 7);
            set(2, (meter >> 8) as u8);
            set(3, meter as u8);
        }
        2 => {
            let count = pick!(random, 0u16, 513, 514, 1024, 0x0300, 0x8001, u16::MAX, 512, 1);
            set(4, (count >> 8) as u8);
            set(5, count as u8);
        }
        3 => {
            // one bit more or less than the record holds
            let count = u16::from_be_bytes([block[at + 4], block[at + 5]]).wrapping_add(pick!(random, 1, 8, 9, u16::MAX, u16::MAX - 7));
            block[at + 4..at + 6].copy_from_slice(&count.to_be_bytes());
        }
        4 => {
            // a spare bit, where the record has one
            let count = u16::from_be_bytes([block[at + 4], block[at + 5]]) as usize;
            let last = at + 5 + count.div_ceil(8);
            if count % 8 != 0 && last < block.len() {
                block[last] |= 1 << random.between(count as i64 % 8, 7);
            }
        }
        5 => block.truncate(block.len() - 1 - random.below(block.len().min(80))),
        6 => {
            let i = random.below(block.len());
            block[i] ^= 1 << random.below(8);
        }
        7 => {
            block.remove(random.below(block.len()));
        }
        8 => block.insert(random.below(block.len()), pick!(random, 0, 0x5A, 0xC3)),
        _ => {
            let i = random.below(block.len());
            block[i] = random.next() as u8;
        }
    }
}

/// The block of one antenna: empty, short, or as long as a block may be; damaged, it is too long now and then.
pub fn antenna_block(random: &mut Random, long: bool, damaged: bool) -> Vec<u8> {
    let (mut block, starts) =
        if long { (full_block(random), vec![0, 70, 140, 70 * 200]) } else { good_block(random, &[MOST_BITS; METERS]) };
    if !damaged && random.once_in(12) {
        block.clear();
    }
    if damaged {
        match random.below(20) {
            0 => {
                // well formed but for its length
                let record = record_of(1, &random.bits(RECORD_BITS));
                while block.len() <= BLOCK_BYTES {
                    block.extend(&record);
                }
            }
            1 => block.resize(block.len().max(BLOCK_BYTES + pick!(random, 0, 1, 2, 70)), 0x5A),
            _ => damage_block(random, &mut block, &starts),
        }
    }
    block
}

/// A meter and an ordinal to ask a block for: often the first record of a meter in it, the last, or one past.
pub fn question(random: &mut Random, block: &[u8]) -> (u32, u32) {
    let named: Vec<usize> = records(block).map_or(vec![], |all| all.iter().map(|record| record.meter).collect());
    let meter = if named.is_empty() || random.once_in(8) { random_place(random) + 1 } else { random.pick(&named) };
    let last = named.iter().filter(|&&name| name == meter).count() as u32;
    let ordinal = match random.below(8) {
        0 => 0,
        1 => 1,
        2 | 3 => last,
        4 => last + 1,
        5 => pick!(random, 2, 256, 257, 1 << 16, (1 << 16) + 1, 1 << 31, u32::MAX, u32::MAX - 1),
        _ => random.below(last as usize + 1) as u32,
    };
    let wrong = [0, 33, 34, 255, 256, 257, 1 << 16 | 1, u32::MAX, 1 << 31];
    (if random.once_in(10) { random.pick(&wrong) } else { meter as u32 }, ordinal)
}
