//! The reference with one mistake planted in it, to see that the comparison finds it. Many are slips that someone has made before.

use crate::lent::{Bytes, LentRegister};
use crate::library::Library;
use reference::answers::{Entry, Fraction, Loaded, Read, Register, Stepped, Storage, Taken, Walked, Word};
use reference::answers::{LIMIT, METERS, MOST_BITS, PLACE_BYTES, STORE_BYTES};
use reference::antennas::read;
use reference::fractions::{gcd, output_word, unpacked};
use reference::learning::{learn, smallest};
use reference::registers::{self, is_valid, length, numerator, stepped};
use reference::store::{bursts, learn_meter, record_of, records, store_of, take};
use reference::{periods, walking, whitening};

pub struct Mistake {
    pub function: &'static str,
    pub name: &'static str,
}

const fn mistake(function: &'static str, name: &'static str) -> Mistake {
    Mistake { function, name }
}

pub const MISTAKES: &[Mistake] = &[
    mistake("cj_learn", "least q before least |p|"),
    mistake("cj_learn", "p negative where both signs fit"),
    mistake("cj_learn", "even q taken where it is smaller"),
    mistake("cj_learn", "size 2^30 - 1 refused"),
    mistake("cj_learn", "size 2^30 answered"),
    mistake("cj_learn", "bits past the 64th not looked at"),
    mistake("cj_learn", "last of 4,096 bits not looked at"),
    mistake("cj_learn", "bits past the count looked at"),
    mistake("cj_learn", "2 before 1"),
    mistake("cj_learn", "4,096 bits refused"),
    mistake("cj_learn", "a pair beside the refusal"),
    mistake("cj_learn", "a lent byte changed"),
    mistake("cj_learn_meter", "14 before 10"),
    mistake("cj_learn_meter", "place 32 not judged"),
    mistake("cj_learn_meter", "last byte of a place not judged"),
    mistake("cj_learn_meter", "a full place refused"),
    mistake("cj_learn_meter", "meter modulo 256"),
    mistake("cj_learn_meter", "store of one byte more accepted"),
    mistake("cj_read_back", "not in lowest terms"),
    mistake("cj_read_back", "limits before lowest terms"),
    mistake("cj_read_back", "p = -B refused"),
    mistake("cj_read_back", "p = 2^30 answered"),
    mistake("cj_read_back", "zero keeps its q"),
    mistake("cj_load", "q = B refused"),
    mistake("cj_load", "p = -B refused"),
    mistake("cj_load", "p = -2^30 answered"),
    mistake("cj_load", "lowest terms first"),
    mistake("cj_load", "even q answered"),
    mistake("cj_step", "-1 halves to 0"),
    mistake("cj_step", "register not handed back"),
    mistake("cj_step", "memory 2^30 refused"),
    mistake("cj_step", "memory one past accepted"),
    mistake("cj_step", "cells 2^r accepted"),
    mistake("cj_step", "last tap missed"),
    mistake("cj_walk", "period of q, not of lowest terms"),
    mistake("cj_walk", "-q given a lead-in"),
    mistake("cj_walk", "allowance must exceed the sum"),
    mistake("cj_walk", "allowance for the period alone"),
    mistake("cj_walk", "lead-in forgotten in the sum"),
    mistake("cj_sheet", "no sign bit"),
    mistake("cj_sheet", "w in place of w - 1"),
    mistake("cj_sheet", "the memory alone"),
    mistake("cj_sheet", "w - 1 alone"),
    mistake("cj_sheet", "a negative memory by its size"),
    mistake("cj_sheet", "r from q, not q+1"),
    mistake("cj_period", "1,023 refused"),
    mistake("cj_period", "0 for q = 1"),
    mistake("cj_period", "even q answered"),
    mistake("cj_output_word", "upper half from p's magnitude"),
    mistake("cj_output_word", "p = -2^30 answered"),
    mistake("cj_whiten", "512 bytes refused"),
    mistake("cj_whiten", "9 before 5"),
    mistake("cj_whiten", "register as it was"),
    mistake("cj_whiten", "one step for no bytes"),
    mistake("cj_whiten", "a byte behind changed"),
    mistake("cj_whiten", "a refused register changed"),
    mistake("cj_take", "room looked at while appending"),
    mistake("cj_take", "17 before form"),
    mistake("cj_take", "11 before 10"),
    mistake("cj_take", "first record only"),
    mistake("cj_take", "store untouched"),
    mistake("cj_take", "4,096 bits refused"),
    mistake("cj_take", "16,384 bytes refused"),
    mistake("cj_take", "high byte of the meter ignored"),
    mistake("cj_take", "513 bits accepted"),
    mistake("cj_take", "512 bits refused"),
    mistake("cj_take", "bits past the end before the count"),
    mistake("cj_take", "mark before a short header"),
    mistake("cj_take", "top spare bit not looked at"),
    mistake("cj_take", "place of the next record"),
    mistake("cj_take", "place beside 11"),
    mistake("cj_take", "a byte behind the store changed"),
    mistake("cj_take", "the block changed"),
    mistake("cj_take", "first bit past the count not judged"),
    mistake("cj_read", "second block preferred"),
    mistake("cj_read", "second block's refusal"),
    mistake("cj_read", "ordinals from 0"),
    mistake("cj_read", "ordinal 0 as 1"),
    mistake("cj_read", "ordinal modulo 65,536"),
    mistake("cj_read", "antenna always 1"),
    mistake("cj_read", "antenna beside a refusal"),
    mistake("cj_read", "start of the record"),
    mistake("cj_read", "part one byte long"),
    mistake("cj_read", "part without its last bits"),
    mistake("cj_read", "place lost"),
    mistake("cj_read", "place of the second block"),
    mistake("cj_read", "14 before form"),
    mistake("cj_read", "18 before 14"),
    mistake("cj_read", "meter modulo 256"),
    mistake("cj_read", "records before the torn one used"),
    mistake("cj_read", "an empty first block not used"),
    mistake("cj_read", "a first block too long used"),
    mistake("cj_read", "no such record in the first, so the second"),
    mistake("cj_read", "16,384 bytes refused"),
    mistake("cj_read", "the first block changed"),
    mistake("cj_read", "the second block changed"),
];

/// Mistakes that touch a byte outside of what was lent. They change no answer, and the page beside it must find them: each is tried in a
/// process of its own, which the page stops.
pub const STRAYS: &[Mistake] = &[
    mistake("cj_learn", "read before the bytes"),
    mistake("cj_learn", "read behind the bytes"),
    mistake("cj_learn_meter", "read before the store"),
    mistake("cj_learn_meter", "read behind the store"),
    mistake("cj_whiten", "read before the bytes"),
    mistake("cj_whiten", "read behind the bytes"),
    mistake("cj_whiten", "write before the bytes"),
    mistake("cj_whiten", "write behind the bytes"),
    mistake("cj_whiten", "read before the register"),
    mistake("cj_whiten", "read behind the register"),
    mistake("cj_take", "read before the block"),
    mistake("cj_take", "read behind the block"),
    mistake("cj_take", "write before the store"),
    mistake("cj_take", "write behind the store"),
    mistake("cj_read", "read before the first block"),
    mistake("cj_read", "read behind the first block"),
    mistake("cj_read", "read before the second block"),
    mistake("cj_read", "read behind the second block"),
];

pub struct Planted {
    pub mistake: &'static str,
}

impl Planted {
    /// Touches the byte before these `len` bytes or behind them, where the mistake is to do that to them. A write leaves the byte as it
    /// was, so that nothing but the page can tell.
    fn stray(&self, lent: &str, start: *mut u8, len: usize) {
        let touch = |deed: &str, at: *mut u8| unsafe {
            match deed {
                "read" => drop(at.read_volatile()),
                _ => at.write_volatile(at.read_volatile()),
            }
        };
        match self.mistake.splitn(4, ' ').collect::<Vec<_>>()[..] {
            [deed, "before", "the", what] if what == lent => touch(deed, start.wrapping_sub(1)),
            [deed, "behind", "the", what] if what == lent => touch(deed, start.wrapping_add(len)),
            _ => {}
        }
    }
}

/// Every pair of a short burst, by an order of one's own.
fn by_trying(bits: &[bool], step: usize, key: fn(i64, i64) -> (i64, i64, i64, bool)) -> Fraction {
    let value: i64 = bits.iter().enumerate().map(|(i, &bit)| (bit as i64) << i).sum();
    let fits = |p: i64, q: i64| (value * q - p).rem_euclid(1 << bits.len()) == 0;
    let side = 1 << bits.len();
    let pairs = (1..=side).step_by(step).flat_map(|q| (-side..=side).map(move |p| (p, q)));
    let (p, q) = pairs.filter(|&(p, q)| fits(p, q)).min_by_key(|&(p, q)| key(p, q)).expect("(A, 1) fits");
    Fraction::of(p, q)
}

/// A valid register with the same bits; what a mistake makes of an invalid one.
fn lenient_step(register: Register) -> Stepped {
    let (bit, state) = stepped(register);
    Stepped { refusal: 0, bit: bit as u32, state }
}

impl Library for Planted {
    fn learn(&self, bytes: &mut Bytes, count: u64) -> Fraction {
        self.stray("bytes", bytes.start(), bytes.len());
        let lent = bytes.inside().to_vec();
        let right = learn(&lent, count);
        let n = count.min(4097) as usize;
        let enough = lent.len() >= n.div_ceil(8) && n <= MOST_BITS;
        match self.mistake {
            "least q before least |p|" if enough && n <= 6 => by_trying(&unpacked(&lent, n), 2, |p, q| (p.abs().max(q), q, p.abs(), p < 0)),
            "even q taken where it is smaller" if enough && n <= 6 => {
                by_trying(&unpacked(&lent, n), 1, |p, q| (p.abs().max(q), p.abs(), q, p < 0))
            }
            "p negative where both signs fit" if right.refusal == 0 && n < 40 && (2 * right.p as i64) % (1 << n) == 0 => {
                Fraction { p: -right.p, ..right }
            }
            "size 2^30 - 1 refused" if right.p as i64 == LIMIT || right.p as i64 == -LIMIT || right.q as i64 == LIMIT => {
                Fraction::refused(3)
            }
            "size 2^30 answered" if enough => {
                smallest(&unpacked(&lent, n), LIMIT + 1).map_or(Fraction::refused(3), |(p, q)| Fraction::of(p, q))
            }
            "bits past the 64th not looked at" if enough => learn(&lent, count.min(64)),
            "last of 4,096 bits not looked at" if enough => learn(&lent, count.min(4095)),
            "bits past the count looked at" if enough => learn(&lent, count.div_ceil(8) * 8),
            "2 before 1" if lent.len() as u64 <= count / 8 && count % 8 != 0 => Fraction::refused(2),
            "4,096 bits refused" if n == MOST_BITS => Fraction::refused(1),
            "a pair beside the refusal" if right.refusal == 3 => Fraction { q: 1, ..right },
            "a lent byte changed" => {
                if let Some(last) = bytes.inside_mut().last_mut() {
                    *last &= 0x7f;
                }
                right
            }
            _ => right,
        }
    }

    fn learn_meter(&self, store: &mut Bytes, meter: u32) -> Fraction {
        self.stray("store", store.start(), store.len());
        let lent = store.inside().to_vec();
        let right = learn_meter(&lent, meter);
        let mut mended = lent.clone();
        match self.mistake {
            "14 before 10" if !(1..=32).contains(&meter) => Fraction::refused(14),
            "place 32 not judged" if lent.len() == STORE_BYTES && meter != 32 => {
                mended[31 * PLACE_BYTES..].fill(0);
                learn_meter(&mended, meter)
            }
            "last byte of a place not judged" if lent.len() == STORE_BYTES => {
                for place in mended.chunks_mut(PLACE_BYTES) {
                    if place[0] < 15 {
                        place[PLACE_BYTES - 1] = 0;
                    }
                }
                learn_meter(&mended, meter)
            }
            "a full place refused" if right.refusal != 10 && lent.chunks(PLACE_BYTES).any(|place| place[0] == 16) => Fraction::refused(10),
            "meter modulo 256" => learn_meter(&lent, meter % 256),
            "store of one byte more accepted" if lent.len() == STORE_BYTES + 1 => learn_meter(&lent[..STORE_BYTES], meter),
            _ => right,
        }
    }

    fn read_back(&self, register: Register) -> Fraction {
        let right = registers::read_back(register);
        if !is_valid(register) {
            return right;
        }
        let p = numerator(register);
        let (common, q) = (gcd(p.unsigned_abs(), register.q as u128) as i128, register.q as i128);
        match self.mistake {
            "not in lowest terms" if right.refusal == 0 && p.abs() <= LIMIT as i128 => Fraction::of(p as i64, q as i64),
            "limits before lowest terms" if p.abs() > LIMIT as i128 => Fraction::refused(7),
            "p = -B refused" if right.p as i64 == -LIMIT => Fraction::refused(7),
            "p = 2^30 answered" if p / common == 1 << 30 => Fraction::of(1 << 30, (q / common) as i64),
            "zero keeps its q" if p == 0 => Fraction::of(0, q as i64),
            _ => right,
        }
    }

    fn load(&self, p: i32, q: u32) -> Loaded {
        let right = registers::load(p, q);
        let refused = Loaded { refusal: 4, ..Loaded::default() };
        match self.mistake {
            "q = B refused" if q as i64 == LIMIT => refused,
            "p = -B refused" if p as i64 == -LIMIT => refused,
            "p = -2^30 answered" if p == -(1 << 30) && q % 2 == 1 && q as i64 <= LIMIT => {
                let (cells, memory) = registers::state_of(p as i128, q);
                Loaded { refusal: 0, state: Register { q, cells, memory: memory as i32 } }
            }
            "lowest terms first" if right.refusal == 0 => {
                let common = gcd(p.unsigned_abs() as u128, q as u128) as i64;
                registers::load((p as i64 / common) as i32, (q as i64 / common) as u32)
            }
            "even q answered" if q != 0 => registers::load(p, q | 1),
            _ => right,
        }
    }

    fn step(&self, register: Register) -> Stepped {
        let right = registers::step(register);
        let Register { q, cells, memory } = register;
        let past = Register { memory: memory.clamp(-(1 << 30), 1 << 30), ..register };
        match self.mistake {
            "-1 halves to 0" if right.refusal == 0 && right.state.memory == -1 => {
                Stepped { state: Register { memory: 0, ..right.state }, ..right }
            }
            "register not handed back" if right.refusal != 0 => Stepped { refusal: 5, ..Stepped::default() },
            "memory 2^30 refused" if memory == 1 << 30 => Stepped { refusal: 5, bit: 0, state: register },
            "memory one past accepted" if memory == -(1 << 30) - 1 && is_valid(past) => lenient_step(past),
            "cells 2^r accepted" if q != 0 && cells as u64 == 1 << length(q) && is_valid(Register { cells: 0, ..register }) => {
                lenient_step(Register { cells: 0, ..register })
            }
            "last tap missed" if right.refusal == 0 && cells & 1 == 1 && memory > -(1 << 30) => {
                Stepped { state: stepped(Register { memory: memory - 1, ..register }).1, ..right }
            }
            _ => right,
        }
    }

    fn walk(&self, register: Register, allowance: u32) -> Walked {
        let right = walking::walk(register, allowance);
        if !is_valid(register) {
            return right;
        }
        let all = walking::walk(register, u32::MAX);
        let refused = Walked { refusal: 6, ..Walked::default() };
        match self.mistake {
            "period of q, not of lowest terms" if right.refusal == 0 => {
                let period = periods::order_by_factors(register.q);
                let sum = right.lead + period;
                if sum <= allowance {
                    Walked { period, sum, ..right }
                } else {
                    refused
                }
            }
            "-q given a lead-in" if right.refusal == 0 && numerator(register) == -(register.q as i128) => {
                Walked { lead: 1, sum: 2, ..right }
            }
            "allowance must exceed the sum" if right.refusal == 0 && right.sum == allowance => refused,
            "allowance for the period alone" if all.period <= allowance => all,
            "lead-in forgotten in the sum" => Walked { sum: right.period, ..right },
            _ => right,
        }
    }

    fn sheet(&self, register: Register) -> Storage {
        let right = registers::sheet(register);
        if right.refusal != 0 {
            return right;
        }
        let w = (register.q as i128 + 1).count_ones() as i128;
        let memory = register.memory as i128;
        let both = |x: i128, y: i128| (1..).find(|&n| registers::holds(n, x) && registers::holds(n, y)).unwrap_or(0);
        match self.mistake {
            "no sign bit" => Storage { memory_bits: right.memory_bits - 1, ..right },
            "w in place of w - 1" => Storage { memory_bits: both(memory, w), ..right },
            "the memory alone" => Storage { memory_bits: both(memory, memory), ..right },
            "w - 1 alone" => Storage { memory_bits: both(w - 1, w - 1), ..right },
            "a negative memory by its size" => Storage { memory_bits: both(memory.abs(), w - 1), ..right },
            "r from q, not q+1" => Storage { cells: register.q.ilog2(), ..right },
            _ => right,
        }
    }

    fn period(&self, q: u32) -> Entry {
        match self.mistake {
            "1,023 refused" if q == 1023 => Entry { refusal: 4, period: 0 },
            "0 for q = 1" if q == 1 => Entry { refusal: 0, period: 0 },
            "even q answered" if q < 1024 => periods::period(q | 1),
            _ => periods::period(q),
        }
    }

    fn output_word(&self, p: i32, q: u32) -> Word {
        let right = output_word(p, q);
        match self.mistake {
            "upper half from p's magnitude" if right.refusal == 0 => {
                let other = output_word(p.abs(), q).word;
                Word { word: right.word & 0xffff_ffff | other & !0xffff_ffff, ..right }
            }
            "p = -2^30 answered" if p == -(1 << 30) && output_word(0, q).refusal == 0 => {
                Word { refusal: 0, word: output_word(1 << 29, q).word.wrapping_mul(2).wrapping_neg() }
            }
            _ => right,
        }
    }

    fn whiten(&self, register: &mut LentRegister, bytes: &mut Bytes) -> u32 {
        self.stray("bytes", bytes.start(), bytes.len());
        self.stray("register", register.start().cast(), 12);
        let before = register.get();
        let n = bytes.len();
        match self.mistake {
            "512 bytes refused" if n == 512 && is_valid(before) => return 9,
            "9 before 5" if n > 512 => return 9,
            "one step for no bytes" if n == 0 && is_valid(before) => {
                register.set(stepped(before).1);
                return 0;
            }
            _ => {}
        }
        let mut after = before;
        let refusal = whitening::whiten(&mut after, bytes.inside_mut());
        match self.mistake {
            "register as it was" => after = before,
            "a byte behind changed" if n == 512 => {
                if let Some(behind) = bytes.behind() {
                    *behind ^= 1;
                }
            }
            "a refused register changed" if refusal == 9 => after = stepped(before).1,
            _ => {}
        }
        register.set(after);
        refusal
    }

    fn take(&self, store: &mut Bytes, block: &mut Bytes) -> Taken {
        self.stray("store", store.start(), store.len());
        self.stray("block", block.start(), block.len());
        let before = store.inside().to_vec();
        let given = block.inside().to_vec();
        let first_bytes =
            |taken: &Taken, n: usize| given.get(taken.place as usize..).map_or(vec![], |rest| rest[..n.min(rest.len())].to_vec());
        let right = take(store.inside_mut(), &given);
        match self.mistake {
            "room looked at while appending" if right.refusal == 17 => {
                let mut places = bursts(&before).expect("17 comes after 10");
                for record in
                    records(&given).expect("17 comes after form").into_iter().take_while(|record| record.start < right.place as usize)
                {
                    places[record.meter - 1].extend(record.bits);
                }
                store.inside_mut().copy_from_slice(&store_of(&places));
                right
            }
            "17 before form" if right.refusal >= 12 && right.refusal < 17 => {
                take(&mut before.clone(), &given[..right.place as usize]).or(right)
            }
            "11 before 10" if given.len() > 16_384 => Taken { refusal: 11, place: 0 },
            "first record only" if right.refusal == 0 && !given.is_empty() => {
                let first = records(&given).expect("it was taken").remove(0);
                store.inside_mut().copy_from_slice(&before);
                take(store.inside_mut(), &record_of(first.meter, &first.bits))
            }
            "store untouched" => {
                store.inside_mut().copy_from_slice(&before);
                right
            }
            "4,096 bits refused"
                if right.refusal == 0
                    && store
                        .inside()
                        .chunks(PLACE_BYTES)
                        .zip(before.chunks(PLACE_BYTES))
                        .any(|(now, then)| now[0] == 16 && then[0] != 16) =>
            {
                store.inside_mut().copy_from_slice(&before);
                Taken { refusal: 17, place: 0 }
            }
            "16,384 bytes refused" if right.refusal == 0 && given.len() == 16_384 => {
                store.inside_mut().copy_from_slice(&before);
                Taken { refusal: 11, place: 0 }
            }
            "high byte of the meter ignored" if right.refusal == 14 && (1..=METERS as u8).contains(&first_bytes(&right, 4)[3]) => {
                let mut mended = given.clone();
                mended[right.place as usize + 2] = 0;
                take(store.inside_mut(), &mended)
            }
            "513 bits accepted" if right.refusal == 15 && first_bytes(&right, 6)[4..] == [2, 1] => Taken::default(),
            "512 bits refused" if right.refusal == 0 => {
                match records(&given).expect("it was taken").iter().find(|record| record.bits.len() == 512) {
                    Some(record) => {
                        store.inside_mut().copy_from_slice(&before);
                        Taken { refusal: 15, place: record.start as u32 }
                    }
                    None => right,
                }
            }
            "bits past the end before the count"
                if right.refusal == 15 && first_bytes(&right, 6)[4] >= 2 && given.len() - (right.place as usize) < 71 =>
            {
                Taken { refusal: 12, ..right }
            }
            "mark before a short header" if right.refusal == 12 && first_bytes(&right, 1)[0] != 0x5A => Taken { refusal: 13, ..right },
            "top spare bit not looked at" if right.refusal == 16 => {
                let head = first_bytes(&right, 6);
                let count = head[4] as usize * 256 + head[5] as usize;
                let mut mended = given.clone();
                mended[right.place as usize + 5 + count.div_ceil(8)] &= 0x7f;
                take(store.inside_mut(), &mended)
            }
            "place of the next record" if right.refusal == 17 => Taken { place: right.place + 7, ..right },
            "place beside 11" if right.refusal == 11 => Taken { place: 16_384, ..right },
            "a byte behind the store changed" if right.refusal == 0 && given.len() > 16_000 => {
                if let Some(behind) = store.behind() {
                    *behind = 0;
                }
                right
            }
            "the block changed" if right.refusal == 0 => {
                if let Some(last) = block.inside_mut().last_mut() {
                    *last ^= 0x80;
                }
                right
            }
            "first bit past the count not judged" if right.refusal == 10 && before.len() == STORE_BYTES => {
                for place in store.inside_mut().chunks_mut(PLACE_BYTES) {
                    let count = place[0] as usize * 256 + place[1] as usize;
                    if count < MOST_BITS {
                        place[2 + count / 8] &= !(1 << (count % 8));
                    }
                }
                let mended = take(store.inside_mut(), &given);
                if mended.refusal == 10 {
                    store.inside_mut().copy_from_slice(&before);
                }
                mended
            }
            _ => right,
        }
    }

    fn read(&self, first: &mut Bytes, second: &mut Bytes, meter: u32, ordinal: u32) -> Read {
        self.stray("first block", first.start(), first.len());
        self.stray("second block", second.start(), second.len());
        let (one, two) = (first.inside().to_vec(), second.inside().to_vec());
        let right = read(&one, &two, meter, ordinal);
        let both = records(&one).err().zip(records(&two).err());
        let refused = |refusal: u32| Read { refusal, ..Read::default() };
        let exchanged = |answer: Read| Read { antenna: if answer.refusal == 0 { 3 - answer.antenna } else { 0 }, ..answer };
        match self.mistake {
            "second block preferred" if both.is_none() => exchanged(read(&two, &one, meter, ordinal)),
            "second block's refusal" if both.is_some() => read(&two, &one, meter, ordinal),
            "ordinals from 0" => read(&one, &two, meter, ordinal.saturating_add(1)),
            "ordinal 0 as 1" => read(&one, &two, meter, ordinal.max(1)),
            "ordinal modulo 65,536" => read(&one, &two, meter, ordinal % 65_536),
            "antenna always 1" if right.refusal == 0 => Read { antenna: 1, ..right },
            "antenna beside a refusal" if right.refusal == 18 => Read { antenna: 1, ..right },
            "start of the record" if right.refusal == 0 => Read { start: right.start - 6, ..right },
            "part one byte long" if right.refusal == 0 => Read { length: 1, ..right },
            "part without its last bits" if right.refusal == 0 => Read { length: right.count / 8, ..right },
            "place lost" => Read { place: 0, ..right },
            "place of the second block" => both.map_or(right, |(_, other)| Read { place: other.place, ..right }),
            "14 before form" if !(1..=METERS as u32).contains(&meter) => refused(14),
            "18 before 14" if both.is_none() && ordinal == 0 => refused(18),
            "meter modulo 256" => read(&one, &two, meter % 256, ordinal),
            "records before the torn one used" => match records(&one) {
                Err(wrong) if wrong.refusal != 11 => read(&one[..wrong.place as usize], &two, meter, ordinal),
                _ => right,
            },
            "an empty first block not used" if one.is_empty() => exchanged(read(&two, &one, meter, ordinal)),
            "a first block too long used" if one.len() > 16_384 => {
                let at = records(&one[..16_384]).map_or_else(|wrong| wrong.place as usize, |_| 16_384);
                read(&one[..at], &two, meter, ordinal)
            }
            "no such record in the first, so the second" if right.refusal == 18 && records(&two).is_ok() => {
                exchanged(read(&two, &one, meter, ordinal))
            }
            "16,384 bytes refused" if one.len() == 16_384 => read(&[one, vec![0]].concat(), &two, meter, ordinal),
            "the first block changed" | "the second block changed" => {
                let lent = if self.mistake == "the first block changed" { first } else { second };
                if let Some(last) = lent.inside_mut().last_mut() {
                    *last ^= 0x80;
                }
                right
            }
            _ => right,
        }
    }
}

trait Or {
    fn or(self, other: Self) -> Self;
}

impl Or for Taken {
    /// This refusal, where it is one of room, or the other.
    fn or(self, other: Taken) -> Taken {
        if self.refusal == 17 {
            self
        } else {
            other
        }
    }
}
