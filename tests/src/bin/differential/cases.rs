//! One function for each function of the C interface: it makes the inputs of one case, asks the reference and the library, and compares
//! the answers and everything lent.

use crate::lent::{any_side, Bytes, LentRegister};
use crate::library::Library;
use reference::answers::{Register, BLOCK_BYTES, METERS, MOST_BITS, PLACE_BYTES, WHITEN_BYTES};
use reference::fractions::packed;
use reference::inputs::*;
use reference::pick;
use reference::{antennas, fractions, learning, periods, registers, store, walking, whitening};
use std::fmt::Debug;

/// The inputs of a case with both answers, for a person to try again.
pub struct Difference {
    pub inputs: String,
    pub expected: String,
    pub found: String,
}

/// The refusal of a case, or what differs.
pub type Outcome = Result<u32, Box<Difference>>;

/// A function under comparison.
pub struct Subject {
    pub name: &'static str,
    /// The refusals that its cases must meet at least once in a full round, beside 0. (8 is missing: it cannot come, by the law `load-narrow` of registers.)
    pub refusals: &'static [u32],
    pub cases: u64,
    pub run: fn(&dyn Library, u64, &mut Random) -> Outcome,
}

pub const SUBJECTS: [Subject; 12] = [
    Subject { name: "cj_learn", refusals: &[1, 2, 3], cases: 120_000, run: learn },
    Subject { name: "cj_learn_meter", refusals: &[3, 10, 14], cases: 12_000, run: learn_meter },
    Subject { name: "cj_read_back", refusals: &[5, 7], cases: 150_000, run: read_back },
    Subject { name: "cj_load", refusals: &[4], cases: 150_000, run: load },
    Subject { name: "cj_step", refusals: &[5], cases: 150_000, run: step },
    Subject { name: "cj_walk", refusals: &[5, 6], cases: 60_000, run: walk },
    Subject { name: "cj_sheet", refusals: &[5], cases: 60_000, run: sheet },
    Subject { name: "cj_period", refusals: &[4], cases: 20_000, run: period },
    Subject { name: "cj_output_word", refusals: &[4], cases: 150_000, run: output_word },
    Subject { name: "cj_whiten", refusals: &[5, 9], cases: 30_000, run: whiten },
    Subject { name: "cj_take", refusals: &[10, 11, 12, 13, 14, 15, 16, 17], cases: 30_000, run: take },
    Subject { name: "cj_read", refusals: &[11, 12, 13, 14, 15, 16, 18], cases: 30_000, run: read },
];

fn compare<T: PartialEq + Debug>(refusal: u32, expected: T, found: T, inputs: impl FnOnce() -> String) -> Outcome {
    if expected == found {
        return Ok(refusal);
    }
    Err(Box::new(Difference { inputs: inputs(), expected: format!("{expected:?}"), found: format!("{found:?}") }))
}

/// Compares what was lent, and what stands beside it.
fn compare_lent(outcome: Outcome, what: &str, expected: &Bytes, found: &Bytes, inputs: impl FnOnce() -> String) -> Outcome {
    let refusal = outcome?;
    if expected == found {
        return Ok(refusal);
    }
    Err(Box::new(Difference {
        inputs: inputs(),
        expected: format!("refusal {refusal}, and the {what} as below"),
        found: format!("the same answer, but of the {what} {}", expected.changes(found)),
    }))
}

fn hex(bytes: &[u8]) -> String {
    bytes.iter().map(|byte| format!("{byte:02x}")).collect()
}

/// The bursts of up to 12 bits, all of them, in the order of their length.
const SHORT_BURSTS: u64 = (1 << 13) - 1;

fn learn(library: &dyn Library, case: u64, random: &mut Random) -> Outcome {
    let (mut bytes, count) = if case < SHORT_BURSTS {
        let n = (case + 1).ilog2();
        let value = case + 1 - (1 << n);
        ((value as u16).to_le_bytes()[..n.div_ceil(8) as usize].to_vec(), n as u64)
    } else if case % 400 == 20 {
        let bits = burst_wrong_at_its_end(random);
        (packed(&bits), bits.len() as u64)
    } else if case % 40 == 0 {
        let n = long_length(random);
        let bits = burst(random, n);
        (packed(&bits), any_count(random, n))
    } else {
        let bits = short_burst(random);
        (packed(&bits), any_count(random, bits.len()))
    };
    match random.below(12) {
        0 => bytes.truncate(bytes.len().saturating_sub(1)),
        1 => {
            let n = random.below(600);
            bytes.extend(random.bytes(n));
        }
        2 | 3 if count % 8 != 0 && count.div_ceil(8) == bytes.len() as u64 => {
            // the bits past the count
            let last = bytes.len() - 1;
            bytes[last] |= (random.next() as u8) << (count % 8);
        }
        _ => {}
    }
    let expected = if count <= 7 {
        // the value of n bits over 1 fits and is below 2^n, so no pair past that is smaller
        learning::learn_by(|bits| learning::smallest_by_trying(bits, 1 << bits.len()), &bytes, count)
    } else {
        learning::learn(&bytes, count)
    };
    let before = Bytes::new(&bytes, any_side(random));
    let mut lent = before.clone();
    let found = library.learn(&mut lent, count);
    let inputs = || format!("count {count}, {} bytes {}", bytes.len(), hex(&bytes));
    compare_lent(compare(expected.refusal, expected, found, inputs), "bytes", &before, &lent, inputs)
}

fn learn_meter(library: &dyn Library, case: u64, random: &mut Random) -> Outcome {
    let mut bytes = good_store(random);
    let meter = pick!(random, 1, 2, METERS - 1, METERS, random.below(METERS) + 1);
    let n = if case % 12 == 0 { long_length(random) } else { short_burst(random).len() };
    let place = store::place_of(&burst(random, n.min(MOST_BITS)));
    bytes[(meter - 1) * PLACE_BYTES..meter * PLACE_BYTES].copy_from_slice(&place);
    if random.once_in(4) {
        damage_store(random, &mut bytes);
    }
    let wrong = [0, 33, 34, 255, 256, 257, 1 << 16 | 1, u32::MAX, 1 << 31];
    let meter = if random.once_in(10) { random.pick(&wrong) } else { meter as u32 };
    let expected = store::learn_meter(&bytes, meter);
    let before = Bytes::new(&bytes, any_side(random));
    let mut lent = before.clone();
    let found = library.learn_meter(&mut lent, meter);
    let inputs = || format!("meter {meter}, store of {} bytes {}", bytes.len(), hex(&bytes));
    compare_lent(compare(expected.refusal, expected, found, inputs), "store", &before, &lent, inputs)
}

fn read_back(library: &dyn Library, _: u64, random: &mut Random) -> Outcome {
    let register = any_register(random);
    let expected = registers::read_back(register);
    compare(expected.refusal, expected, library.read_back(register), || format!("{register:?}"))
}

fn any_pair(random: &mut Random) -> (i32, u32) {
    if random.once_in(2) {
        let (p, q) = good_pair(random);
        return (p as i32, q as u32);
    }
    let q = any_q(random);
    (any_p(random, q as i64), q)
}

fn load(library: &dyn Library, _: u64, random: &mut Random) -> Outcome {
    let (p, q) = any_pair(random);
    let expected = registers::load(p, q);
    compare(expected.refusal, expected, library.load(p, q), || format!("p {p}, q {q}"))
}

fn step(library: &dyn Library, _: u64, random: &mut Random) -> Outcome {
    let register = any_register(random);
    let expected = registers::step(register);
    compare(expected.refusal, expected, library.step(register), || format!("{register:?}"))
}

/// One walk in a thousand has a q near a million or ten millions and is walked by the step rule alone, state by state.
fn is_long_walk(case: u64) -> bool {
    case % 1000 == 999
}

fn walk(library: &dyn Library, case: u64, random: &mut Random) -> Outcome {
    let mut register = any_register(random);
    if is_long_walk(case) {
        register = long_walker(random);
    } else if case % 2 == 0 && registers::is_valid(register) && register.q > 4000 {
        // short periods are rare among large q
        let q = pick!(random, random.between(0, 2000) | 1, (1 << (random.below(30) + 1)) - 1, random.between(0, 70000) | 1);
        register.q = q as u32;
        register.cells &= (1 << registers::length(q as u32)) - 1;
    }
    let method = if is_long_walk(case) { walking::by_two_walkers } else { walking::method_for(register.q) };
    let needed = match walking::walk_by(method, register, u32::MAX) {
        walked if walked.refusal == 0 => walked.sum,
        _ => 0,
    };
    // exactly enough, one too few, and anything
    let allowance = match random.below(8) {
        0 | 1 => needed,
        2 | 3 => needed.saturating_sub(1),
        4 => pick!(random, 0, 1, 2, 60, 65_536, 65_535, u32::MAX, u32::MAX - 1, 1 << 31),
        5 => needed + random.below(4) as u32,
        6 => needed.saturating_sub(random.below(70) as u32),
        _ => random.next() as u32,
    };
    let expected = walking::walk_by(method, register, allowance);
    compare(expected.refusal, expected, library.walk(register, allowance), || format!("{register:?}, allowance {allowance}"))
}

const SMALL_MEMORIES: [i32; 13] = [-(1 << 30), -5, -4, -3, -2, -1, 0, 1, 2, 3, 4, 5, 1 << 30];

/// First every odd q to 127 with each of these memories, with no cell set, all of them, and any: stepped 200 times, none needs more than the
/// sheet says. Then any register.
fn sheet(library: &dyn Library, case: u64, random: &mut Random) -> Outcome {
    let (q, memory) = (2 * (case % 64) as u32 + 1, SMALL_MEMORIES[(case / 64 % 13) as usize]);
    let all = (1 << registers::length(q)) - 1;
    let register = match case / 64 / 13 {
        0 => Register { q, cells: 0, memory },
        1 => Register { q, cells: all, memory },
        2 => Register { q, cells: random.next() as u32 & all, memory },
        _ => any_register(random),
    };
    let expected = registers::sheet(register);
    let found = library.sheet(register);
    if case / 64 / 13 < 3 && found == expected {
        let mut stepped = register;
        for steps in 1..=200 {
            stepped = library.step(stepped).state;
            if !registers::holds(found.memory_bits, stepped.memory as i128) {
                let expected = format!("no memory past {} bits", found.memory_bits);
                let found = format!("{stepped:?} after {steps} steps");
                return Err(Box::new(Difference { inputs: format!("{register:?}"), expected, found }));
            }
        }
    }
    compare(expected.refusal, expected, found, || format!("{register:?}"))
}

fn period(library: &dyn Library, case: u64, random: &mut Random) -> Outcome {
    // every q up to a little past the table, then any
    let q = if case < 2100 { case as u32 } else { any_q(random) };
    let expected = periods::period(q);
    compare(expected.refusal, expected, library.period(q), || format!("q {q}"))
}

fn output_word(library: &dyn Library, _: u64, random: &mut Random) -> Outcome {
    let (p, q) = any_pair(random);
    let expected = fractions::output_word(p, q);
    compare(expected.refusal, expected, library.output_word(p, q), || format!("p {p}, q {q}"))
}

fn whiten(library: &dyn Library, case: u64, random: &mut Random) -> Outcome {
    let register = any_register(random);
    let n = match random.below(10) {
        0 => pick!(random, 0, 1, 2, 3, 4, 5, 6, 7, 8, 9),
        1 if case % 4 == 0 => pick!(random, 511, 512, 512, 508, 509),
        2 => pick!(random, 513, 514, 516, 1024, 4096),
        3 if case % 4 == 0 => random.below(WHITEN_BYTES + 1),
        _ => random.below(70),
    };
    let before = Bytes::new(&random.bytes(n), any_side(random));
    let (mut bytes, mut lent) = (before.clone(), before.clone());
    let register_before = LentRegister::new(register, any_side(random));
    let (mut stepped, mut given) = (register_before.clone(), register_before);
    let mut after = register;
    let refusal = whitening::whiten(&mut after, bytes.inside_mut());
    stepped.set(after);
    let found = library.whiten(&mut given, &mut lent);
    let inputs = || format!("{register:?}, {n} bytes {}", hex(before.inside()));
    compare_lent(compare(refusal, (refusal, stepped), (found, given), inputs), "bytes", &bytes, &lent, inputs)
}

fn take(library: &dyn Library, case: u64, random: &mut Random) -> Outcome {
    let mut bytes = if random.once_in(3) { vec![0; METERS * PLACE_BYTES] } else { good_store(random) };
    let room: Vec<usize> = bytes.chunks(PLACE_BYTES).map(|place| MOST_BITS - (place[0] as usize * 256 + place[1] as usize)).collect();
    let mut block;
    if case % 64 == 0 {
        block = full_block(random);
        if random.once_in(2) {
            bytes = vec![0; METERS * PLACE_BYTES];
        }
        match random.below(4) {
            0 => block.push(0),
            1 => {
                let n = random.between(1, 300) as usize;
                block.extend(random.bytes(n));
            }
            2 => damage_block(random, &mut block, &[0, 70, 140, 70 * 200]),
            _ => {}
        }
    } else {
        let starts;
        (block, starts) = good_block(random, &room);
        for _ in 0..pick!(random, 0, 0, 0, 1, 1, 1, 2) {
            damage_block(random, &mut block, &starts);
        }
        if random.once_in(60) {
            let n = BLOCK_BYTES + pick!(random, 0, 1, 2, 70);
            block.resize(n.max(block.len()), 0x5A);
        }
    }
    if random.once_in(12) {
        damage_store(random, &mut bytes);
    }
    let before = Bytes::new(&bytes, any_side(random));
    let block_before = Bytes::new(&block, any_side(random));
    let (mut taken_into, mut lent, mut block_lent) = (before.clone(), before.clone(), block_before.clone());
    let expected = store::take(taken_into.inside_mut(), &block);
    let found = library.take(&mut lent, &mut block_lent);
    let inputs = || format!("store of {} bytes {}\n  block of {} bytes {}", bytes.len(), hex(&bytes), block.len(), hex(&block));
    let outcome = compare(expected.refusal, expected, found, inputs);
    let outcome = compare_lent(outcome, "store", &taken_into, &lent, inputs);
    compare_lent(outcome, "block", &block_before, &block_lent, inputs)
}

fn read(library: &dyn Library, case: u64, random: &mut Random) -> Outcome {
    // both well formed, the first damaged, both damaged
    let (first_damaged, second_damaged) =
        pick!(random, (false, false), (false, true), (true, false), (true, false), (true, true), (true, true));
    let first = antenna_block(random, case % 64 == 0, first_damaged);
    let second = antenna_block(random, case % 64 == 1, second_damaged);
    let (meter, ordinal) = question(random, if store::records(&first).is_ok() { &first } else { &second });
    let before = [Bytes::new(&first, any_side(random)), Bytes::new(&second, any_side(random))];
    let [mut first_lent, mut second_lent] = before.clone();
    let expected = antennas::read(&first, &second, meter, ordinal);
    let found = library.read(&mut first_lent, &mut second_lent, meter, ordinal);
    let inputs = || {
        let blocks = [&first, &second].map(|block| format!("block of {} bytes {}", block.len(), hex(block)));
        format!("meter {meter}, ordinal {ordinal}\n  first {}\n  second {}", blocks[0], blocks[1])
    };
    let outcome = compare(expected.refusal, expected, found, inputs);
    let outcome = compare_lent(outcome, "first block", &before[0], &first_lent, inputs);
    compare_lent(outcome, "second block", &before[1], &second_lent, inputs)
}
