//! The register: "For odd q, r = floor(log2(q+1)), and q+1 = q_1·2 + q_2·4 + ... + q_r·2^r gives the taps; take q_0 = -1."

use crate::answers::{Fraction, Loaded, Register, Stepped, Storage, LIMIT, MOST_MEMORY};
use crate::fractions::{bits_of, gcd, is_inside};

/// r, the number of cells: the largest with 2^r <= q+1.
pub fn length(q: u32) -> usize {
    let mut r = 0;
    while 1u64 << (r + 1) <= q as u64 + 1 {
        r += 1;
    }
    r
}

/// q_k; q_0 = -1.
pub fn tap(q: u32, k: usize) -> i128 {
    if k == 0 {
        -1
    } else {
        ((q as i128 + 1) >> k) & 1
    }
}

/// a_i.
pub fn cell(cells: u32, i: usize) -> i128 {
    (cells >> i & 1) as i128
}

/// "It is valid when q is odd, 1 <= q <= B, the cells are below 2^r and -2^30 <= m <= 2^30."
pub fn is_valid(register: Register) -> bool {
    let Register { q, cells, memory } = register;
    q % 2 == 1 && (q as i64) <= LIMIT && (cells as u64) < 1 << length(q) && -MOST_MEMORY <= memory as i64 && memory as i64 <= MOST_MEMORY
}

/// One step of a valid register: the bit, and the register after it.
pub fn stepped(register: Register) -> (bool, Register) {
    let Register { q, cells, memory } = register;
    let r = length(q);
    let mut s = memory as i128;
    for k in 1..=r {
        s += tap(q, k) * cell(cells, r - k);
    }
    let new_cell = s.rem_euclid(2);
    let new_memory = s.div_euclid(2);
    let mut moved = 0;
    for i in 1..r {
        moved |= (cell(cells, i) as u32) << (i - 1);
    }
    moved |= (new_cell as u32) << (r - 1);
    (cell(cells, 0) == 1, Register { q, cells: moved, memory: new_memory as i32 })
}

/// "y is the sum, i from 0 to r-1 and j from 0 to i, of q_j·a_(i-j)·2^i."
pub fn y(q: u32, cells: u32) -> i128 {
    let mut sum = 0;
    for i in 0..length(q) {
        for j in 0..=i {
            sum += tap(q, j) * cell(cells, i - j) << i;
        }
    }
    sum
}

/// "p = y - m·2^r", unreduced.
pub fn numerator(register: Register) -> i128 {
    y(register.q, register.cells) - ((register.memory as i128) << length(register.q))
}

/// The cells and the memory whose numerator is p, whatever the size of p: "Cells: the first r bits of p/q. m = (y - p)/2^r, which is
/// whole."
pub fn state_of(p: i128, q: u32) -> (u32, i128) {
    let r = length(q);
    let mut cells = 0;
    for (i, bit) in bits_of(p, q as i128, r).into_iter().enumerate() {
        cells |= (bit as u32) << i;
    }
    let over = y(q, cells) - p;
    assert!(over.rem_euclid(1 << r) == 0, "the memory is whole");
    (cells, over >> r)
}

/// "Load: 4, 8."
pub fn load(p: i32, q: u32) -> Loaded {
    if !is_inside(p as i64, q as i64) {
        return Loaded { refusal: 4, ..Loaded::default() };
    }
    let (cells, memory) = state_of(p as i128, q);
    if memory.abs() > MOST_MEMORY as i128 {
        return Loaded { refusal: 8, ..Loaded::default() };
    }
    Loaded { refusal: 0, state: Register { q, cells, memory: memory as i32 } }
}

/// "Step: 5"; "a register taken by value comes back as it was given."
pub fn step(register: Register) -> Stepped {
    if !is_valid(register) {
        return Stepped { refusal: 5, bit: 0, state: register };
    }
    let (bit, state) = stepped(register);
    Stepped { refusal: 0, bit: bit as u32, state }
}

/// "Read back: 5, 7."
pub fn read_back(register: Register) -> Fraction {
    if !is_valid(register) {
        return Fraction::refused(5);
    }
    let p = numerator(register);
    let q = register.q as i128;
    let common = gcd(p.unsigned_abs(), q.unsigned_abs()) as i128;
    let (p, q) = (p / common, q / common);
    if p.abs() > LIMIT as i128 || !is_inside(p as i64, q as i64) {
        return Fraction::refused(7);
    }
    Fraction::of(p as i64, q as i64)
}

/// Whether n signed bits hold x: "between -2^(n-1) and 2^(n-1) - 1".
pub fn holds(n: u32, x: i128) -> bool {
    let half = 1 << (n - 1);
    (-half..half).contains(&x)
}

/// "Cells: r." Memory bits: "the least n >= 1 with both between", the memory and w - 1, w being the number of ones in q+1.
pub fn sheet(register: Register) -> Storage {
    if !is_valid(register) {
        return Storage { refusal: 5, ..Storage::default() };
    }
    let r = length(register.q);
    let w: i128 = (1..=r).map(|k| tap(register.q, k)).sum();
    let mut memory_bits = 1;
    while !holds(memory_bits, register.memory as i128) || !holds(memory_bits, w - 1) {
        memory_bits += 1;
    }
    Storage { refusal: 0, cells: r as u32, memory_bits }
}

#[cfg(test)]
mod tests {
    use super::*;

    fn loaded(p: i32, q: u32) -> Register {
        let answer = load(p, q);
        assert_eq!(answer.refusal, 0);
        answer.state
    }

    #[test]
    fn bench_values() {
        assert_eq!(load(1, 1), Loaded { refusal: 0, state: Register { q: 1, cells: 1, memory: -1 } });
        assert_eq!(load(2, 1), Loaded { refusal: 0, state: Register { q: 1, cells: 0, memory: -1 } });
        assert_eq!(load(-1, 37), Loaded { refusal: 0, state: Register { q: 37, cells: 19, memory: 0 } });
        assert_eq!(load(-5, 15), Loaded { refusal: 0, state: Register { q: 15, cells: 5, memory: 0 } });
        assert_eq!(read_back(loaded(-5, 15)), Fraction::of(-1, 3));
    }

    #[test]
    fn lengths_and_sheets() {
        for (q, r, bits) in [(1, 1, 1), (3, 2, 1), (5, 2, 2), (7, 3, 1), (37, 5, 3), (LIMIT as u32, 30, 1), (LIMIT as u32 - 2, 29, 6)] {
            assert_eq!(length(q), r);
            assert_eq!(sheet(Register { q, cells: 0, memory: 0 }), Storage { refusal: 0, cells: r as u32, memory_bits: bits }, "{q}");
        }
        for (memory, bits) in [(-1, 1), (1, 2), (-4, 3), (3, 3), (4, 4), (-5, 4), (1 << 30, 32), (-(1 << 30), 31)] {
            assert_eq!(sheet(Register { q: 1, cells: 0, memory }).memory_bits, bits, "{memory}");
        }
        assert_eq!(sheet(loaded(-1, 37)).memory_bits, 3);
        assert_eq!(sheet(loaded(2, 1)).memory_bits, 1);
        assert_eq!(sheet(Register { q: 4, cells: 0, memory: 0 }).refusal, 5);
    }

    #[test]
    fn the_step_keeps_to_the_numerators() {
        // num = a_0·q + 2·num', whatever the state
        for q in (1..80u32).step_by(2) {
            for cells in 0..1 << length(q) {
                for memory in [-(1 << 30), -9, -2, -1, 0, 1, 2, 5, 1 << 30] {
                    let register = Register { q, cells, memory };
                    let (bit, after) = stepped(register);
                    assert!(is_valid(after));
                    assert_eq!(numerator(register), bit as i128 * q as i128 + 2 * numerator(after));
                    assert_eq!(state_of(numerator(register), q), (cells, memory as i128));
                }
            }
        }
    }

    #[test]
    fn loading_and_reading_back() {
        for q in (1..60u32).step_by(2) {
            for p in -90..90i32 {
                let common = gcd(p.unsigned_abs() as u128, q as u128) as i64;
                let register = loaded(p, q);
                assert_eq!(read_back(register), Fraction::of(p as i64 / common, q as i64 / common));
                let mut at = register;
                for expected in bits_of(p as i128, q as i128, 40) {
                    let (bit, after) = stepped(at);
                    assert_eq!(bit, expected);
                    at = after;
                }
            }
        }
        assert_eq!(read_back(Register { q: 1, cells: 0, memory: 0 }), Fraction::of(0, 1));
        assert_eq!(read_back(Register { q: 1, cells: 0, memory: 1 << 30 }), Fraction::refused(7));
        assert_eq!(read_back(Register { q: 1, cells: 2, memory: 0 }), Fraction::refused(5));
        assert_eq!(
            step(Register { q: 2, cells: 9, memory: -7 }),
            Stepped { refusal: 5, bit: 0, state: Register { q: 2, cells: 9, memory: -7 } }
        );
        assert_eq!(load(LIMIT as i32, LIMIT as u32).refusal, 0);
        assert_eq!(load(-(1 << 30), 1).refusal, 4);
    }

    #[test]
    fn the_36_states_of_37() {
        // Document 001's table 1: memory, the register as printed (a_0 right), its p (our -p), in the order of its column n. Its p of
        // row n is 19^n modulo 37.
        let table = [
            (0, "10011", 1),
            (1, "01001", 19),
            (1, "10100", 28),
            (1, "01010", 14),
            (1, "00101", 7),
            (1, "00010", 22),
            (0, "10001", 11),
            (1, "01000", 24),
            (1, "00100", 12),
            (0, "10010", 6),
            (0, "11001", 3),
            (1, "11100", 20),
            (1, "11110", 10),
            (1, "11111", 5),
            (2, "01111", 21),
            (2, "00111", 29),
            (1, "10011", 33),
            (1, "11001", 35),
            (2, "01100", 36),
            (1, "10110", 18),
            (1, "01011", 9),
            (1, "10101", 23),
            (1, "11010", 30),
            (1, "11101", 15),
            (2, "01110", 26),
            (1, "10111", 13),
            (1, "11011", 25),
            (2, "01101", 31),
            (2, "00110", 34),
            (1, "00011", 17),
            (1, "00001", 27),
            (1, "00000", 32),
            (0, "10000", 16),
            (0, "11000", 8),
            (1, "01100", 4),
            (1, "00110", 2),
        ];
        let mut register = loaded(-1, 37);
        for (n, (memory, cells, p)) in table.into_iter().enumerate() {
            let cells = u32::from_str_radix(cells, 2).expect("binary");
            assert_eq!(register, Register { q: 37, cells, memory }, "row {n}");
            assert_eq!(numerator(register), -p, "row {n}");
            register = stepped(register).1;
        }
        assert_eq!(register, loaded(-1, 37));
    }
}
