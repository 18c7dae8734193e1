//! The smallest pair of a burst: "the fitting pair inside the limits with least size; among those, least |p|; then least q; then
//! p not negative."
//!
//! The pairs (p, q) of whole numbers with A·q - p divisible by 2^n are a lattice with the basis (2^n, 0), (A, 1). Two methods:
//!
//! - `smallest`: reduce the basis (Lagrange and Gauss, in the norm N(p, q) = max(|p|, |q|)), then look through the few lines of the
//!   lattice that can hold the answer. For any number of bits.
//! - `smallest_by_trying`: every pair inside the limits. For small limits only; `smallest` is tested against it.
//!
//! Why the few lines are enough. In a reduced basis N(b1) <= N(b2) <= N(b2 + c·b1) for every whole c, so for every real t
//! N(b2 + t·b1) >= N(b2) - N(b1)/2 >= N(b2)/2, and hence N(c·b1 + d·b2) >= |d|·N(b2)/2. One of b1, b2 has q odd, so the
//! answer's size is at most N(b2): |d| <= 2. On the line with a given d, |p|, |q| and the larger of them are affine between the
//! places where p, q, p - q or p + q changes its sign, so the least in the written order is next to one of these.

use crate::answers::{Fraction, LIMIT, MOST_BITS};
use crate::fractions::unpacked;
use crate::integers::Integer;
use std::cmp::Ordering;

#[derive(Clone, Debug)]
struct Pair {
    p: Integer,
    q: Integer,
}

impl Pair {
    /// self + c·step
    fn along(&self, step: &Pair, c: &Integer) -> Pair {
        Pair { p: self.p.plus(&step.p.times(c)), q: self.q.plus(&step.q.times(c)) }
    }

    /// N, the larger of |p| and |q|.
    fn size(&self) -> Integer {
        self.p.abs().max(self.q.abs())
    }

    /// The same fraction with q not negative.
    fn upright(self) -> Pair {
        if self.q.is_negative() {
            Pair { p: self.p.negated(), q: self.q.negated() }
        } else {
            self
        }
    }

    /// The written order, on upright pairs.
    fn compare(&self, other: &Pair) -> Ordering {
        self.size()
            .cmp(&other.size())
            .then_with(|| self.p.compare_sizes(&other.p))
            .then_with(|| self.q.compare_sizes(&other.q))
            .then_with(|| self.p.is_negative().cmp(&other.p.is_negative()))
    }
}

/// The pairs base + c·step next to the places where p, q, p - q or p + q changes its sign.
fn turning_points(base: &Pair, step: &Pair) -> Vec<Pair> {
    let lines = [
        (base.p.clone(), step.p.clone()),
        (base.q.clone(), step.q.clone()),
        (base.p.minus(&base.q), step.p.minus(&step.q)),
        (base.p.plus(&base.q), step.p.plus(&step.q)),
    ];
    let mut pairs = Vec::new();
    for (start, slope) in lines {
        if !slope.is_zero() {
            let (below, _) = start.negated().divided(&slope);
            pairs.push(base.along(step, &below));
            pairs.push(base.along(step, &below.plus(&Integer::from(1))));
        }
    }
    pairs
}

/// A basis with N(b1) <= N(b2) <= N(b2 + c·b1) for every whole c.
fn reduced(mut b1: Pair, mut b2: Pair) -> (Pair, Pair) {
    // Euclid's steps bring p down and q up, fast; whatever they leave is a basis of the same lattice.
    while b1.p > b1.q.abs() {
        let (quotient, rest) = b2.p.divided(&b1.p);
        let next = Pair { p: rest, q: b2.q.minus(&b1.q.times(&quotient)) };
        b2 = b1;
        b1 = next;
    }
    loop {
        if b1.size() > b2.size() {
            std::mem::swap(&mut b1, &mut b2);
        }
        let best = turning_points(&b2, &b1).into_iter().min_by_key(|pair| pair.size()).expect("b1 is not zero");
        if best.size() >= b2.size() {
            return (b1, b2);
        }
        b2 = best;
    }
}

/// The smallest pair with q odd that fits the bits and whose size is at most the limit.
pub fn smallest(bits: &[bool], limit: i64) -> Option<(i64, i64)> {
    let b1 = Pair { p: Integer::of_bits(bits), q: Integer::from(1) };
    let b2 = Pair { p: Integer::power_of_two(bits.len()), q: Integer::zero() };
    let (b1, b2) = reduced(b1, b2);
    let nothing = Pair { p: Integer::zero(), q: Integer::zero() };
    let twice = nothing.along(&b1, &Integer::from(2));
    let mut candidates = Vec::new();
    for d in -2..=2i64 {
        let base = nothing.along(&b2, &Integer::from(d));
        if !b1.q.is_odd() {
            if base.q.is_odd() {
                candidates.extend(turning_points(&base, &b1));
            }
        } else if base.q.is_odd() {
            candidates.extend(turning_points(&base, &twice));
        } else {
            candidates.extend(turning_points(&base.along(&b1, &Integer::from(1)), &twice));
        }
    }
    let least = candidates.into_iter().map(Pair::upright).min_by(Pair::compare).expect("a basis has a pair with q odd");
    assert!(least.q.is_odd(), "every candidate has q odd");
    match (least.p.small(), least.q.small()) {
        (Some(p), Some(q)) if p.abs() <= limit && q <= limit => Some((p, q)),
        _ => None,
    }
}

/// The same by trying every pair inside the limits; for at most 60 bits and small limits.
pub fn smallest_by_trying(bits: &[bool], limit: i64) -> Option<(i64, i64)> {
    assert!(bits.len() <= 60);
    let value: i128 = bits.iter().enumerate().map(|(i, &bit)| (bit as i128) << i).sum();
    let mut best: Option<(i64, i64, i64, bool, i64)> = None;
    for q in (1..=limit).step_by(2) {
        for p in -limit..=limit {
            if (value * q as i128 - p as i128).rem_euclid(1 << bits.len()) == 0 {
                let key = (p.abs().max(q), p.abs(), q, p < 0, p);
                if best.map_or(true, |least| key < least) {
                    best = Some(key);
                }
            }
        }
    }
    best.map(|(_, _, q, _, p)| (p, q))
}

/// "Learn: 1, 2, 3.", the smallest pair found by the method given.
pub fn learn_by(method: fn(&[bool]) -> Option<(i64, i64)>, bytes: &[u8], count: u64) -> Fraction {
    if count > MOST_BITS as u64 {
        return Fraction::refused(1);
    }
    let count = count as usize;
    if bytes.len() < count.div_ceil(8) {
        return Fraction::refused(2);
    }
    match method(&unpacked(bytes, count)) {
        Some((p, q)) => Fraction::of(p, q),
        None => Fraction::refused(3),
    }
}

pub fn learn(bytes: &[u8], count: u64) -> Fraction {
    learn_by(|bits| smallest(bits, LIMIT), bytes, count)
}

#[cfg(test)]
mod tests {
    use super::*;
    use crate::fractions::{bits_of, gcd, packed};

    /// Bits written first bit left.
    fn burst(text: &str) -> Vec<bool> {
        text.chars().map(|c| c == '1').collect()
    }

    fn answer(text: &str) -> Fraction {
        let bits = burst(text);
        learn(&packed(&bits), bits.len() as u64)
    }

    #[test]
    fn bench_values() {
        let values = [
            ("", 0, 1),
            ("1", 1, 1),
            ("11", -1, 1),
            ("01", 2, 1),
            ("001", 4, 1),
            ("101", -1, 3),
            ("1011", -3, 1),
            ("1100101000100", -1, 37),
        ];
        for (text, p, q) in values {
            assert_eq!(answer(text), Fraction::of(p, q), "{text}");
        }
        assert_eq!(answer(&("0".repeat(29) + "1")), Fraction::of(536870912, 1));
        assert_eq!(answer(&("0".repeat(30) + "1")), Fraction::refused(3));
    }

    #[test]
    fn every_short_burst_by_both_methods() {
        for n in 0..=11 {
            for value in 0..1u32 << n {
                let bits: Vec<bool> = (0..n).map(|i| value >> i & 1 == 1).collect();
                for limit in [1, 2, 3, 6, 11, 32] {
                    if n > 9 && limit > 11 {
                        continue;
                    }
                    assert_eq!(smallest(&bits, limit), smallest_by_trying(&bits, limit), "{bits:?} within {limit}");
                }
            }
        }
    }

    #[test]
    fn some_longer_bursts_by_both_methods() {
        let mut state = 5u64;
        for _ in 0..600 {
            state = state.wrapping_mul(6364136223846793005).wrapping_add(1442695040888963407);
            let n = (state >> 60) as usize + 8;
            let bits: Vec<bool> = (0..n).map(|i| state >> (20 + i) & 1 == 1).collect();
            for limit in [30, 90, 127] {
                assert_eq!(smallest(&bits, limit), smallest_by_trying(&bits, limit), "{bits:?} within {limit}");
            }
        }
    }

    #[test]
    fn long_bursts_give_their_fraction() {
        for (p, q) in [(0, 1), (-1, 37), (LIMIT, 1), (-LIMIT, LIMIT - 2), (LIMIT - 1, LIMIT), (7, 5), (-1, LIMIT)] {
            assert_eq!(gcd(p.unsigned_abs() as u128, q as u128), 1);
            for n in [61, 62, 64, 100, 1000, 4096] {
                let mut bits = bits_of(p as i128, q as i128, n);
                assert_eq!(smallest(&bits, LIMIT), Some((p, q)), "{p}/{q} in {n} bits");
                if n >= 100 {
                    bits[n - 1] = !bits[n - 1];
                    assert_eq!(smallest(&bits, LIMIT), None, "{p}/{q} in {n} bits with the last one wrong");
                }
            }
        }
    }

    #[test]
    fn refusals_in_their_order() {
        assert_eq!(learn(&[], 4097), Fraction::refused(1));
        assert_eq!(learn(&[], u64::MAX), Fraction::refused(1));
        assert_eq!(learn(&[], 1), Fraction::refused(2));
        assert_eq!(learn(&[0; 512], 4096), Fraction::of(0, 1));
        assert_eq!(learn(&[0; 511], 4096), Fraction::refused(2));
        assert_eq!(learn(&[0b1111_1010, 0xff], 1), Fraction::of(0, 1));
    }
}
