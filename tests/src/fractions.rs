//! The bits of a fraction, and pairs inside the limits.

use crate::answers::{Word, LIMIT};

/// "A pair (p, q) is inside the limits when q is odd, 1 <= q <= B and -B <= p <= B."
pub fn is_inside(p: i64, q: i64) -> bool {
    q % 2 == 1 && 1 <= q && q <= LIMIT && -LIMIT <= p && p <= LIMIT
}

/// The first n bits of p/q, q odd, by long division: the next bit is the parity of what is left.
pub fn bits_of(p: i128, q: i128, n: usize) -> Vec<bool> {
    assert!(q.rem_euclid(2) == 1, "only an odd q has bits");
    let mut rest = p;
    let mut bits = Vec::with_capacity(n);
    for _ in 0..n {
        let bit = rest.rem_euclid(2) == 1;
        if bit {
            rest -= q;
        }
        rest /= 2;
        bits.push(bit);
    }
    bits
}

/// "the whole number u below 2^64 with u·q - p divisible by 2^64: the first 64 output bits, first bit lowest."
pub fn output_word(p: i32, q: u32) -> Word {
    if !is_inside(p as i64, q as i64) {
        return Word { refusal: 4, word: 0 };
    }
    let mut word = 0;
    for (i, bit) in bits_of(p as i128, q as i128, 64).into_iter().enumerate() {
        word |= (bit as u64) << i;
    }
    Word { refusal: 0, word }
}

pub fn gcd(a: u128, b: u128) -> u128 {
    if b == 0 {
        a
    } else {
        gcd(b, a % b)
    }
}

/// Bits packed into bytes: "Bit i is in byte i/8 (rounded down) with weight 2^(i mod 8)."
pub fn packed(bits: &[bool]) -> Vec<u8> {
    let mut bytes = vec![0u8; bits.len().div_ceil(8)];
    for (i, &bit) in bits.iter().enumerate() {
        bytes[i / 8] |= (bit as u8) << (i % 8);
    }
    bytes
}

/// The first n bits of bytes that hold at least so many.
pub fn unpacked(bytes: &[u8], n: usize) -> Vec<bool> {
    (0..n).map(|i| bytes[i / 8] >> (i % 8) & 1 == 1).collect()
}

#[cfg(test)]
mod tests {
    use super::*;

    #[test]
    fn bits_by_the_definition() {
        // u·q - p divisible by 2^n, for the number u of the first n bits
        for q in (1..60).step_by(2) {
            for p in -70..70i128 {
                let bits = bits_of(p, q, 20);
                let u: i128 = bits.iter().enumerate().map(|(i, &b)| (b as i128) << i).sum();
                assert_eq!((u * q - p).rem_euclid(1 << 20), 0);
            }
        }
    }

    #[test]
    fn words_by_the_definition() {
        for (p, q) in [(0, 1), (1, 1), (-1, 1), (-1, 3), (LIMIT, LIMIT), (-LIMIT, 1), (LIMIT, 3), (-5, 15)] {
            let answer = output_word(p as i32, q as u32);
            assert_eq!(answer.refusal, 0);
            assert_eq!((answer.word as i128 * q as i128 - p as i128).rem_euclid(1 << 64), 0);
        }
        assert_eq!(output_word(1, 2), Word { refusal: 4, word: 0 });
        assert_eq!(output_word(1 << 30, 3).refusal, 4);
        assert_eq!(output_word(-(1 << 30), 3).refusal, 4);
        assert_eq!(output_word(0, (1 << 30) + 1).refusal, 4);
        assert_eq!(output_word(i32::MIN, 1).refusal, 4);
    }
}
