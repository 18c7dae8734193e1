//! The order of two modulo an odd q: "the least T >= 1 with 2^T - 1 divisible by q".

use crate::answers::Entry;

/// By counting.
pub fn order_by_counting(q: u32) -> u32 {
    let q = q as u64;
    let mut power = 2 % q;
    let mut exponent = 1;
    while power != 1 % q {
        power = 2 * power % q;
        exponent += 1;
    }
    exponent
}

/// The primes that divide n, with how often, by trying.
fn factors(mut n: u64) -> Vec<(u64, u32)> {
    let mut found = Vec::new();
    let mut candidate = 2;
    while candidate * candidate <= n {
        let mut times = 0;
        while n % candidate == 0 {
            n /= candidate;
            times += 1;
        }
        if times > 0 {
            found.push((candidate, times));
        }
        candidate += 1;
    }
    if n > 1 {
        found.push((n, 1));
    }
    found
}

fn power_of_two_modulo(mut exponent: u64, q: u64) -> u64 {
    let mut square = 2 % q;
    let mut power = 1 % q;
    while exponent > 0 {
        if exponent % 2 == 1 {
            power = power * square % q;
        }
        square = square * square % q;
        exponent /= 2;
    }
    power
}

/// By factors: Euler's function of q is a multiple of the order; take out each prime as long as the power stays 1.
pub fn order_by_factors(q: u32) -> u32 {
    let q = q as u64;
    let mut order: u64 = factors(q).iter().map(|&(prime, times)| (prime - 1) * prime.pow(times - 1)).product();
    for (prime, times) in factors(order) {
        for _ in 0..times {
            if power_of_two_modulo(order / prime, q) == 1 % q {
                order /= prime;
            }
        }
    }
    order as u32
}

/// "Even q, 0 and larger q get refusal 4."
pub fn period(q: u32) -> Entry {
    if q % 2 == 0 || q > 1023 {
        return Entry { refusal: 4, period: 0 };
    }
    Entry { refusal: 0, period: order_by_counting(q) }
}

#[cfg(test)]
mod tests {
    use super::*;

    #[test]
    fn both_methods_agree() {
        for q in (1..6000).step_by(2) {
            assert_eq!(order_by_counting(q), order_by_factors(q), "{q}");
        }
        for q in [65537, 65539, 1048573, 2097151] {
            assert_eq!(order_by_counting(q), order_by_factors(q), "{q}");
        }
    }

    #[test]
    fn the_paper_s_table_2() {
        // The q with T = q - 1, by length r as the formula gives it.
        let listed = [
            3, 5, 11, 13, 19, 29, 37, 53, 59, 61, 67, 83, 101, 107, 131, 139, 149, 163, 173, 179, 181, 197, 211, 227, 269, 293, 317, 347,
            349, 373, 379, 389, 419, 421, 443, 461, 467, 491, 509,
        ];
        let found: Vec<u32> = (3..511).step_by(2).filter(|&q| period(q).period == q - 1).collect();
        assert_eq!(found, listed);
        assert_eq!(period(1), Entry { refusal: 0, period: 1 });
        assert_eq!(period(1023), Entry { refusal: 0, period: 10 });
        for q in [0, 2, 1022, 1024, 1025, u32::MAX] {
            assert_eq!(period(q), Entry { refusal: 4, period: 0 });
        }
    }
}
