//! "Lead-in is the least L, and period the least T >= 1, for which the state after L+T steps equals the state after L."
//!
//! Three methods. Two know the step rule alone and compare states: `by_states_seen` remembers every state, `by_two_walkers` (Brent) holds
//! two. The third, `by_order_of_two`, is quick and rests on a theorem, as the library does: "A state repeats without lead-in exactly when
//! -q <= p <= 0, p unreduced", and the numerators p then go round with 2 modulo q/gcd(p, q). So above q = 100,000, where the reference takes
//! it, the two could be wrong together, and the comparison walks some registers with q near a million and ten millions by the step rule.

use crate::answers::{Register, Walked};
use crate::fractions::gcd;
use crate::periods::order_by_factors;
use crate::registers::{is_valid, length, numerator, stepped, tap};
use std::collections::HashMap;

fn next(register: Register) -> Register {
    stepped(register).1
}

/// Remembers every state. Nothing where L+T exceeds the allowance.
pub fn by_states_seen(start: Register, allowance: u32) -> Option<(u32, u32)> {
    let mut seen = HashMap::new();
    let mut at = start;
    for steps in 0..=allowance {
        if let Some(first) = seen.insert(at, steps) {
            return Some((first, steps - first));
        }
        at = next(at);
    }
    None
}

/// The step rule of one q for millions of steps: the sum over the taps is the number of ones among the cells that are tapped.
struct Stepper {
    last: u32,
    tapped: u32,
}

impl Stepper {
    fn new(q: u32) -> Stepper {
        let r = length(q);
        let tapped = (1..=r).filter(|&k| tap(q, k) == 1).map(|k| 1 << (r - k)).sum();
        Stepper { last: r as u32 - 1, tapped }
    }

    fn next(&self, register: Register) -> Register {
        let s = register.memory as i64 + (register.cells & self.tapped).count_ones() as i64;
        Register { q: register.q, cells: register.cells >> 1 | (s.rem_euclid(2) as u32) << self.last, memory: s.div_euclid(2) as i32 }
    }
}

/// Two walkers (Brent): the period first, then the lead-in with one walker a period ahead.
pub fn by_two_walkers(start: Register) -> (u32, u32) {
    let stepper = Stepper::new(start.q);
    let mut waits = start;
    let mut walks = stepper.next(start);
    let mut period = 1;
    let mut power = 1;
    while waits != walks {
        if power == period {
            waits = walks;
            power *= 2;
            period = 0;
        }
        walks = stepper.next(walks);
        period += 1;
    }
    let mut behind = start;
    let mut ahead = start;
    for _ in 0..period {
        ahead = stepper.next(ahead);
    }
    let mut lead = 0;
    while behind != ahead {
        behind = stepper.next(behind);
        ahead = stepper.next(ahead);
        lead += 1;
    }
    (lead, period)
}

/// Steps through the lead-in, then takes the order of two.
pub fn by_order_of_two(start: Register) -> (u32, u32) {
    let q = start.q as i128;
    let mut at = start;
    let mut lead = 0;
    while !(-q..=0).contains(&numerator(at)) {
        at = next(at);
        lead += 1;
    }
    let common = gcd(numerator(at).unsigned_abs(), q as u128);
    (lead, order_by_factors((q as u128 / common) as u32))
}

/// "Walk: 5, 6.", the lead-in and the period found by the method given.
pub fn walk_by(method: fn(Register) -> (u32, u32), register: Register, allowance: u32) -> Walked {
    if !is_valid(register) {
        return Walked { refusal: 5, ..Walked::default() };
    }
    let found = if allowance <= 300 { by_states_seen(register, allowance) } else { Some(method(register)) };
    match found {
        Some((lead, period)) if lead as u64 + period as u64 <= allowance as u64 => Walked { refusal: 0, lead, period, sum: lead + period },
        _ => Walked { refusal: 6, ..Walked::default() },
    }
}

/// By the step rule alone, where that does not take long.
pub fn method_for(q: u32) -> fn(Register) -> (u32, u32) {
    if q <= 100_000 {
        by_two_walkers
    } else {
        by_order_of_two
    }
}

pub fn walk(register: Register, allowance: u32) -> Walked {
    walk_by(method_for(register.q), register, allowance)
}

#[cfg(test)]
mod tests {
    use super::*;
    use crate::inputs::{any_register, Random};
    use crate::registers::load;

    fn loaded(p: i32, q: u32) -> Register {
        load(p, q).state
    }

    #[test]
    fn bench_values() {
        assert_eq!(walk(loaded(1, 1), 100), Walked { refusal: 0, lead: 1, period: 1, sum: 2 });
        assert_eq!(walk(loaded(2, 1), 100), Walked { refusal: 0, lead: 2, period: 1, sum: 3 });
        assert_eq!(walk(loaded(-1, 37), 36), Walked { refusal: 0, lead: 0, period: 36, sum: 36 });
        assert_eq!(walk(loaded(-1, 37), 35), Walked { refusal: 6, lead: 0, period: 0, sum: 0 });
        assert_eq!(walk(loaded(-5, 15), u32::MAX), Walked { refusal: 0, lead: 0, period: 2, sum: 2 });
        assert_eq!(walk(loaded(-37, 37), 1), Walked { refusal: 0, lead: 0, period: 1, sum: 1 });
        assert_eq!(walk(loaded(0, 1), 0).refusal, 6);
    }

    #[test]
    fn a_count_of_ones_is_the_sum_over_the_taps() {
        let mut random = Random::new(1, 0, 0);
        for _ in 0..100_000 {
            let register = any_register(&mut random);
            if is_valid(register) {
                assert_eq!(Stepper::new(register.q).next(register), next(register), "{register:?}");
            }
        }
    }

    #[test]
    fn every_method_on_small_registers() {
        for q in (1..50u32).step_by(2) {
            for cells in 0..1 << length(q) {
                for memory in [-(1 << 30), -12345, -8, -2, -1, 0, 1, 2, 3, 8, 4711, 1 << 30] {
                    let register = Register { q, cells, memory };
                    let (lead, period) = by_two_walkers(register);
                    assert_eq!(by_order_of_two(register), (lead, period), "{register:?}");
                    let sum = lead + period;
                    assert_eq!(by_states_seen(register, sum), Some((lead, period)), "{register:?}");
                    assert_eq!(by_states_seen(register, sum - 1), None, "{register:?}");
                }
            }
        }
    }

    #[test]
    fn larger_registers_by_two_methods() {
        for (p, q) in [(-1, 65537), (5, 65539), (-77, 99999), (1 << 29, 131071), (-(1 << 29), 77777), (-7 * 11 * 13, 7 * 11 * 13 * 101)] {
            assert_eq!(by_two_walkers(loaded(p, q)), by_order_of_two(loaded(p, q)), "{p}/{q}");
        }
    }
}
