//! Whole numbers of any size: a sign and limbs of 64 bits, the lowest first. Schoolbook arithmetic, enough for a lattice of 4,096 bits.

use std::cmp::Ordering;

/// No zero limb at the end, and zero is not negative: so equal numbers are equal values.
#[derive(Clone, PartialEq, Eq, Debug)]
pub struct Integer {
    negative: bool,
    limbs: Vec<u64>,
}

fn trimmed(mut limbs: Vec<u64>) -> Vec<u64> {
    while limbs.last() == Some(&0) {
        limbs.pop();
    }
    limbs
}

fn compare(a: &[u64], b: &[u64]) -> Ordering {
    a.len().cmp(&b.len()).then_with(|| a.iter().rev().cmp(b.iter().rev()))
}

fn add(a: &[u64], b: &[u64]) -> Vec<u64> {
    let (long, short) = if a.len() < b.len() { (b, a) } else { (a, b) };
    let mut sum = Vec::with_capacity(long.len() + 1);
    let mut carry = 0u128;
    for (i, &limb) in long.iter().enumerate() {
        carry += limb as u128 + short.get(i).copied().unwrap_or(0) as u128;
        sum.push(carry as u64);
        carry >>= 64;
    }
    if carry != 0 {
        sum.push(carry as u64);
    }
    sum
}

/// a - b, a not the smaller.
fn subtract(a: &[u64], b: &[u64]) -> Vec<u64> {
    let mut difference = Vec::with_capacity(a.len());
    let mut borrow = false;
    for (i, &limb) in a.iter().enumerate() {
        let (x, first) = limb.overflowing_sub(b.get(i).copied().unwrap_or(0));
        let (x, second) = x.overflowing_sub(borrow as u64);
        difference.push(x);
        borrow = first || second;
    }
    assert!(!borrow, "the smaller is taken from the larger");
    trimmed(difference)
}

fn multiply(a: &[u64], b: &[u64]) -> Vec<u64> {
    let mut product = vec![0u64; a.len() + b.len()];
    for (i, &x) in a.iter().enumerate() {
        let mut carry = 0u128;
        for (j, &y) in b.iter().enumerate() {
            carry += x as u128 * y as u128 + product[i + j] as u128;
            product[i + j] = carry as u64;
            carry >>= 64;
        }
        product[i + b.len()] = carry as u64;
    }
    trimmed(product)
}

fn shifted_left(a: &[u64], by: u32) -> Vec<u64> {
    let mut out = Vec::with_capacity(a.len() + 1);
    let mut carry = 0u64;
    for &limb in a {
        out.push(limb << by | carry);
        carry = if by == 0 { 0 } else { limb >> (64 - by) };
    }
    out.push(carry);
    out
}

fn shifted_right(a: &[u64], by: u32) -> Vec<u64> {
    let mut out = Vec::with_capacity(a.len());
    for i in 0..a.len() {
        let above = if by == 0 { 0 } else { a.get(i + 1).copied().unwrap_or(0) << (64 - by) };
        out.push(a[i] >> by | above);
    }
    trimmed(out)
}

/// Quotient and remainder of whole numbers that are not negative, b not zero: long division, limb by limb.
fn divide(a: &[u64], b: &[u64]) -> (Vec<u64>, Vec<u64>) {
    if compare(a, b) == Ordering::Less {
        return (Vec::new(), a.to_vec());
    }
    if b.len() == 1 {
        let mut quotient = vec![0u64; a.len()];
        let mut rest = 0u128;
        for i in (0..a.len()).rev() {
            rest = rest << 64 | a[i] as u128;
            quotient[i] = (rest / b[0] as u128) as u64;
            rest %= b[0] as u128;
        }
        return (trimmed(quotient), trimmed(vec![rest as u64]));
    }
    let by = b[b.len() - 1].leading_zeros();
    let divisor = trimmed(shifted_left(b, by));
    let mut rest = shifted_left(a, by);
    let n = divisor.len();
    let (top, next) = (divisor[n - 1] as u128, divisor[n - 2] as u128);
    let mut quotient = vec![0u64; rest.len() - n];
    for i in (0..quotient.len()).rev() {
        let high = (rest[i + n] as u128) << 64 | rest[i + n - 1] as u128;
        let mut guess = high / top;
        let mut left = high % top;
        while guess >> 64 != 0 || guess * next > (left << 64 | rest[i + n - 2] as u128) {
            guess -= 1;
            left += top;
            if left >> 64 != 0 {
                break;
            }
        }
        let mut carry = 0u128;
        let mut borrow = false;
        for j in 0..=n {
            carry += guess * divisor.get(j).copied().unwrap_or(0) as u128;
            let (x, first) = rest[i + j].overflowing_sub(carry as u64);
            let (x, second) = x.overflowing_sub(borrow as u64);
            rest[i + j] = x;
            borrow = first || second;
            carry >>= 64;
        }
        if borrow {
            guess -= 1;
            let mut carry = 0u128;
            for j in 0..=n {
                carry += rest[i + j] as u128 + divisor.get(j).copied().unwrap_or(0) as u128;
                rest[i + j] = carry as u64;
                carry >>= 64;
            }
        }
        quotient[i] = guess as u64;
    }
    (trimmed(quotient), shifted_right(&trimmed(rest), by))
}

impl Integer {
    fn new(negative: bool, limbs: Vec<u64>) -> Integer {
        let limbs = trimmed(limbs);
        Integer { negative: negative && !limbs.is_empty(), limbs }
    }

    pub fn zero() -> Integer {
        Integer::from(0)
    }

    /// 2^n.
    pub fn power_of_two(n: usize) -> Integer {
        let mut limbs = vec![0u64; n / 64 + 1];
        limbs[n / 64] = 1 << (n % 64);
        Integer::new(false, limbs)
    }

    /// The sum of bit i times 2^i.
    pub fn of_bits(bits: &[bool]) -> Integer {
        let mut limbs = vec![0u64; bits.len() / 64 + 1];
        for (i, &bit) in bits.iter().enumerate() {
            limbs[i / 64] |= (bit as u64) << (i % 64);
        }
        Integer::new(false, limbs)
    }

    pub fn is_zero(&self) -> bool {
        self.limbs.is_empty()
    }

    pub fn is_negative(&self) -> bool {
        self.negative
    }

    pub fn is_odd(&self) -> bool {
        self.limbs.first().is_some_and(|limb| limb & 1 == 1)
    }

    pub fn abs(&self) -> Integer {
        Integer { negative: false, limbs: self.limbs.clone() }
    }

    pub fn negated(&self) -> Integer {
        Integer::new(!self.negative, self.limbs.clone())
    }

    pub fn plus(&self, other: &Integer) -> Integer {
        if self.negative == other.negative {
            return Integer::new(self.negative, add(&self.limbs, &other.limbs));
        }
        match compare(&self.limbs, &other.limbs) {
            Ordering::Less => Integer::new(other.negative, subtract(&other.limbs, &self.limbs)),
            _ => Integer::new(self.negative, subtract(&self.limbs, &other.limbs)),
        }
    }

    pub fn minus(&self, other: &Integer) -> Integer {
        self.plus(&other.negated())
    }

    pub fn times(&self, other: &Integer) -> Integer {
        Integer::new(self.negative != other.negative, multiply(&self.limbs, &other.limbs))
    }

    /// The quotient rounded toward minus infinity, and the remainder with the divisor's sign.
    pub fn divided(&self, by: &Integer) -> (Integer, Integer) {
        assert!(!by.is_zero(), "no division by zero");
        let (quotient, rest) = divide(&self.limbs, &by.limbs);
        let quotient = Integer::new(self.negative != by.negative, quotient);
        let rest = Integer::new(self.negative, rest);
        if rest.is_zero() || rest.negative == by.negative {
            (quotient, rest)
        } else {
            (quotient.minus(&Integer::from(1)), rest.plus(by))
        }
    }

    /// Compares |self| with |other|.
    pub fn compare_sizes(&self, other: &Integer) -> Ordering {
        compare(&self.limbs, &other.limbs)
    }

    /// The number, where it is between -2^62 and 2^62.
    pub fn small(&self) -> Option<i64> {
        match self.limbs[..] {
            [] => Some(0),
            [limb] if limb <= 1 << 62 => Some(if self.negative { -(limb as i64) } else { limb as i64 }),
            _ => None,
        }
    }
}

impl From<i64> for Integer {
    fn from(x: i64) -> Integer {
        Integer::new(x < 0, vec![x.unsigned_abs()])
    }
}

impl PartialOrd for Integer {
    fn partial_cmp(&self, other: &Integer) -> Option<Ordering> {
        Some(self.cmp(other))
    }
}

impl Ord for Integer {
    fn cmp(&self, other: &Integer) -> Ordering {
        match (self.negative, other.negative) {
            (true, false) => Ordering::Less,
            (false, true) => Ordering::Greater,
            (false, false) => compare(&self.limbs, &other.limbs),
            (true, true) => compare(&other.limbs, &self.limbs),
        }
    }
}

#[cfg(test)]
mod tests {
    use super::*;

    fn of(x: i128) -> Integer {
        Integer::new(x < 0, vec![x.unsigned_abs() as u64, (x.unsigned_abs() >> 64) as u64])
    }

    fn sample(state: &mut u64) -> i128 {
        let mut next = || {
            *state = state.wrapping_mul(6364136223846793005).wrapping_add(1442695040888963407);
            *state >> 11
        };
        let wide = (next() as i128) << 75 ^ (next() as i128) << 40 ^ next() as i128;
        let x = wide >> (next() % 120);
        if next() % 2 == 0 {
            -x
        } else {
            x
        }
    }

    #[test]
    fn small_numbers_as_the_machine_does_them() {
        let mut state = 1;
        for _ in 0..20_000 {
            let (x, y) = (sample(&mut state) >> 1, sample(&mut state) >> 1);
            assert_eq!(of(x).plus(&of(y)), of(x + y));
            assert_eq!(of(x).minus(&of(y)), of(x - y));
            assert_eq!(of(x).cmp(&of(y)), x.cmp(&y));
            let (a, b) = (x >> 65, y >> 65);
            assert_eq!(of(a).times(&of(b)), of(a * b));
            if y != 0 {
                let floor = if x % y != 0 && (x < 0) != (y < 0) { x / y - 1 } else { x / y };
                assert_eq!(of(x).divided(&of(y)), (of(floor), of(x - floor * y)));
            }
        }
    }

    #[test]
    fn large_divisions_multiply_back() {
        let mut state = 7;
        let mut number = |limbs: u64| {
            let mut x = Integer::zero();
            for _ in 0..limbs {
                let wide = of(sample(&mut state) & (u64::MAX as i128));
                x = x.times(&Integer::power_of_two(64)).plus(&wide);
            }
            x
        };
        for i in 0..4_000 {
            let (a, b) = (number(i % 9 + 1), number(i % 5 + 1));
            if b.is_zero() {
                continue;
            }
            for (a, b) in
                [(a.clone(), b.clone()), (a.negated(), b.clone()), (a.times(&b), b.clone()), (a.times(&b).minus(&Integer::from(1)), b)]
            {
                let (quotient, rest) = a.divided(&b);
                assert_eq!(quotient.times(&b).plus(&rest), a);
                assert!(rest.compare_sizes(&b) == Ordering::Less && (rest.is_zero() || rest.is_negative() == b.is_negative()));
            }
        }
    }

    #[test]
    fn the_estimate_that_is_one_too_large() {
        // A divisor with a top limb just over half, and a dividend that makes the first guess wrong twice.
        let top = Integer::power_of_two(127).plus(&Integer::from(1));
        for shift in [64, 128, 190] {
            let a = Integer::power_of_two(127 + shift).minus(&Integer::from(1));
            let (quotient, rest) = a.divided(&top);
            assert_eq!(quotient.times(&top).plus(&rest), a);
            assert!(rest < top && !rest.is_negative());
        }
    }
}
