#!/usr/bin/env python3
"""Cases for the program walking_vectors and the output expected of it, from the rules of the register alone.

walking.py          prints the expected output
walking.py FILE     and writes the cases to FILE (crates/walking_vectors/stdin)

A register is stepped by the step rule. Where it comes round within 5,000 steps, lead-in and period are read off the states
themselves, kept in a table of all that were seen. Where it does not, the lead-in is the first state whose p = y - m·2^r is from -q to 0,
and the period is the order of two modulo q / gcd(p, q), by factoring. Where both ways can be gone they must agree."""
import random
from functools import cache
from math import gcd

from cases import name, word, write

B = 2**30 - 1


def cells_of(q):
    return (q + 1).bit_length() - 1


def taps(q):
    return [-1] + [(q + 1) >> k & 1 for k in range(1, cells_of(q) + 1)]


def valid(q, a, m):
    return q % 2 == 1 and 1 <= q <= B and a < 2 ** cells_of(q) and -(2**30) <= m <= 2**30


def step(q, a, m):
    r, t = cells_of(q), taps(q)
    s = m + sum(t[k] * (a >> (r - k) & 1) for k in range(1, r + 1))
    return a >> 1 | (s % 2) << (r - 1), s // 2


def numerator(q, a, m):
    r, t = cells_of(q), taps(q)
    y = sum(t[j] * (a >> (i - j) & 1) * 2**i for i in range(r) for j in range(i + 1))
    return y - m * 2**r


def load(p, q):
    """Cells and memory of p/q: the first r bits, then m = (y - p)/2^r."""
    r = cells_of(q)
    a = p * pow(q, -1, 2**r) % 2**r
    m, rest = divmod(numerator(q, a, 0) - p, 2**r)
    assert rest == 0
    return a, m


def primes(n):
    found, l = [], 2
    while l * l <= n:
        if n % l == 0:
            found.append(l)
            while n % l == 0:
                n //= l
        l += 1
    return found + [n] if n > 1 else found


def order(c):
    """The least t >= 1 with 2^t = 1 modulo c, c odd."""
    if c == 1:
        return 1
    t = c
    for l in primes(c):
        t = t // l * (l - 1)
    for l in primes(t):
        while t % l == 0 and pow(2, t // l, c) == 1:
            t //= l
    return t


def by_states(q, a, m, most=5000):
    seen, n = {}, 0
    while (a, m) not in seen:
        if n > most:
            return None
        seen[a, m] = n
        a, m = step(q, a, m)
        n += 1
    return seen[a, m], n - seen[a, m]


def by_numerators(q, a, m):
    n = 0
    while not -q <= numerator(q, a, m) <= 0:
        a, m = step(q, a, m)
        n += 1
    return n, order(q // gcd(q, numerator(q, a, m)))


@cache
def loop(q, a, m):
    lead, period = by_numerators(q, a, m)
    stepped = by_states(q, a, m)
    assert stepped in (None, (lead, period)), (q, a, m)
    return lead, period


def walk(q, a, m, allowance):
    if not valid(q, a, m):
        return 5, 0, 0, 0
    lead, period = loop(q, a, m)
    if lead + period > allowance:
        return 6, 0, 0, 0
    return 0, lead, period, lead + period


PAIRS = [
    (1, 1), (2, 1), (-1, 37), (-5, 15), (0, 1), (-1, 1),  # the starred walks, and the two ends of q = 1
    (0, 37), (-37, 37), (-38, 37), (1, 37), (B, 37), (-B, 37),  # the ends of -q .. 0, and past them
    (-77, 1001), (-1001, 1001), (91, 1001), (-1, 1001), (-3 * 331, 993),  # in lowest terms, and not
    (-1, 1023), (-1, 1021), (-2, 1019), (-1, 341), (-1, 561), (-1, 2047), (-1, 3277),  # like primes, and not primes
    (-1, 1194649), (-1, 12327121),  # 1093 and 3511 squared: no longer period than once
    (-1, B), (B, B), (-B, B - 2),
]

REGISTERS = [
    (1, 1, 2**30), (1, 0, -(2**30)), (37, 31, 2**30), (37, 0, -(2**30)), (15, 5, 7),
    (B, 0, -(2**30)), (B, 2**30 - 1, 2**30), (B - 2, 12345, -(2**30)), (B - 2, 2**29 - 1, 2**30),  # lead-ins of 60 and more
    (0, 0, 0), (2, 0, 0), (36, 0, 0), (2**30 + 1, 0, 0), (2**32 - 1, 0, 0), (37, 32, 0), (37, 0, 2**30 + 1), (37, 0, -(2**30) - 1),
    (1, 2, 0), (1, 0, 2**31 - 1), (1, 0, -(2**31)),  # not valid
]


cases, lines = [], []


def run(q, a, m, allowance):
    """The walk's L+T, 0 where it is refused."""
    title = f"{q} {a} {m} {allowance}:"
    answer = walk(q, a, m, allowance)
    cases.append(name(title) + word(q) + word(a) + word(m) + word(allowance))
    lines.append(" ".join(map(str, (title, *(answer if answer[0] == 0 else answer[:1])))))
    return answer[3]


def run_four(q, a, m):
    """All that may be allowed, nothing, L+T, and one less."""
    top = run(q, a, m, 2**32 - 1)
    run(q, a, m, 0)
    run(q, a, m, top)
    if top > 0:
        run(q, a, m, top - 1)


def main():
    assert max(by_numerators(*g)[0] for g in REGISTERS if valid(*g)) >= 60
    longest = max(q for q in range(B - 400, B + 1, 2) if order(q) == q - 1)
    for p, q in PAIRS + [(-1, longest)]:
        run_four(q, *load(p, q))
    for g in REGISTERS:
        run_four(*g)
    rnd = random.Random(6)
    for turn in range(100):
        k = rnd.choice((rnd.randrange(1, 12), rnd.randrange(1, 31)))
        q = rnd.randrange(2**k - 1, 2 ** (k + 1) - 1) | 1
        run_four(q, rnd.randrange(2**k), rnd.choice((rnd.randrange(-4, 4), rnd.randrange(-(2**30), 2**30 + 1))))
    write(cases, lines)


main()
