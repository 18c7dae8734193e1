#!/usr/bin/env python3
"""Cases for the program registers_vectors and the output expected of it, from the document's sentences alone; document 001's table 1 is typed from the
paper.

registers.py          prints the expected output
registers.py FILE     and writes the cases to FILE (crates/registers_vectors/stdin)"""
import random
from math import gcd

from cases import name, word, write

B = 2**30 - 1

# mem, register (a_0 is its rightmost digit), a_0, p, n
TABLE = """
0 10011 1 1 0     2 01100 0 36 18
1 01001 1 19 1    1 10110 0 18 19
1 10100 0 28 2    1 01011 1 9 20
1 01010 0 14 3    1 10101 1 23 21
1 00101 1 7 4     1 11010 0 30 22
1 00010 0 22 5    1 11101 1 15 23
0 10001 1 11 6    2 01110 0 26 24
1 01000 0 24 7    1 10111 1 13 25
1 00100 0 12 8    1 11011 1 25 26
0 10010 0 6 9     2 01101 1 31 27
0 11001 1 3 10    2 00110 0 34 28
1 11100 0 20 11   1 00011 1 17 29
1 11110 0 10 12   1 00001 1 27 30
1 11111 1 5 13    1 00000 0 32 31
2 01111 1 21 14   0 10000 0 16 32
2 00111 1 29 15   0 11000 0 8 33
1 10011 1 33 16   1 01100 0 4 34
1 11001 1 35 17   1 00110 0 2 35
"""


def length(q):
    """floor(log2(q+1))"""
    return (q + 1).bit_length() - 1


def taps(q):
    """q_0 = -1, and q+1 = q_1·2 + .. + q_r·2^r gives the others"""
    return [-1] + [(q + 1) >> k & 1 for k in range(1, length(q) + 1)]


def cells(q, a):
    return [a >> i & 1 for i in range(length(q))]


def valid(q, a, m):
    return q % 2 == 1 and 1 <= q <= B and 0 <= a < 2 ** length(q) and -(2**30) <= m <= 2**30


def double_sum(q, a):
    t, c = taps(q), cells(q, a)
    return sum(t[j] * c[i - j] * 2**i for i in range(length(q)) for j in range(i + 1))


def step(q, a, m):
    """number, bit, register"""
    if not valid(q, a, m):
        return 5, 0, (q, a, m)
    r, t, c = length(q), taps(q), cells(q, a)
    s = m + sum(t[k] * c[r - k] for k in range(1, r + 1))
    c = c[1:] + [s % 2]
    return 0, a % 2, (q, sum(x << i for i, x in enumerate(c)), s // 2)


def load(p, q):
    """number, register"""
    if not (q % 2 == 1 and 1 <= q <= B and -B <= p <= B):
        return 4, (0, 0, 0)
    r = length(q)
    a = 0
    for i in range(r):  # the first r bits of p/q: a·q - p divisible by 2^r
        if (a * q - p) % 2 ** (i + 1):
            a += 2**i
    y = double_sum(q, a)
    assert (y - p) % 2**r == 0
    m = (y - p) // 2**r
    return (0, (q, a, m)) if -(2**30) <= m <= 2**30 else (8, (0, 0, 0))


def read_back(q, a, m):
    """number, p, q"""
    if not valid(q, a, m):
        return 5, 0, 0
    p = double_sum(q, a) - m * 2 ** length(q)
    d = gcd(abs(p), q)
    return (0, p // d, q // d) if abs(p // d) <= B else (7, 0, 0)


def sheet(q, a, m):
    """number, cells, bits"""
    if not valid(q, a, m):
        return 5, 0, 0
    n = 1  # the least signed width that holds the memory and w - 1
    while not all(-(2 ** (n - 1)) <= x <= 2 ** (n - 1) - 1 for x in (m, bin(q + 1).count("1") - 1)):
        n += 1
    return 0, length(q), n


cases, lines = [], []


def run(title, p, q, a, m):
    """The pair p/q loaded, and the register (q, a, m) at every entry point that takes one. A refusal has no other number but a register handed back."""
    g = (q, a, m)
    title += f" {p} {q} {a} {m}:"
    answers = (load(p, q), step(*g), read_back(*g), sheet(*g))
    cases.append(name(title) + word(p) + word(q) + word(a) + word(m))
    loaded, stepped, back, needs = answers
    told = (
        [loaded[0], *(loaded[1] if loaded[0] == 0 else ())],
        [stepped[0], *([stepped[1]] if stepped[0] == 0 else ()), *stepped[2]],
        back if back[0] == 0 else back[:1],
        needs if needs[0] == 0 else needs[:1],
    )
    lines.append(title + " " + ", ".join(" ".join(map(str, part)) for part in told))
    return stepped[2]


def numerator(q, a, m):
    """What the register emits, as p/q, where a pair has room for p; else 0."""
    if not valid(q, a, m):
        return 0
    p = double_sum(q, a) - m * 2 ** length(q)
    return p if -(2**31) <= p < 2**31 else 0


def run_three(title, g):
    for _ in range(3):
        g = run(title, numerator(*g), *g)


def main():
    states = []
    for line in TABLE.split("\n"):
        words = line.split()
        states += [words[:5], words[5:]] if words else []
    states.sort(key=lambda s: int(s[4]))
    g = load(-1, 37)[1]
    for mem, register, bit, p, n in states:
        assert g == (37, int(register, 2), int(mem)), (g, register, mem)
        assert read_back(*g) == (0, -int(p), 37)
        after = run(f"table 1, {n}:", -int(p), *g)
        assert lines[-1].split(":")[2].split(",")[1].split()[1] == bit
        g = after
    assert g == load(-1, 37)[1]
    for p in (1, 2, -1, -5, 0, 12345, B, -B, B + 1, -B - 1, 2**31 - 1, -(2**31)):
        for q in (1, 3, 15, 37, B, 0, 2, B + 1, B + 2, 2**32 - 1):
            number, g = load(p, q)
            if number == 0:
                assert numerator(*g) == p
                run_three("load", g)
            else:
                run("load", p, q, 0, 0)
    for q in (1, 3, 5, 37, B):
        for a in (0, 2 ** length(q) - 1):
            for m in (2**30, -(2**30), -1, 1, -4, -5, 3, 4):
                run_three("edge", (q, a, m))
    for g in (
        (36, 19, 0), (0, 0, 0), (B + 1, 0, 0), (B + 2, 0, 0), (2**32 - 1, 0, 0), (37, 32, 0), (1, 2, 0), (B, 2**30, 0),
        (37, 2**32 - 1, 0), (37, 19, 2**30 + 1), (37, 19, -(2**30) - 1), (37, 19, 2**31 - 1), (37, 19, -(2**31)),
    ):
        run("not valid", 1, *g)
    for k in range(1, 31):  # each number of cells, all cells set and none, and one cell too many
        for q in (2**k - 1, 2**k + 1, 2 ** (k + 1) - 3):
            for a in (0, 2**k - 1, 2**k):
                run("length", -1, q, a, -1)
    rnd = random.Random(5)
    for turn in range(200):
        k = rnd.randrange(1, 31)
        q = rnd.randrange(2**k - 1, 2 ** (k + 1) - 1) | 1
        run_three("any", (q, rnd.randrange(2**k), rnd.choice((rnd.randrange(-40, 40), rnd.randrange(-(2**30), 2**30 + 1)))))
        run("any", rnd.randrange(-(2**31), 2**31), rnd.randrange(2**32), rnd.randrange(2**32), rnd.randrange(-(2**31), 2**31))
    write(cases, lines)


main()
