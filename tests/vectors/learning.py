#!/usr/bin/env python3
"""Cases for the program learning_vectors and the output expected of it, from the document's sentences alone.

learning.py          prints the expected output
learning.py FILE     and writes the cases to FILE (crates/learning_vectors/stdin)

Short bursts are decided by trying every pair in the written order. Long ones by a reduced basis of all pairs that fit, over big integers, and the
short combinations of it; both are compared with each other on every burst of up to nine bits before anything is printed."""
import random

from cases import data, number, write

B = 2**30 - 1


def key(p, q):
    return (max(abs(p), q), abs(p), q, p < 0)


def fits(n, a, p, q):
    return (a * q - p) % 2**n == 0


def by_trying(n, a, limit=B):
    """The first pair in the written order: sizes from below, and all pairs of each."""
    for size in range(limit + 1):
        found = [
            (p, q)
            for q in range(1, size + 1, 2)
            for p in range(-size, size + 1)
            if max(abs(p), q) == size and fits(n, a, p, q)
        ]
        if found:
            return min(found, key=lambda x: key(*x))
    return None


def by_basis(n, a, limit=B):
    """Lagrange's reduction of the pairs that fit, by the sum of squares; then the least of the short combinations with q odd."""
    u, v = (2**n, 0), (a, 1)
    dot = lambda x, y: x[0] * y[0] + x[1] * y[1]
    while True:
        if dot(u, u) > dot(v, v):
            u, v = v, u
        m = (2 * dot(u, v) + dot(u, u)) // (2 * dot(u, u))
        if m == 0:
            break
        v = (v[0] - m * u[0], v[1] - m * u[1])
    best = None
    for d in range(-4, 5):  # along each line c u + d v the size is convex in c: it turns where p or q is 0, or they are as large
        x, y = d * v[0], d * v[1]
        for top, low in ((-x, u[0]), (-y, u[1]), (y - x, u[0] - u[1]), (-x - y, u[0] + u[1])):
            for c in range(-4, 5) if low == 0 else range(top // low - 4, top // low + 5):
                p, q = c * u[0] + x, c * u[1] + y
                if q < 0:
                    p, q = -p, -q
                if q % 2 == 1 and (best is None or key(p, q) < key(*best)):
                    best = (p, q)
    p, q = best
    if q > limit or abs(p) > limit:
        return None
    return (abs(p), q) if fits(n, a, abs(p), q) else (p, q)


def learn(count, data):
    if count > 4096:
        return "1"
    if len(data) < (count + 7) // 8:
        return "2"
    a = int.from_bytes(data, "little") % 2**count
    x = by_trying(count, a) if count <= 9 else by_basis(count, a)
    return "3" if x is None else "0 %d %d" % x


def expansion(p, q, n):
    """The first n bits of p/q as a number: the one bit that keeps a q - p divisible."""
    return p * pow(q, -1, 2**n) % 2**n if n else 0


def pack(n, a):
    return a.to_bytes((n + 7) // 8, "little")


def all_cases():
    out = []
    add = lambda count, data: out.append((count, bytes(data)))
    for n in range(10):  # every short burst
        for a in range(2**n):
            add(n, pack(n, a))
    add(30, pack(30, 2**29))  # 29 zeros then 1, 30 zeros then 1
    add(31, pack(31, 2**30))
    pairs = [(-1, 37), (-5, 15), (0, 1), (B, B - 2), (-B, B - 4), (B - 1, 1), (1, B), (-(2**29), 3), (12345677, 987654321)]
    for p, q in pairs:
        for n in (0, 1, 13, 60, 61, 62, 63, 64, 65, 92, 93, 94, 4095, 4096) if (p, q) in pairs[:2] + pairs[3:4] else (59, 60, 61, 62, 65, 100):
            a = expansion(p, q, n)
            add(n, pack(n, a))
            if n:
                flipped = a ^ 2 ** (n - 1)
                add(n, pack(n, flipped))  # the last bit flipped
                garbage = a + (2**n) * 0x5EED  # garbage past the count
                add(n, garbage.to_bytes((n + 30) // 8, "little"))
                if n <= 100:
                    add(n, pack(n, a)[:-1])  # one byte too few
    rnd = random.Random(3)
    for n in list(range(10, 70)) + [70, 80, 100]:  # bits of no fraction inside, mostly
        for _ in range(3):
            add(n, pack(n, rnd.getrandbits(n)))
    for _ in range(40):  # fractions in and just past the limits, from as many bits as decide
        q = rnd.randrange(1, 2**30 + 2**12, 2)
        p = rnd.randrange(-(2**30) - 2**12, 2**30 + 2**12)
        for n in (60, 61, 62, 96):
            add(n, pack(n, expansion(p, q, n)))
    for k in range(58, 63):  # the guess's cofactor is even, or a power of two is left
        for a in (2 ** (k - 31) * 3, 2 ** (k - 1), 2 ** (k - 30) + 2 ** (k - 1), 2**k // 3 * 2):
            add(k, pack(k, a % 2**k))
    for count in (4097, 5000, 2**32, 2**63, 2**64 - 1):
        add(count, b"")
        add(count, b"\x01" * 4)
    add(4096, b"\xff" * 511)
    add(4096, b"\xff" * 512)
    add(1, b"")
    return out


def main():
    for n in range(10):
        for a in range(2**n):
            assert by_trying(n, a) == by_basis(n, a), (n, a)
            for limit in (3, 5, 6):
                assert by_trying(n, a, limit) == by_basis(n, a, limit), (n, a, limit)
    cases = all_cases()
    assert all(len(d) <= 520 for _, d in cases)
    write([number(count) + data(d) for count, d in cases], [learn(count, d) for count, d in cases])


main()
