#!/usr/bin/env python3
"""Cases for the program whitening_vectors and the output expected of it, by the document's step rule alone: each byte is combined with the next eight
emitted bits, the sum over the taps being made anew at every step.

whitening.py          prints the expected output
whitening.py FILE     and writes the cases to FILE (crates/whitening_vectors/stdin)"""
import random

from cases import checksum, data, name, word, write

LIMIT = 2**30 - 1


def cell_count(q):
    """floor(log2(q+1))"""
    return (q + 1).bit_length() - 1


def is_valid(q, cells, memory):
    return q % 2 == 1 and 1 <= q <= LIMIT and cells < 2 ** cell_count(q) and -(2**30) <= memory <= 2**30


def step(q, cells, memory):
    """The emitted bit, and the cells and the memory after the step."""
    r = cell_count(q)
    taps = [(q + 1) >> k & 1 for k in range(r + 1)]
    a = [cells >> i & 1 for i in range(r)]
    s = memory + sum(taps[k] * a[r - k] for k in range(1, r + 1))
    a.append(s % 2)
    return a[0], sum(bit << i for i, bit in enumerate(a[1:])), s // 2


def whiten(register, payload):
    """The refusal, the register and the bytes after."""
    if not is_valid(*register):
        return 5, register, payload
    if len(payload) > 512:
        return 9, register, payload
    q, cells, memory = register
    out = []
    for byte in payload:
        for i in range(8):
            bit, cells, memory = step(q, cells, memory)
            byte ^= bit << i
        out.append(byte)
    return 0, (q, cells, memory), out


cases, lines = [], []


def one_pass(title, register, payload):
    """The register and the bytes afterwards."""
    q, cells, memory = register
    title += f" {len(payload)} bytes from {q} {cells} {memory}:"
    refusal, after, out = whiten(register, payload)
    cases.append(name(title) + data(bytes(payload)) + word(q) + word(cells) + word(memory))
    lines.append(" ".join(map(str, (title, refusal, *after, checksum(out)))))
    return after, out


def three(register, payload):
    """The same register twice, which gives the first bytes back; then onwards from where it was left."""
    after, out = one_pass("once", register, payload)
    _, back = one_pass("again", register, out)
    assert back == payload
    one_pass("onwards", after, back)


def main():
    registers = [
        (37, 19, 0),
        (1, 1, -1),
        (1, 0, -1),
        (3, 2, 2**30),
        (LIMIT, LIMIT, -(2**30)),
        (LIMIT, 0, 2**30),
        (715827883, 123456789, -987654321),
        (36, 19, 0),
        (LIMIT + 2, 0, 0),
        (0, 0, 0),
        (37, 32, 0),
        (37, 19, 2**30 + 1),
        (37, 19, -(2**30) - 1),
    ]
    for register in registers:
        for n in (0, 1, 3, 4, 6, 511, 512, 513):
            three(register, [(7 * i + 3) % 256 for i in range(n)])
    rnd = random.Random(8)
    for turn in range(60):
        k = rnd.randrange(1, 31)
        q = rnd.randrange(2**k - 1, 2 ** (k + 1) - 1) | 1
        memory = rnd.choice((rnd.randrange(-40, 40), rnd.randrange(-(2**30), 2**30 + 1)))
        three((q, rnd.randrange(2**k), memory), [rnd.randrange(256) for _ in range(rnd.randrange(40))])
    write(cases, lines)


main()
