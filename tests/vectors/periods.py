#!/usr/bin/env python3
"""What periods_vectors must print: document 001's table 2 as the paper has it (but for q = 3, which the formula files under
length 2), checked here against the definition, and the period table's answers at its edges, by the definition alone."""

PAPER = {
    1: [3],
    2: [5],
    3: [11, 13],
    4: [19, 29],
    5: [37, 53, 59, 61],
    6: [67, 83, 101, 107],
    7: [131, 139, 149, 163, 173, 179, 181, 197, 211, 227],
    8: [269, 293, 317, 347, 349, 373, 379, 389, 419, 421, 443, 461, 467, 491, 509],
}


def period(q):
    """The least T >= 1 with 2^T - 1 divisible by q, and refusal 4 outside the table."""
    if q % 2 == 0 or q > 1023:
        return 4, 0
    t = 1
    while (2**t - 1) % q != 0:
        t += 1
    return 0, t


def length(q):
    """floor(log2(q+1))"""
    return (q + 1).bit_length() - 1


def main():
    table = {}
    for listed in PAPER.values():
        for q in listed:
            table.setdefault(length(q), []).append(q)
    for r in range(2, 9):
        listed = sorted(table[r])
        longest = [q for q in range(1, 1024) if length(q) == r and period(q) == (0, q - 1)]
        if listed != longest:
            raise SystemExit(f"the paper's length {r} is {listed}, by the rule it is {longest}")
        print(r, *listed)
    for q in (0, 1, 2, 3, 383, 1021, 1022, 1023, 1024, 1025, 2**32 - 1):
        print(q, *period(q))


main()
