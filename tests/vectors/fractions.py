#!/usr/bin/env python3
"""Expected output of the program fractions_vectors, from the document's sentences alone: digit by digit, not by an inverse."""
B = 2**30 - 1


def word(p, q):
    if q % 2 == 0 or not 1 <= q <= B or not -B <= p <= B:
        return "refused 4"
    u = 0
    for i in range(64):  # the one bit that keeps u·q - p divisible by 2^(i+1)
        if (u * q - p) % 2 ** (i + 1):
            u += 2**i
    assert 0 <= u < 2**64 and (u * q - p) % 2**64 == 0
    return str(u)


for p in (0, 1, -1, 12345, -12345, B, -B, B + 1, -B - 1, 2**31 - 1, -(2**31)):
    for q in (1, 3, 37, B, 0, 2, B - 1, B + 1, B + 2, 2**32 - 1):
        print("word", p, q, word(p, q))
