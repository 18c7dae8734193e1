#!/usr/bin/env python3
"""Cases for the program antennas_vectors and the output expected of it, from the sentences of the rules and of change request [1]: a block is a list of
records.

antennas.py          prints the expected output
antennas.py FILE     and writes the cases to FILE (crates/antennas_vectors/stdin)"""
import random

from cases import data, name, word as four, write

cases, lines = [], []


class No(Exception):
    """a refusal: its number and its place"""


def word(b, i):
    return b[i] << 8 | b[i + 1]


def records(block):
    """(meter, count, where its bytes begin, its bytes) of each record, or the refusal of the first that is wrong."""
    if len(block) > 16384:
        raise No(11, 0)
    found = []
    at = 0
    while at < len(block):
        if len(block) - at < 6:
            raise No(12, at)
        if block[at : at + 2] != b"\x5a\xc3":
            raise No(13, at)
        meter, count = word(block, at + 2), word(block, at + 4)
        if not 1 <= meter <= 32:
            raise No(14, at)
        if not 1 <= count <= 512:
            raise No(15, at)
        payload = block[at + 6 : at + 6 + -(-count // 8)]
        if 8 * len(payload) < count:
            raise No(12, at)
        if int.from_bytes(payload, "little") >> count:
            raise No(16, at)
        found.append((meter, count, at + 6, payload))
        at += 6 + len(payload)
    return found


def question(first, second, meter, ordinal):
    """0 with count, antenna, start and length, or the refusal, with a block's place; and the part"""
    try:
        antenna, used = 1, records(first)
    except No as wrong:
        try:
            antenna, used = 2, records(second)
        except No:
            return wrong.args, b""
    if not 1 <= meter <= 32:
        return [14], b""
    of_meter = [r for r in used if r[0] == meter]
    if not 1 <= ordinal <= len(of_meter):
        return [18], b""
    _, count, start, payload = of_meter[ordinal - 1]
    return [0, count, antenna, start, len(payload)], payload


def run(title, first, second, questions):
    """Each question of two blocks; the title stands before the first."""
    before = title + "\n"
    for meter, ordinal in questions:
        numbers, part = question(first, second, meter, ordinal)
        before += f"{meter} {ordinal}:"
        cases.append(name(before) + data(first) + data(second) + four(meter) + four(ordinal))
        lines.append(" ".join(map(str, (before, *numbers))) + "," + "".join(f" {byte}" for byte in part))
        before = ""


QUESTIONS = ((3, 0), (3, 1), (3, 2), (3, 3), (3, 4), (7, 1), (32, 1), (4, 1), (0, 1), (33, 0), (2**32 - 1, 2**32 - 1))


def run_all(title, first, second):
    run(title, first, second, QUESTIONS)


def record(meter, count, payload, mark=b"\x5a\xc3"):
    return mark + meter.to_bytes(2, "big") + count.to_bytes(2, "big") + bytes(payload)


GOOD = (
    record(3, 13, [0x53, 0x04]) + record(7, 3, [0x05]) + record(3, 8, [0xA5]) + record(32, 1, [0x01]) + record(3, 9, [0xFF, 0x01])
)
OTHER = record(3, 5, [0x1F]) + record(7, 16, [0x34, 0x12])
TORN = (record(3, 13, [0x53, 0x04]) + record(7, 3, [0x05]))[:-1]
WRONG_MARK = record(3, 13, [0x53, 0x04]) + record(7, 3, [0x05], b"\x5a\xc4")
run_all("both well formed", GOOD, OTHER)
run_all("the same, antennas exchanged", OTHER, GOOD)
run_all("first torn", TORN, GOOD)
run_all("second torn", GOOD, TORN)
run_all("both torn", TORN, WRONG_MARK)
run_all("both torn, exchanged", WRONG_MARK, TORN)
run_all("empty first", b"", GOOD)
run_all("empty second, first torn", TORN, b"")
run_all("both empty", b"", b"")

ONE = record(3, 8, [0xA5])
SHORT = ONE + b"\x5a\xc3\0\3\0"
SPARE = ONE + record(3, 7, [0xA5])
for title, block in (
    ("short", SHORT),
    ("wrong mark", ONE + record(3, 8, [0xA5], b"\xc3\x5a")),
    ("meter 0", record(0, 8, [0xA5])),
    ("meter 33", ONE + record(33, 8, [0xA5])),
    ("no bits", record(3, 0, [])),
    ("513 bits", ONE + record(3, 513, [])),
    ("bits past the end", ONE + record(3, 9, [0xA5])),
):
    run(title + " first, a spare bit second", block, SPARE, [(3, 1), (3, 0), (0, 1)])
    run(title + " second, a spare bit first", SPARE, block, [(3, 1)])
    run(title + " first, sound second", block, ONE, [(3, 1), (3, 2)])

SMALL = record(3, 13, [0x53, 0x04])
FULL = 233 * record(3, 512, bytes(64)) + record(32, 488, bytes(61)) + record(7, 8, bytes(1))
assert len(FULL) == 16384
LONGER = FULL + record(7, 8, bytes(1))
run("16,384 bytes, and a torn block", FULL, SMALL[:-1], [(3, 233), (3, 234), (7, 1)])
run("a torn block, and 16,384 bytes", SMALL[:-1], FULL, [(32, 1)])
run("16,391 bytes, and a sound block", LONGER, SMALL, [(3, 1)])
run("16,391 bytes, and a torn block", LONGER, SMALL[:-1], [(3, 1)])
run("a torn block, and 16,391 bytes", SMALL[:-1], LONGER, [(3, 1)])
run("a sound block, and 16,391 bytes", SMALL, LONGER, [(3, 1)])

rnd = random.Random(14)


def some_block():
    """A few records of two meters, mostly whole; or one byte changed, or some cut off."""
    block = b""
    for _ in range(rnd.randrange(6)):
        count = rnd.choice((1, 7, 8, 9, 30, 64))
        block += record(rnd.choice((1, 2)), count, rnd.getrandbits(count).to_bytes(-(-count // 8), "little"))
    kind = rnd.randrange(4)
    if kind == 0 and block:
        at = rnd.randrange(len(block))
        block = block[:at] + bytes([rnd.randrange(256)]) + block[at + 1 :]
    return block[: rnd.randrange(len(block) + 1)] if kind == 1 else block


for turn in range(60):
    run(f"turn {turn}", some_block(), some_block(), [(1, 1), (2, 1), (1, rnd.randrange(5)), (2, rnd.randrange(5))])

write(cases, lines)
