#!/usr/bin/env python3
"""Cases for the program store_vectors and the output expected of it, from the document's sentences alone: a store is 32 strings of bits, a block
a list of records.

store.py          prints the expected output
store.py FILE     and writes the cases to FILE (crates/store_vectors/stdin)"""
import random

from cases import change, checksum, data, name, write

PLACE, BITS, STORE, BLOCK = 514, 4096, 16448, 16384
EIGHT = ["".join(str(byte >> i & 1) for i in range(8)) for byte in range(256)]  # the bits of a byte, lowest first


class No(Exception):
    """a refusal: its number and its place"""


def word(b, i):
    return b[i] << 8 | b[i + 1]


def decode(s):
    """The bits of each place, or refusal 10."""
    places = []
    if len(s) != STORE:
        raise No(10, 0)
    for k in range(32):
        p = s[PLACE * k : PLACE * (k + 1)]
        count = word(p, 0)
        bits = "".join(EIGHT[byte] for byte in p[2:])
        if count > BITS or "1" in bits[count:]:
            raise No(10, 0)
        places.append(bits[:count])
    return places


def encode(places):
    s = b""
    for bits in places:
        body = bits.ljust(BITS, "0")
        s += bytes([len(bits) >> 8, len(bits) & 255])
        s += bytes(int(body[i : i + 8][::-1], 2) for i in range(0, BITS, 8))
    return s


def records(b):
    """Meter, bits and first byte of each record, or the first refusal of the form."""
    if len(b) > BLOCK:
        raise No(11, 0)
    at = 0
    while at < len(b):
        if len(b) - at < 6:
            raise No(12, at)
        if b[at : at + 2] != b"\x5a\xc3":
            raise No(13, at)
        meter, count = word(b, at + 2), word(b, at + 4)
        if not 1 <= meter <= 32:
            raise No(14, at)
        if not 1 <= count <= 512:
            raise No(15, at)
        size = -(-count // 8)
        body = b[at + 6 : at + 6 + size]
        if len(body) < size:
            raise No(12, at)
        bits = "".join(EIGHT[byte] for byte in body)
        if "1" in bits[count:]:
            raise No(16, at)
        yield meter, bits[:count], at
        at += 6 + size


def take(s, b):
    """The number, the place and the store afterwards."""
    try:
        places = decode(s)
        all_records = list(records(b))
        for meter, bits, at in all_records:
            places[meter - 1] += bits
            if len(places[meter - 1]) > BITS:
                raise No(17, at)
        return 0, 0, encode(places)
    except No as no:
        return *no.args, s


held = bytearray(STORE)  # what the program's store has, to which each case tells the difference
cases, lines = [], []


class Store:
    def __init__(self, size=STORE, byte=0):
        self.s = bytearray([byte] * size)

    def set(self, at, byte):
        self.s[at] = byte

    def run(self, title, b):
        before = bytes(self.s)
        number, place, after = take(before, b)
        cases.append((change(held, before) if len(before) == STORE else change(before, before)) + name(title + ":") + data(b))
        self.s = bytearray(after)
        if len(after) == STORE:
            held[:] = after
        lines.append(f"{title}: {number} {place} {checksum(after)}")
        whole = bytes(after).ljust(STORE, b"\0")
        lines.extend(f"{k + 1} {word(whole, PLACE * k)}" for k in range(32) if word(whole, PLACE * k))


def fresh(title, b):
    Store().run(title, b)


def clear():
    """A fresh store by itself, where the way from one case's store to the next one's would be long."""
    fresh("fresh", b"")


def rec(meter, bits, mark=b"\x5a\xc3", count=None):
    """A record by its bits, first bit left; the count may be told otherwise."""
    count = len(bits) if count is None else count
    bits += "0" * (-len(bits) % 8)
    body = bytes(int(bits[i : i + 8][::-1], 2) for i in range(0, len(bits), 8))
    return mark + bytes([meter >> 8, meter & 255, count >> 8, count & 255]) + body


def patterned(b, meter, size):
    """The block with one more record of whole bytes."""
    at = len(b)
    body = bytes((17 * j + 3 * meter + at + 5) % 256 for j in range(size))
    return b + b"\x5a\xc3" + bytes([meter >> 8, meter & 255, 8 * size >> 8, 8 * size & 255]) + body


def several(meter, sizes):
    b = b""
    for size in sizes:
        b = patterned(b, meter, size)
    return b


one = rec(3, "1")
fresh("empty", b"")
fresh("one byte", one[:1])
fresh("five bytes of a header", rec(3, "1")[:5])
fresh("five other bytes", b"\xff" * 5)
fresh("a header alone", rec(3, "", count=13))
fresh("513 where the block ends", rec(1, "", count=513))
fresh("512 where the block ends", rec(1, "", count=512))

fresh("mark high", rec(3, "1", mark=b"\x5b\xc3"))
fresh("mark low", rec(3, "1", mark=b"\x5a\xc4"))
for meter in (0, 32, 33, 257):
    fresh(f"meter {meter}", rec(meter, "1"))
fresh("count 0", rec(3, "", count=0))
fresh("count 768", rec(3, "1", count=768))
fresh("spare bit", rec(3, "01", count=1))
fresh("spare bit, the highest", rec(3, "00000001", count=7))
fresh("no spare bit", rec(3, "00000001"))
listing = bytes.fromhex("5AC30003000D5304 5AC30007000305".replace(" ", ""))
fresh("a byte of the bits missing", listing[:8] + rec(7, "101", count=9))

fresh("mark before meter", rec(0, "", mark=b"\x5a\xc2", count=0))
fresh("meter before count", rec(33, "", count=0))
fresh("count before length", rec(3, "0", count=65535))
fresh("length before spare", rec(3, "11111111", count=9))
fresh("first record first", rec(3, "11111111", count=1) + rec(3, "1", mark=b"\x5b\xc3"))
fresh("second record", one + rec(0, "", mark=b"\x5b\xc3", count=0))
fresh("short behind a record", one + one[:5])

s = Store()
s.run("listing", listing)
s.run("listing again", listing)
s.run("a refusal changes nothing", one + rec(3, "01", count=1))
s.run("the same meter twice", rec(3, "101") + rec(3, "1" * 10))
s.run("empty, again", b"")

fresh("exactly 4096", several(5, [64] * 8))
fresh("eight bits more", several(5, [64] * 8 + [1]))
s = Store()
s.run("4088", several(5, [64] * 7 + [63]))
s.run("nine more", rec(5, "1" * 9))
s.run("seven more", rec(5, "1010101"))
s.run("two more", rec(5, "11"))
s.run("the last", rec(5, "1"))
s.run("one more", rec(5, "1"))
s.run("another meter, then one more", rec(6, "1") + rec(5, "1"))
s.run("form before room", rec(5, "1") + rec(5, "01", count=1))
s.run("the first that overfills", rec(5, "1") + rec(5, "0"))

s = Store()
s.set(2, 1)
s.run("a bit past the count", one)
s.set(1, 1)
s.run("now inside it", one)
s.set(STORE - 1, 128)
s.run("the last bit of the last place", one)
s.run("store before form", b"\x5a")
s.set(STORE - 1, 0)
s.run("that bit away again", one)
clear()
s = Store()
s.set(STORE - 1, 128)
s.set(31 * PLACE, 16)
s.run("a full place", one)
s.set(31 * PLACE + 1, 1)
s.run("count 4097", one)
s.set(31 * PLACE, 0)
s.set(31 * PLACE + 1, 0)
s.run("count 0, a bit left", one)
s.set(STORE - 1, 0)
s.run("that bit away too", one)

for n in range(len(listing) + 1):
    fresh(f"{n} bytes of the listing's block", listing[:n])
for meter in (1, 2, 16, 31, 34, 255, 256, 288, 8192, 65535):
    fresh(f"meter {meter}", rec(meter, "1"))
for count in (1, 7, 8, 9, 255, 256, 257, 511, 512):
    fresh(f"{count} ones", rec(32, "1" * count))
    fresh(f"{count} ones, a bit more in the last byte", rec(32, "1" * (count + 1), count=count))
for count in (513, 520, 1024, 4096, 65535):
    fresh(f"{count} told", rec(32, "1" * 520, count=count))
fresh("all meters, the last first", b"".join(rec(meter, f"{meter:b}") for meter in range(32, 0, -1)))

clear()
s = Store()
for count in range(1, 33):  # a record at every place in a byte, of every size modulo 8
    s.run(f"{count} more", rec(9, ("10110" * 7)[:count]))

for k in (0, 15, 31):  # each way of breaking the rules, in the first, a middle and the last place
    for count, byte, bit in ((0, 0, 0), (1, 0, 1), (8, 1, 0), (12, 1, 4), (4095, 511, 7), (4097, 0, 0), (65535, 0, 0), (256, 511, 7)):
        clear()
        s = Store()
        s.set(PLACE * k, count >> 8)
        s.set(PLACE * k + 1, count & 255)
        s.set(PLACE * k + 2 + byte, 1 << bit)
        s.run(f"place {k + 1} of {count} bits with bit {8 * byte + bit}", one)

rnd = random.Random(9)


def some_bits(n):
    return f"{rnd.getrandbits(n):0{n}b}"


clear()
s = Store()
for turn in range(200):  # records of a few meters, mostly whole; one byte changed, some cut off, or a count told otherwise
    b = b"".join(rec(rnd.choice((15, 16, 17)), some_bits(rnd.choice((1, 3, 8, 13, 64, 500, 512)))) for _ in range(rnd.randrange(1, 5)))
    kind = rnd.randrange(6)
    if kind == 0:
        at = rnd.randrange(len(b))
        b = b[:at] + bytes([rnd.randrange(256)]) + b[at + 1 :]
    elif kind == 1:
        b = b[: rnd.randrange(len(b))]
    elif kind == 2:
        b += rec(16, "1", count=rnd.choice((0, 2, 9, 513)))
    s.run(f"turn {turn}", b)
    if turn % 50 == 49:
        s = Store()

clear()
b = b""
for k in range(233):
    b = patterned(b, k // 8 + 1, 64)
b = patterned(patterned(b, 31, 31), 32, 31)
assert len(b) == BLOCK
fresh("16385 bytes", b + b"\0")
fresh("16383 bytes", b[:-1])
fresh("16384 bytes", b)
Store(byte=1).run("store before length", b + b"\0\0")

Store(STORE - 1).run("a byte too few", one)  # these two are last: the program has a store of its own for each
Store(STORE + 1).run("a byte too many", one)

write(cases, lines, more=2)
