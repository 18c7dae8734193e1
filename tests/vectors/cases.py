"""The cases that a program reads from its standard input, in the form of crates/cases, and what it must print for them.

A file here that makes both prints the expected output, crates/NAME_vectors/stdout; where it is given the name of a file, it writes the cases
to that, for crates/NAME_vectors/stdin."""
import sys


def word(n):
    """Four bytes, lowest first; a negative number in two's complement."""
    assert -(2**31) <= n < 2**32
    return (n % 2**32).to_bytes(4, "little")


def number(n):
    return n.to_bytes(8, "little")


def data(b):
    """A length, and the bytes."""
    return word(len(b)) + b


def name(text):
    assert len(text) <= 64
    return data(text.encode())


def change(old, new):
    """The position and the bytes that make the one out of the other, from the first that differs to the last."""
    differ = [i for i in range(len(new)) if old[i] != new[i]] or [0]
    part = new[differ[0] : differ[-1] + 1] if old != new else b""
    return word(differ[0]) + data(part)


def checksum(b):
    """As show::checksum_field prints it."""
    total = 1
    for byte in b:
        total = (31 * total + byte) % 65521
    return total


def write(cases, lines, more=0):
    """The lines; and to the file that is named, if one is, how many cases, then they, of which so many at the end are not counted."""
    if sys.argv[1:]:
        with open(sys.argv[1], "wb") as file:
            file.write(word(len(cases) - more) + b"".join(cases))
    print("\n".join(lines))
