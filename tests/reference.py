#!/usr/bin/env python3
"""Writes what the programs must print. It shares no code with the library and works by another method: fractions for
the nodes and for the points on the lines between them, strings of '0' and '1' for the packing and the leading bits of
operands, the answers from the words of docs/SCOPE.md.

usage: reference.py cases <SCRIPT   what the program `cases` prints on that script (crates/cases/stdin)
       reference.py table <INPUT    what the program `print_table` prints on that standard input
"""
import functools
import math
import re
import sys
from fractions import Fraction

LEAST, GREATEST = 1, 12
LEAST_TABLE, GREATEST_TABLE = 2, 4  # a, the table guard bits
LEAST_INPUT, GREATEST_INPUT = 3, 5  # b, the input guard bits
LEAST_BITS, MOST_BITS = 1, 63  # of an operand's fraction
# Of the plain images at a = 2, as docs/SCOPE.md, "The image" lists them.
LENGTHS = [1, 3, 8, 20, 48, 112, 256, 576, 1280, 2816, 6144, 13312]
PLAIN, FULL = 0, 1  # the forms; as from C, any number but 0 is full


# ---- the meaning
#
# A table is that of a precision k, of a form where it has words, of a table guard bits, and of b input guard bits where
# there are operands. The form, a and b are the last parameters in this order; left out, they are plain, 2 and 3.

def in_range(k):
    return LEAST <= k <= GREATEST


def guard_bits_in_range(a, b):
    return LEAST_TABLE <= a <= GREATEST_TABLE and LEAST_INPUT <= b <= GREATEST_INPUT


@functools.lru_cache(maxsize=None)
def node(k, j, a=2):
    """c(j): 2^(3k+a+1) / i, rounded up, where i = 2^k + j."""
    return math.ceil(Fraction(2 ** (3 * k + a + 1)) / Fraction(2 ** k + j))


def width(k, form=PLAIN, a=2):
    """The bits of a word."""
    return 2 * k + a + 2 if form else 2 * k + a


def count(k, form=PLAIN):
    """The words of an image: one for each node but the last, in the full form for that one too."""
    return 2 ** k + 1 if form else 2 ** k


def bit_count(k, form=PLAIN, a=2):
    """The bits that the words of an image are."""
    return count(k, form) * width(k, form, a)


def length(k, form=PLAIN, a=2):
    """The bytes of an image."""
    return math.ceil(Fraction(bit_count(k, form, a), 8))


def stored(k, j, form=PLAIN, a=2):
    """The word of node j, as a string of bits, most significant first: the last ones of c(j), and in the full form all
    2k + a + 2."""
    return format(node(k, j, a), "b").zfill(2 * k + a + 2)[-width(k, form, a):]


@functools.lru_cache(maxsize=None)
def image(k, form=PLAIN, a=2):
    """The words in node order, one right behind another, then zeros to the end of a byte, cut into bytes."""
    bits = "".join(stored(k, j, form, a) for j in range(count(k, form)))
    bits += "0" * (-len(bits) % 8)
    assert form or a != 2 or len(bits) == 8 * LENGTHS[k - 1]
    return bytes(int(bits[at:at + 8], 2) for at in range(0, len(bits), 8))


@functools.lru_cache(maxsize=64)
def bits_of(buffer):
    return "".join(format(byte, "08b") for byte in buffer)


def tail_is_not_zero(k, buffer, form=PLAIN, a=2):
    """The lowest byte in which a bit behind the words is one, and none where all are zeros: the byte of the first such
    bit."""
    one = bits_of(buffer).find("1", bit_count(k, form, a))
    return [] if one < 0 else [one // 8]


def word_is_wrong(k, buffer, j, form=PLAIN, a=2):
    """Whether node j has a word and it is not the node's."""
    found = bits_of(buffer)[j * width(k, form, a):(j + 1) * width(k, form, a)]
    return j < count(k, form) and found != stored(k, j, form, a)


def leading(k, x, b=3):
    """The operand's leading bits: the k + 1 of i, which begin with its leading one, and the k + b of f after them.
    Zeros stand for those that it does not have."""
    bits = format(x, "b").ljust(2 * k + b + 1, "0")
    return bits[:k + 1], bits[k + 1:2 * k + b + 1]


def piece(k, x):
    """j: the operand lies between nodes j and j + 1."""
    return int(leading(k, x)[0], 2) - 2 ** k


def point(k, x, a=2, b=3):
    """P / 2^(k+b): the point on the straight line from node j to node j + 1 that is f / 2^(k+b) of the way along, in
    table units."""
    way = Fraction(int(leading(k, x, b)[1], 2), 2 ** (k + b))
    start, end = node(k, piece(k, x), a), node(k, piece(k, x) + 1, a)
    return start * (1 - way) + end * way


def reciprocal(k, n, x, a=2, b=3):
    """R: that point in ulps of 2^a table units, rounded down. It is less than an ulp off."""
    ulps = math.floor(point(k, x, a, b) / 2 ** a)
    off = abs(ulps * x - 2 ** (n + 2 * k + 1))
    assert off < x, f"precision {k}, {x} with {n} fraction bits: {ulps} is an ulp off, or more"
    return ulps


# ---- the calls: each answer is (number, place, value)

def first_of_format(k, a, b):
    """Refusals 1 and 18, or 0."""
    if not in_range(k):
        return 1
    if not guard_bits_in_range(a, b):
        return 18
    return 0


def first_three(k, buffer, form, a, b):
    """Refusals 1, 18 and 2, or 0."""
    number = first_of_format(k, a, b)
    if number:
        return number
    if len(buffer) < length(k, form, a):
        return 2
    return 0


def call_image_length(k, form=PLAIN, a=2, b=3):
    """The bytes of an image, 0 where 1 or 18 applies."""
    return 0 if first_of_format(k, a, b) else length(k, form, a)


def call_build(k, buffer, form=PLAIN, a=2, b=3):
    number = first_three(k, buffer, form, a, b)
    if number:
        return (number, 0, 0), buffer
    return (0, 0, 0), image(k, form, a).ljust(len(buffer), b"\0")


def call_check(k, buffer, form=PLAIN, a=2, b=3):
    number = first_three(k, buffer, form, a, b)
    if number:
        return (number, 0, 0)
    bad = [j for j in range(count(k, form)) if word_is_wrong(k, buffer, j, form, a)]
    wrong = [(6, j, 0) for j in bad] + [(7, at, 0) for at in tail_is_not_zero(k, buffer, form, a)]
    return min(wrong, default=(0, 0, 0))


def call_node(k, buffer, j, form=PLAIN, a=2, b=3):
    number = first_three(k, buffer, form, a, b)
    if number:
        return (number, 0, 0)
    if j > 2 ** k:
        return (3, 0, 0)
    if word_is_wrong(k, buffer, j, form, a):
        return (6, j, 0)
    return (0, 0, node(k, j, a))


def call_reciprocal(k, buffer, n, x, form=PLAIN, a=2, b=3):
    number = first_three(k, buffer, form, a, b)
    if number:
        return (number, 0, 0)
    if not LEAST_BITS <= n <= MOST_BITS:
        return (4, 0, 0)
    if not 2 ** n <= x <= 2 ** (n + 1) - 1:
        return (5, 0, 0)
    ends = (piece(k, x), piece(k, x) + 1)
    bad = [j for j in ends if word_is_wrong(k, buffer, j, form, a)]
    return (6, min(bad), 0) if bad else (0, 0, reciprocal(k, n, x, a, b))


def call_word_bytes(k, buffer, j, form=PLAIN, a=2, b=3):
    if first_three(k, buffer, form, a, b) or j > count(k, form) - 1:
        return b""
    first = math.floor(Fraction(j * width(k, form, a), 8))
    last = math.floor(Fraction((j + 1) * width(k, form, a) - 1, 8))
    return bytes(buffer[at] for at in range(first, last + 1))


# ---- the printed table

def table(data):
    """What print_table prints: 1 to 9 digits and one line feed give a precision, other input counts as 0."""
    k = int(data[:-1]) if re.fullmatch(rb"[0-9]{1,9}\n", data) else 0
    if not in_range(k):
        return "refused 1\n"
    lines = [f"precision {k} bytes {len(image(k))}"]
    lines += [f"{j} {node(k, j)} {int(stored(k, j), 2)}" for j in range(2 ** k)]
    lines.append(f"{2 ** k} {node(k, 2 ** k)} -")
    return "".join(line + "\n" for line in lines)


# ---- the program `cases`

ROOM = 16384  # bytes, of which the front is lent
SCRIPT = 262144  # bytes of the script that are read


def rows(data):
    """Bytes in hex, each after a space; each 32nd ends a line, and the last one does."""
    return "".join(f" {byte:02x}" + ("\n" if at % 32 == 31 else "") for at, byte in enumerate(data)) + "\n"


def row(*numbers):
    """Numbers on a line, each after a space."""
    return "".join(f" {number}" for number in numbers) + "\n"


def value_or_0(k, j):
    """c(j), 0 where there is no such node."""
    return node(k, j) if in_range(k) and j <= 2 ** k else 0


class Cases:
    """Runs a script as crates/cases/src/main.rt describes it: each command is a method, and what it returns is
    printed."""

    COMMANDS = ("fill hex xor length show sum build precision format check node kept word rule eight "
                "invert around through").split(" ")

    def __init__(self):
        self.room = bytes(ROOM)
        self.lent = 0

    def buffer(self):
        return self.room[:self.lent]

    def put(self, data):
        """Bytes at the front of the room."""
        self.room = data + self.room[len(data):]

    def fill(self, first, step=0):
        self.room = bytes((first + step * number) % 256 for number in range(ROOM))
        return ""

    def hex(self, *data):
        self.put(bytes(data))
        self.lent = len(data)
        return ""

    def xor(self, at, mask):
        self.room = self.room[:at] + bytes([self.room[at] ^ mask]) + self.room[at + 1:]
        return ""

    def length(self, count):
        self.lent = count
        return ""

    def show(self):
        return rows(self.buffer())

    def sum(self):
        """The 64-bit FNV-1a hash of the lent bytes."""
        return row(functools.reduce(lambda sofar, byte: (sofar ^ byte) * (2 ** 40 + 0x1b3) % 2 ** 64, self.buffer(),
                                    0xcbf29ce484222325))

    def build(self, k, form=PLAIN, a=2, b=3):
        answer, after = call_build(k, self.buffer(), form, a, b)
        self.put(after)
        return row(*answer)

    def each(self, first, last, answer):
        """What is answered at each number from the first to the last, of which there is at least one."""
        return "".join(f" {number}{answer(number)}" for number in range(first, max(first, last) + 1))

    def precision(self, first, last=0, a=2):
        def answer(k):
            words, size = (2 ** k, LENGTHS[k - 1]) if in_range(k) else (0, 0)
            return row(int(in_range(k)), width(k, PLAIN, a), words, size, LEAST, GREATEST, max(LENGTHS), LEAST_BITS,
                       MOST_BITS)
        return self.each(first, last, answer)

    def format(self, first, last=0, form=PLAIN, a=2, b=3):
        longest = [length(GREATEST, PLAIN), length(GREATEST, FULL), length(GREATEST, FULL, GREATEST_TABLE)]

        def answer(k):
            words = count(k, form) if in_range(k) else 0
            size, offered = call_image_length(k, form, a, b), int(guard_bits_in_range(a, b))
            return row(width(k, form, a), words, size, offered, *longest, LEAST_TABLE, GREATEST_TABLE, LEAST_INPUT,
                       GREATEST_INPUT)
        return self.each(first, last, answer)

    def check(self, first, last=0, form=PLAIN, a=2, b=3):
        return self.each(first, last, lambda k: row(*call_check(k, self.buffer(), form, a, b)))

    def node(self, first, last, k, form=PLAIN, a=2, b=3):
        return self.each(first, last, lambda j: row(*call_node(k, self.buffer(), j, form, a, b)))

    def word(self, first, last, k, form=PLAIN, a=2, b=3):
        return self.each(first, last, lambda j: rows(call_word_bytes(k, self.buffer(), j, form, a, b)))

    def invert(self, k, n, x, count=1, step=0, form=PLAIN, a=2, b=3):
        """What is answered at the operands x, x + step, .. modulo 2^64, of which there is at least one."""
        operands = [(x + step * number) % 2 ** 64 for number in range(max(1, count))]
        return "".join(row(operand, *call_reciprocal(k, self.buffer(), n, operand, form, a, b)) for operand in operands)

    def around(self, k, n, x, count=1, step=0, form=PLAIN, a=2, b=3):
        operands = [x + step * number for number in range(max(1, count))]
        return "".join(self.invert(k, n, operand - 1, 3, 1, form, a, b) for operand in operands)

    kept, through = node, invert  # a bound table gives what the calls on its image give

    def rule(self, first, last, k):
        return self.each(first, last, lambda j: row(value_or_0(k, j)))

    def eight(self, first, last=0):
        return self.each(first, last, lambda j: row(value_or_0(8, j), node(8, j) if j <= 256 else 0))


def cases(script):
    """What `cases` prints on a script: each line, and what its command answers, if its first word is one."""
    assert len(script) <= SCRIPT, "the program reads no more of a script"
    run = Cases()
    printed = []
    for line in script.decode("ascii").splitlines():
        printed.append(line + "\n")
        word, *rest = line.split(" ")
        if word in run.COMMANDS:
            printed.append(getattr(run, word)(*(int(text, 16 if word == "hex" else 10) for text in rest)))
    return "".join(printed)


def main():
    if sys.argv[1:] == ["cases"]:
        sys.stdout.write(cases(sys.stdin.buffer.read()))
    elif sys.argv[1:] == ["table"]:
        sys.stdout.write(table(sys.stdin.buffer.read()))
    else:
        sys.exit(__doc__)


if __name__ == "__main__":
    main()
