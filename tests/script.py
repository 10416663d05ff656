#!/usr/bin/env python3
"""Writes the cases for reciprocals, full ROMs, full words, other guard bits and steps of neighbours in
crates/cases/stdin, the script of the program `cases`, whose commands crates/cases/src/main.rt describes. What stands
down to the mark is kept, and is changed there. Below it come the cases of tests/set_examples.txt, without their
answers, and those that are made here.

    python3 tests/script.py
    python3 tests/reference.py cases <crates/cases/stdin >crates/cases/stdout
"""
import pathlib

import reference
from reference import FULL, PLAIN

ROOT = pathlib.Path(__file__).resolve().parent.parent
STDIN = ROOT / "crates" / "cases" / "stdin"
MARK = "# The lines below this one are written by tests/script.py\n"

PRECISIONS = range(1, 13)
TOP = 2 ** 64 - 1


# ---- lines of a script
#
# A table is its precision and then its form, a table guard bits and b input guard bits, which are plain, 2 and 3 where
# they are left out.

size = reference.call_image_length


def ending(form, a=2, b=3):
    """The form and the guard bits as the last numbers of a line, which leaves out what it can."""
    return f" {form} {a} {b}" if (a, b) != (2, 3) else f" {form}" if form else ""


def build(k, form=PLAIN, a=2, b=3):
    return f"build {k}{ending(form, a, b)}"


def image(k, fill=0, form=PLAIN, a=2, b=3, more=0):
    """An image of its own length, or with more bytes behind it, in a room of the byte `fill`."""
    return [f"fill {fill}", f"length {size(k, form, a, b) + more}", build(k, form, a, b)]


def check(k, form=PLAIN, a=2, b=3):
    last = ending(form, a, b)
    return f"check {k} 0{last}" if last else f"check {k}"


def operands(word, k, n, x, count, step, *table):
    last = ending(*table)
    return f"{word} {k} {n} {x % 2 ** 64}" + (f" {count} {step}" if count > 1 or last else "") + last


def invert(k, n, x, count=1, step=0, form=PLAIN, a=2, b=3):
    return operands("invert", k, n, x, count, step, form, a, b)


def around(k, n, x, count=1, step=0, form=PLAIN, a=2, b=3):
    return operands("around", k, n, x, count, step, form, a, b)


def node(first, to, k, form=PLAIN, a=2, b=3):
    return f"node {first} {to} {k}{ending(form, a, b)}"


def word(first, to, k, form=PLAIN, a=2, b=3):
    return f"word {first} {to} {k}{ending(form, a, b)}"


def both(call):
    """A call on an image, and the same through a bound table."""
    name, rest = call.split(" ", 1)
    return [call, {"invert": "through", "node": "kept"}[name] + " " + rest]


def flip(bit):
    """One bit of the room is changed, counted from the most significant of byte 0."""
    return f"xor {bit // 8} {128 >> bit % 8}"


def flip_first(k, j, form=PLAIN, a=2, _=3):
    """The most significant bit of word j is changed."""
    return flip(j * reference.width(k, form, a))


def flip_last(k, j, form=PLAIN, a=2, _=3):
    """The least significant bit of word j is changed."""
    return flip((j + 1) * reference.width(k, form, a) - 1)


# ---- what is set, and what the paper has

def set_examples():
    lines = (ROOT / "tests" / "set_examples.txt").read_text().splitlines()
    return [line for line in lines if not line.startswith(" ")]


def table2():
    yield "# Das Sarma and Matula, Table 2"
    yield from image(2)
    yield invert(2, 7, 128, 33, 1)


# ---- operands that are served

def every_operand():
    yield "# Every operand with 1 to 2k + 3 fraction bits, and one on each side"
    for k in (1, 2, 3, 4):
        yield from image(k)
        for n in range(1, 2 * k + 4):
            yield invert(k, n, 2 ** n - 1, 2 ** n + 2, 1)


def spread():
    yield "# A spread of operands at each precision: nodes and their neighbours, so both ends of the first, the middle"
    yield "# and the last piece; operands far apart; the same bits with others to their right; short operands; n beyond"
    yield "# its limits; a buffer one byte short"
    for k in PRECISIONS:
        yield f"# A spread of operands: precision {k}"
        yield from image(k, 90)
        cut = 2 * k + 3  # the fraction bits that the table looks at
        for n in (cut - 1, cut, cut + 1, 31, 32, 52, 63):
            # At most 17 nodes, evenly spread; where those are not all, the second one, the one after the middle, the
            # last but one.
            piece, parts = 2 ** (n - k), min(k, 4)
            yield around(k, n, 2 ** n, 2 ** parts + 1, 2 ** (n - parts))
            if k > parts:
                yield around(k, n, 2 ** n + piece, 2, 2 ** (n - 1))
                yield around(k, n, 2 ** (n + 1) - piece)
        for n in (cut - 1, cut, 63):
            yield from both(invert(k, n, 2 ** n + 2 ** n // 97, 48, (2 ** n // 48 - 2 ** n // 1500) | 1))
        x = 2 ** cut + 2 ** cut * (3 * k + 2) // 41  # another piece at each precision
        yield invert(k, cut, x)
        yield invert(k, cut + 1, 2 * x, 2, 1)
        yield invert(k, cut + 3, 8 * x, 8, 1)
        yield invert(k, 63, x * 2 ** (63 - cut), 2, 2 ** (63 - cut) - 1)
        yield from short(k)
        yield invert(k, 0, 1)
        yield invert(k, 64, 2 ** 63)
        yield from both(node(2 ** k - 1, 2 ** k + 1, k))
        yield f"length {size(k) - 1}"
        for n in (1, cut):
            yield from both(invert(k, n, 2 ** n))
        yield from both(node(0, 0, k))


def short(k, form=PLAIN):
    """Short operands: both ends and both sides where fewer nodes than all have an operand, where each has one, and
    where the table looks at one bit more than there is; one operand with zeros to its right, and with ones behind the
    first 2k + 3 fraction bits."""
    for n in sorted({1, k - 1, k, 2 * k + 2} - {0}):
        yield around(k, n, 2 ** n, 2, 2 ** n, form)
    n, cut = k + 1, 2 * k + 3
    x = 2 ** n + (2 ** n * (5 * k + 3) // 67 | 1)  # its last bit is 1; another piece at each precision
    yield from both(invert(k, n, x, 1, 0, form))
    yield invert(k, n + 1, 2 * x, 2, 1, form)
    yield invert(k, cut, x * 2 ** (cut - n), 1, 0, form)
    yield invert(k, cut + 2, x * 2 ** (cut + 2 - n), 4, 1, form)
    yield invert(k, 63, x * 2 ** (63 - n), 2, 2 ** (63 - cut) - 1, form)


def single_precision():
    yield "# The significand of a single-precision number, 23 fraction bits, at k = 12"
    yield from image(12)
    yield from both(invert(12, 23, 2 ** 23 - 1, 4, 1))
    yield from both(invert(12, 23, 2 ** 24 - 2, 4, 1))
    yield from both(invert(12, 23, 3 * 2 ** 22))  # 1.5
    yield from both(invert(12, 23, 2 ** 23 + 1, 32, 2 ** 23 // 32 - 12345))
    yield "# The same operands with zeros to their right, 27 and 63 fraction bits"
    for n in (27, 63):
        yield invert(12, n, (2 ** 23 - 1) * 2 ** (n - 23), 4, 2 ** (n - 23))
        yield invert(12, n, (2 ** 24 - 2) * 2 ** (n - 23), 2, 2 ** (n - 23))
        yield invert(12, n, 3 * 2 ** (n - 1))
        yield invert(12, n, (2 ** 23 + 1) * 2 ** (n - 23), 32, (2 ** 23 // 32 - 12345) * 2 ** (n - 23))


def longer(n, x):
    """Bits to the right of x, which has n fraction bits, at k = 2: each choice of up to three; of more, all zeros, and
    ones behind the first 7 fraction bits."""
    for m in (0, 1, 2, 3):
        yield invert(2, n + m, x * 2 ** m, 2 ** m, 1)
    for bits in (31, 32, 52, 62, 63) if n == 7 else (31, 63):
        if (x + 1) * 2 ** (bits - n) - 1 <= TOP:
            yield invert(2, bits, x * 2 ** (bits - n), 2, 2 ** (bits - 7) - 1)


def bits_to_the_right():
    yield "# Bits to the right of 135, of 127 and 256, which are out of range, and of 223, whose words are then"
    yield "# damaged; then of short operands: of 64, which is another operand where a one follows it, of 5, of 3 and 8,"
    yield "# which are out of range, and of 27, which lies beside 223"
    yield "hex 02 75 8A"
    for n, x in ((7, 135), (7, 127), (7, 256), (7, 223), (6, 64), (2, 5), (2, 3), (2, 8), (4, 27)):
        yield from longer(n, x)
    for damaged in ("02 75 8B", "02 75 CA"):
        yield f"hex {damaged}"
        yield from longer(7, 223)
        yield from longer(4, 27)


# ---- damaged images

def wrong_words():
    yield "# Damaged images: every choice of wrong words at k = 2, at the first, a middle and the last operand of each"
    yield "# piece, and at each short one that stands at a node"
    changes = (0b000001, 0b100000, 0b000100, 0b111111)  # of the four words
    for choice in range(16):
        words = [int(reference.stored(2, j), 2) ^ (changes[j] if choice >> j & 1 else 0) for j in range(4)]
        data = int("".join(f"{word:06b}" for word in words), 2).to_bytes(3, "big")
        yield f"hex {data.hex(' ').upper()}"
        yield from both(invert(2, 7, 128, 8, 16))
        yield invert(2, 7, 159, 4, 32)
        yield from both(invert(2, 2, 4, 4, 1))
        yield from both(node(0, 4, 2))


def each_bit():
    yield "# One bit changed, each in turn"
    for k, count, step in ((1, 4, 8), (2, 4, 32)):
        n = 2 * k + 3
        yield from image(k)
        for bit in range(8 * size(k)):
            yield flip(bit)
            yield invert(k, n, 2 ** n, count, step)
            yield flip(bit)


def wrong_neighbours():
    yield "# Damage in a word in the middle, then also in the next one, then only there, then also in the last word,"
    yield "# then also in the first; short operands stand at a node, and both words are read for them too"
    for k in range(3, 13):
        n = 2 * k + 3 + k % 2
        piece = 2 ** (n - k)
        half = piece // 2
        middle, last = 2 ** (k - 1), 2 ** k - 1

        def at(j):
            """The operand at node j."""
            return 2 ** n + j * piece

        yield from image(k, k)
        yield f"length {size(k) + 9}"
        yield flip_last(k, middle)
        yield invert(k, n, at(middle - 2), 8, half)
        yield invert(k, n, at(middle - 1) - 1, 4, piece)
        yield invert(k, 1, 2, 2, 1)
        yield flip_first(k, middle + 1)
        yield invert(k, n, at(middle - 2), 8, half)
        yield invert(k, k, 2 ** k + middle - 2, 5, 1)
        yield flip_last(k, middle)
        yield invert(k, n, at(middle - 1), 8, half)
        yield invert(k, 1, 2, 2, 1)
        yield flip_last(k, last)
        yield invert(k, n, at(last - 2), 6, half)
        yield invert(k, n, at(last - 1) - 1, 3, piece)
        yield invert(k, k, 2 ** k + last - 2, 3, 1)
        yield flip_first(k, 0)
        yield invert(k, n, at(0), 4, half)
        yield invert(k, n, at(1) - 1, 2, piece)
        yield invert(k, 1, 2, 2, 1)


def last_piece():
    yield "# The last piece, with bytes after the image"
    for k in PRECISIONS:
        n = 2 * k + 4 - k % 2
        piece = 2 ** (n - k)
        for byte in (0, 255):
            yield from image(k, byte)
            yield f"length {size(k) + (16 if k % 2 else 1)}"
            yield invert(k, n, 2 ** (n + 1) - piece, 2, piece - 1)
            yield invert(k, k, 2 ** (k + 1) - 1)


# ---- full ROMs

def full_roms():
    yield "# Full ROMs, built over other bytes: less than 64 bytes behind the image; then some 200, or the whole room."
    yield "# A byte there is changed: the last, then also one in the middle, then also the first; then the first alone,"
    yield "# then the middle one alone, on which the other calls do not depend. Then a word is wrong too, then it alone"
    for k in PRECISIONS:
        first = size(k)
        for length in (first + 5 * k + 1, first + 160 + 9 * k if k % 2 else 16384):
            last = length - 1
            middle = (first + last) // 2 + k
            mask = 1 << (k + length) % 8
            yield f"fill {100 + k} 1"
            yield f"length {length}"
            yield build(k)
            if length < 400:
                yield "show"
            yield check(k)
            for at in (last, middle, first, middle, last, first, middle):
                yield f"xor {at} {mask}"
                yield check(k)
            yield from both(node(2 ** k - 1, 2 ** k, k))
            yield word(2 ** k - 1, 2 ** k - 1, k)
            yield from both(invert(k, k, 2 ** (k + 1) - 1))
            yield flip_last(k, (length + k) % 2 ** k)
            yield check(k)
            yield f"xor {middle} {mask}"
            yield check(k)


# ---- limits

def limits():
    yield "# The limits of a reciprocal: the precision"
    yield from image(12)
    yield "length 16384"
    for k in (0, 1, 11, 12, 13, 14):
        yield invert(k, 2 * k + 3, 2 ** (2 * k + 3))
    for k in (32, 255, 256, 268, 2147483648, 4294967295):
        yield invert(k, 63, 2 ** 63)
    yield invert(4294967295, 4294967295, TOP)
    yield "# The limits of a reciprocal: the fraction bits"
    yield "hex 02 75 8A"
    for n in (0, 1, 5, 6, 7, 8, 62, 63, 64, 65, 71, 99, 128, 255, 256, 263, 319, 65543, 2147483655, 4294967295):
        yield invert(2, n, 2 ** min(n, 63))
    yield around(2, 0, 1)
    yield "# The limits of a reciprocal: the operand"
    for n in (1, 2, 6, 7, 8, 30, 31, 32, 62, 63):
        yield around(2, n, 2 ** n, 2, 2 ** n)
        yield invert(2, n, TOP, 4, 1)


def pairs(precisions, lengths, *table):
    """The operands 127, 128, 2^64 - 1 and 0 at each precision with each number of fraction bits, and nodes 4 and 5."""
    for k in precisions:
        for n in lengths:
            yield from both(invert(k, n, 127, 2, 1, *table))
            yield invert(k, n, TOP, 2, 1, *table)
        yield from both(node(4, 5, k, *table))


def order():
    yield "# The refusals of a reciprocal in their order: a short buffer"
    yield "hex 02 75"
    yield from pairs((0, 2, 13), (0, 7, 64))
    yield "# The refusals of a reciprocal in their order: wrong words"
    yield "hex FF FF FF"
    yield from pairs((0, 2, 4294967295), (0, 7, 63, 64))
    yield "# The refusals of a reciprocal in their order: an image"
    yield "hex 02 75 8A"
    yield from pairs((0, 2, 13), (0, 6, 7, 4294967295))


# ---- full words

def formats():
    yield "# What a format says of itself; a form is full for each number but 0"
    for form in (PLAIN, FULL):
        yield f"format 0 14{ending(form)}"
        for k in (32, 2147483647, 2147483648, 4294967295):
            yield f"format {k} 0{ending(form)}"
    for form in (2, 3, 256, 65536, 2147483648, 4294967295):
        yield f"format 1 2 {form}"


def full_words():
    yield "# Full words: each image, its nodes, but only some at k = 10 and 11, and the bytes of its words, all up to k"
    yield "# = 6; then it is taken for one of plain words. In a buffer one byte short no call is served, but one of"
    yield "# plain words is, and these are then taken for full ones"
    for k in PRECISIONS:
        top, own = 2 ** k, size(k, FULL)
        yield from image(k, 90, FULL)
        yield "show" if k < 9 else "sum"
        yield check(k, FULL)
        some, every = [(0, 1), (top // 2 - 1, top // 2), (top - 2, top + 1)], [(0, top + 1)]
        for first, to in some if k in (10, 11) else every:
            yield from both(node(first, to, k, FULL)) if k < 7 else [node(first, to, k, FULL)]
        for first, to in every if k < 7 else some:
            yield word(first, to, k, FULL)
        yield check(k)
        yield node(top - 1, top, k)
        yield word(top - 1, top, k)
        yield f"length {own - 1}"
        yield build(k, FULL)
        yield check(k, FULL)
        yield from both(node(top, top + 1, k, FULL))
        yield word(top, top, k, FULL)
        yield from both(invert(k, 1, 3, 1, 0, FULL))
        yield build(k)
        yield check(k)
        yield f"length {own}"
        yield check(k, FULL)
        yield node(top - 1, top, k, FULL)
        yield from both(invert(k, 1, 3, 1, 0, FULL))


def full_operands():
    yield "# Operands and full words: every operand with 1 to 2k + 3 fraction bits, and one on each side; then a spread"
    yield "# of them, as above"
    for k in (1, 2):
        yield from image(k, 0, FULL)
        for n in range(1, 2 * k + 4):
            yield invert(k, n, 2 ** n - 1, 2 ** n + 2, 1, FULL)
    for k in PRECISIONS:
        yield from image(k, k, FULL, more=16 - k)
        cut, parts = 2 * k + 3, min(k, 3)
        for n in (cut, cut + 1, 63):
            piece = 2 ** (n - k)
            yield around(k, n, 2 ** n, 2 ** parts + 1, 2 ** (n - parts), FULL)
            yield around(k, n, 2 ** n + piece, 2, piece - 1, FULL)
            yield around(k, n, 2 ** (n + 1) - piece, 2, piece - 1, FULL)
        for n in (cut, 63):
            yield from both(invert(k, n, 2 ** n + 2 ** n // 97, 24, (2 ** n // 24 - 2 ** n // 1500) | 1, FULL))
        yield from short(k, FULL)
        yield invert(k, 0, 1, 1, 0, FULL)
        yield invert(k, 64, 2 ** 63, 1, 0, FULL)


def wrong_full_words():
    yield "# Wrong full words: every choice of them at k = 2, at the first, a middle and the last operand of each"
    yield "# piece, and at each short one that stands at a node"
    changes = (0b00000001, 0b10000000, 0b00000100, 0b11111111, 0b01000000)  # of the five words, which are bytes
    for choice in range(32):
        words = [int(reference.stored(2, j, FULL), 2) ^ (changes[j] if choice >> j & 1 else 0) for j in range(5)]
        yield f"hex {bytes(words).hex(' ').upper()}"
        yield check(2, FULL)
        yield from both(node(0, 5, 2, FULL))
        yield from both(invert(2, 7, 128, 8, 16, FULL))
        yield invert(2, 7, 159, 4, 32, FULL)
        yield from both(invert(2, 2, 4, 4, 1, FULL))


def each_full_bit():
    yield "# Full words with one bit changed, each in turn, filling bits too; from k = 4 on, the first and the last one"
    yield "# of a few words"
    for k, count, step in ((1, 4, 8), (2, 4, 32)):
        n = 2 * k + 3
        yield from image(k, 0, FULL)
        for bit in range(8 * size(k, FULL)):
            yield flip(bit)
            yield check(k, FULL)
            yield node(0, 2 ** k, k, FULL)
            yield invert(k, n, 2 ** n, count, step, FULL)
            yield flip(bit)
    yield from image(3, 0, FULL)
    for bit in range(8 * size(3, FULL)):
        yield flip(bit)
        yield check(3, FULL)
        yield flip(bit)
    for k in range(4, 13):
        yield from image(k, 0, FULL)
        for j in (0, 2 ** (k - 1) + k, 2 ** k - 1):
            for change in (flip_first(k, j, FULL), flip_last(k, j, FULL)):
                yield change
                yield check(k, FULL)
                yield invert(k, k, 2 ** k + j - 1, 3, 1, FULL)
                yield change


def last_full_word():
    yield "# The word of node 2^k is wrong, in its last bit and then in its first one too; then also that of node 2^k -"
    yield "# 1, then that alone"
    for k in PRECISIONS:
        form = (FULL, 2, 256, 4294967295)[k % 4]
        top, n = 2 ** k, 2 * k + 4 - k % 2
        piece = 2 ** (n - k)
        yield from image(k, 255, form, more=k % 3)
        for changes in ((flip_last(k, top, form),), (flip_first(k, top, form),), (flip_first(k, top - 1, form),),
                        (flip_first(k, top, form), flip_last(k, top, form))):
            yield from changes
            yield check(k, form)
            yield from both(node(top - 1, top + 1, k, form))
            yield word(top, top + 1, k, form)
            yield from both(invert(k, n, 2 ** (n + 1) - piece - 1, 3, piece // 2, form))
            yield invert(k, k, 2 ** (k + 1) - 2, 2, 1, form)


def filling_bits():
    yield "# Filling bits: each in turn, then all, where the image is all that is lent; no other call depends on them."
    yield "# Then with bytes behind it, of which one is changed too: the last filling bit alone, with that byte, and"
    yield "# the byte alone; the lowest byte is named. Then a word is wrong too"
    for k in PRECISIONS:
        top, own = 2 ** k, size(k, FULL)
        yield from image(k, 255, FULL)
        filling = range(reference.bit_count(k, FULL), 8 * own)
        for bit in filling:
            yield flip(bit)
            yield check(k, FULL)
            yield flip(bit)
        if filling:
            yield f"xor {own - 1} {2 ** len(filling) - 1}"
            yield check(k, FULL)
            yield from both(node(top, top, k, FULL))
            yield word(top, top, k, FULL)
            yield from both(invert(k, k, 2 * top - 1, 1, 0, FULL))
        for more in (1 + k, 16384 - own if k % 3 == 0 else 200 + k):
            yield f"fill {100 + k} 1"
            yield f"length {own + more}"
            yield build(k, FULL)
            if own + more < 200:
                yield "show"
            yield check(k, FULL)
            bit = 8 * own - 1 if filling else 8 * own  # the first bit behind the image, where it has no filling bit
            behind = f"xor {own + more - 1} {1 << k % 8}"
            for change in (flip(bit), behind, flip(bit), flip_last(k, top, FULL), flip(bit)):
                yield change
                yield check(k, FULL)
            yield node(top - 1, top, k, FULL)
            yield invert(k, k, 2 * top - 2, 2, 1, FULL)


def full_refusals():
    yield "# Refusals and full words: precisions out of range, before a buffer too short"
    for length in (0, 5, 16384):
        yield f"length {length}"
        for k in (0, 13, 4294967295):
            yield build(k, FULL)
            yield check(k, FULL)
            yield from both(node(0, 1, k, FULL))
            yield word(0, 1, k, FULL)
            yield from both(invert(k, 7, 135, 1, 0, FULL))
    yield "# Refusals and full words: the reciprocal's, in their order"
    for data in ("80 67 56 4A", "FF FF FF FF FF", "80 67 56 4A 40"):
        yield f"hex {data}"
        yield from pairs((0, 2, 13), (0, 6, 7, 64), FULL)
    for n in (1, 2, 6, 7, 8, 31, 32, 62, 63):
        yield around(2, n, 2 ** n, 2, 2 ** n, FULL)
        yield invert(2, n, TOP, 4, 1, FULL)
    yield "# Refusals and full words: a node that there is none of, in front of a wrong word"
    yield "hex 00 00 00 00 00"
    yield node(0, 6, 2, FULL)
    yield node(4294967295, 4294967295, 2, FULL)
    yield word(0, 6, 2, FULL)
    yield word(4294967295, 4294967295, 2, FULL)


# ---- other guard bits

GUARD_BITS = [(a, b) for a in (2, 3, 4) for b in (3, 4, 5)]
OTHERS = [(form, a, b) for form in (PLAIN, FULL) for a, b in GUARD_BITS if (a, b) != (2, 3)]


def an_image_each(k):
    """Tables of precision k with three and with four table guard bits, plain and full; the input guard bits change from
    one precision to the next."""
    return [(form, a, 3 + (k + a + form) % 3) for form in (PLAIN, FULL) for a in (3, 4)]


def guard_bit_sizes():
    yield "# What a format of other guard bits says of itself, and a precision of its words; any number can be asked"
    yield "# for"
    for form in (PLAIN, FULL):
        for a, b in ((3, 3), (4, 5)):
            yield f"format 0 13{ending(form, a, b)}"
        yield f"format 12 0{ending(form, 2, 5)}"
        for a in (0, 1, 5, 6, 255, 258, 65539, 2147483648, 4294967295):
            yield f"format 2 0{ending(form, a, 3)}"
        for b in (0, 2, 6, 7, 255, 259, 65539, 2147483651, 4294967295):
            yield f"format 2 0{ending(form, 2, b)}"
        yield f"format 2 0{ending(form, 1, 6)}"
        yield f"format 13 0{ending(form, 5, 2)}"
        yield f"format 4294967295 0{ending(form, 4294967295, 4294967295)}"
    for a in (0, 1, 3, 4, 5, 4294967295):
        yield f"precision 12 13 {a}"
        yield f"precision 4294967295 0 {a}"


def guard_bit_images():
    yield "# Images with other table guard bits; a few nodes, and the bytes of a few words, all up to k = 2; then in a"
    yield "# buffer one byte short"
    for k in PRECISIONS:
        top = 2 ** k
        for table in an_image_each(k):
            yield from image(k, 90, *table)
            yield "show" if k < 6 else "sum"
            yield check(k, *table)
            for first, to in [(0, top + 1)] if k < 3 else [(0, 1), (top // 2 + k, top // 2 + k), (top - 1, top + 1)]:
                yield from both(node(first, to, k, *table)) if k % 3 == 2 else [node(first, to, k, *table)]
                yield word(first, to, k, *table)
            yield f"length {size(k, *table) - 1}"
            yield build(k, *table)
            yield check(k, *table)
            yield node(top, top, k, *table)
            yield word(0, 0, k, *table)
            yield invert(k, 1, 3, 1, 0, *table)
    yield "# An image is that of its own form and table guard bits alone, but the input guard bits may be any"
    for k in (1, 2, 5):
        for form, a in [(form, a) for form in (PLAIN, FULL) for a in (2, 3, 4)]:
            yield "fill 0"
            yield "length 72"
            yield build(k, form, a)
            for asked in [(form, a) for form in (PLAIN, FULL) for a in (2, 3, 4)]:
                yield check(k, *asked, 5)


def guard_bit_operands():
    yield "# Operands and other guard bits: every operand with 1 to 2k + b fraction bits at k = 1, and one on each side"
    for form, a, b in OTHERS:
        if (a + b + form) % 2:
            yield from image(1, 0, form, a, b)
            for n in range(1, b + 3):
                yield invert(1, n, 2 ** n - 1, 2 ** n + 2, 1, form, a, b)
    yield "# Operands and other guard bits: nodes and their neighbours; an operand cut and padded, with zeros and ones"
    yield "# to its right; short operands"
    for k in PRECISIONS[1:]:
        for form, a, b in OTHERS:
            if (k + a + b + form) % 2:
                continue
            table, cut = (form, a, b), 2 * k + b
            yield from image(k, k, *table, more=b)
            n = cut + (k + a) % 3 - 1
            yield around(k, n, 2 ** n, 3, 2 ** (n - 1), *table)
            yield around(k, n, 2 ** n + (3 * k + a) % 2 ** k * 2 ** (n - k), 1, 0, *table)
            x = 2 ** cut + (2 ** cut * (7 * k + 3 * a + b) // 113 | 1)  # its last bit is 1; another piece each time
            yield from both(invert(k, cut, x, 1, 0, *table))
            yield invert(k, cut + 1, 2 * x - 1, 3, 1, *table)
            yield invert(k, cut + 2, 4 * x + 3, 1, 0, *table)
            yield invert(k, 63, x * 2 ** (63 - cut), 2, 2 ** (63 - cut) - 1, *table)
            yield invert(k, cut - 1, x // 2, 1, 0, *table)
            yield invert(k, cut, x - 1, 1, 0, *table)
            yield invert(k, k + 1, x // 2 ** (k + b - 1), 1, 0, *table)


# By precision, operands with 2k + 5 fraction bits of which one or another has another reciprocal for any two choices of
# guard bits.
TELLING = {
    2: (553, 554, 573, 614, 660, 784),
    3: (2573, 2574, 2600, 2601, 2656, 2657),
    7: (557066, 557157, 557429, 557502, 557520, 561399, 561676),
    12: (570425345, 570425346, 570425361, 570425362, 570425363, 570952080),
}


def told_apart():
    yield "# Operands by which any two choices of guard bits are told apart"
    for k, found in TELLING.items():
        n = 2 * k + 5
        given = {tuple(reference.reciprocal(k, n, x, *each) for x in found) for each in GUARD_BITS}
        assert len(given) == len(GUARD_BITS), f"precision {k}: not all choices are told apart"
        for a, b in GUARD_BITS:
            table = (k % 2, a, b)
            yield from image(k, 0, *table)
            for x in found:
                yield invert(k, n, x, 1, 0, *table)


def guard_bits_to_the_right():
    yield "# Bits to the right with other guard bits, zeros and ones behind the first 2k + b fraction bits: of operands"
    yield "# cut and padded, of some out of range; then of operands beside a wrong word"
    for table in ((PLAIN, 2, 4), (FULL, 2, 5), (PLAIN, 3, 4), (PLAIN, 4, 5)):
        cut = table[-1] + 4
        beside = [(cut, 2 ** (cut + 1) - 3), (4, 29)]
        yield from image(2, 0, *table)
        turned_back = [(cut, 2 ** cut - 1), (cut, 2 ** (cut + 1)), (3, 7), (3, 16)]
        for changes, operands in (((), [*beside, *turned_back]), ((flip_last(2, 3, *table),), beside)):
            yield from changes
            for n, x in operands:
                yield invert(2, n, x, 1, 0, *table)
                yield invert(2, n + 1, 2 * x, 1, 0, *table)
                yield invert(2, cut + 2, x * 2 ** (cut + 2 - n), 2, 3, *table)
                if x < 2 ** (n + 1):  # else it has more than 64 bits
                    yield invert(2, 63, x * 2 ** (63 - n), 2, 2 ** (63 - cut) - 1, *table)


def guard_bit_changes():
    yield "# Images with other table guard bits and one bit changed, each in turn, filling bits too"
    for k in (1, 2):
        for table in an_image_each(k):
            yield from image(k, 0, *table)
            for bit in range(8 * size(k, *table)):
                yield flip(bit)
                yield check(k, *table)
                if k == 1:
                    yield node(0, 2, k, *table)
                    yield invert(k, 3, 11, 2, 2, *table)
                yield flip(bit)
    yield "# Damage in a word in the middle, then in the next one too, then there alone, then in the first bit of the"
    yield "# last word too"
    for k in range(3, 13):
        for table in an_image_each(k) + [(k % 2, 2, 4 + k % 2)]:
            middle, last = 2 ** (k - 1) + k % 4, reference.count(k, table[0]) - 1
            yield from image(k, k, *table)
            if k < 9:
                yield flip_last(k, middle, *table)
                yield check(k, *table)
                yield invert(k, k, 2 ** k + middle - 2, 4, 1, *table)
                yield flip_first(k, middle + 1, *table)
                yield invert(k, k, 2 ** k + middle, 1, 0, *table)
                yield flip_last(k, middle, *table)
            else:
                yield flip_first(k, middle + 1, *table)
            yield check(k, *table)
            yield from both(node(middle, middle + 1, k, *table))
            yield from both(invert(k, k, 2 ** k + middle - 1, 3, 1, *table))
            yield flip_first(k, last, *table)
            yield check(k, *table)
            yield invert(k, k, 2 ** (k + 1) - 2, 2, 1, *table)
    yield "# The widest words, two of which have up to 60 bits, wherever in a byte they begin: the last bit of each in"
    yield "# turn is changed, and the first one"
    for table in ((FULL, 3, 5), (FULL, 4, 3), (FULL, 4, 5)):
        yield from image(12, 0, *table)
        for j in (*range(1, 9), *range(4089, 4097)):
            for change in (flip_last(12, j, *table), flip_first(12, j, *table)):
                yield change
                yield invert(12, 12, 2 ** 12 + j - 1, 1, 0, *table)
                yield change


def guard_bit_tails():
    yield "# Plain words that end within a byte: every content of the filling bits, which no call but the check depends"
    yield "# on"
    for k, a in ((1, 3), (1, 4), (2, 3)):
        whole = reference.image(k, PLAIN, a)
        filling = 8 * len(whole) - reference.bit_count(k, PLAIN, a)
        for content in range(2 ** filling):
            table = (PLAIN, a, 3 + content % 3)
            yield "hex " + (whole[:-1] + bytes([whole[-1] | content])).hex(" ").upper()
            yield check(k, *table)
            if content in (0, 1, 2 ** (filling - 1), 2 ** filling - 1):
                yield from both(node(0, 2 ** k + 1, k, *table))
                yield word(2 ** k - 1, 2 ** k, k, *table)
                yield from both(invert(k, k + 2, 2 ** (k + 3) - 5, 5, 1, *table))
    yield "# Full ROMs with other table guard bits, built over other bytes: all filling bits are set, where there are"
    yield "# any, then the last byte is changed too, then that alone, with a word"
    for k in PRECISIONS:
        for table in an_image_each(k):
            own = size(k, *table)
            filling = 8 * own - reference.bit_count(k, *table[:2])
            yield f"fill {100 + k} 1"
            yield f"length {own + 2 + k % 2 * 70}"
            yield build(k, *table)
            yield "show" if k < 4 else "sum"
            yield check(k, *table)
            if filling:
                yield f"xor {own - 1} {2 ** filling - 1}"
                yield check(k, *table)
                yield node(2 ** k, 2 ** k, k, *table)
                yield invert(k, k, 2 ** (k + 1) - 1, 1, 0, *table)
            yield f"xor {own + 1 + k % 2 * 70} {1 << k % 8}"
            yield check(k, *table)
            if filling:
                yield f"xor {own - 1} {2 ** filling - 1}"
                yield check(k, *table)
            yield flip_last(k, 2 ** k - 1, *table)
            yield check(k, *table)


def guard_bit_refusals():
    yield "# Guard bits out of their ranges, in every call, with a buffer that is right, wrong or too short, and"
    yield "# precisions, nodes and operands that are turned back too"
    outside = [(1, 3), (5, 4), (2, 2), (4, 6), (0, 0), (258, 3), (2, 259), (4294967295, 4294967295)]
    for form, contents in ((PLAIN, ("02 75 8A", "FF FF FF", "02")),
                           (FULL, ("80 67 56 4A 40", "00 00 00 00 00", "80 67 56"))):
        for number, data in enumerate(contents):
            yield f"hex {data}"
            for a, b in outside[:4] if number else outside:
                table = (form, a, b)
                yield build(2, *table)
                yield check(2, *table)
                yield from both(node(0, 0, 2, *table))
                yield node(5, 5, 2, *table)
                yield word(0, 0, 2, *table)
                yield from both(invert(2, 7, 135, 1, 0, *table))
                for k, n, x in ((2, 0, 1), (2, 64, 0), (2, 7, 127)):
                    yield invert(k, n, x, 1, 0, *table)
                for k in (0, 13) if (a, b) in ((1, 3), (4, 6)) else ():
                    yield build(k, *table)
                    yield check(k, *table)
                    yield node(0, 0, k, *table)
                    yield word(0, 0, k, *table)
                    yield from both(invert(k, 64, 0, 1, 0, *table))
            yield "show"
    yield "hex 02 75 8A 01"
    for a, b in outside:
        yield check(2, PLAIN, a, b)
    yield "# The refusals of a reciprocal in their order, with other guard bits: a short buffer, wrong words, an image"
    for table in ((PLAIN, 3, 4), (FULL, 4, 5)):
        right = reference.image(2, *table[:2])
        for data in (right[:-1], bytes(byte ^ 255 for byte in right), right):
            yield f"hex {data.hex(' ').upper()}"
            yield from pairs((0, 2, 13), (0, 7, 64), *table)
        for n in (1, 6, 7, 8, 9, 63):
            yield around(2, n, 2 ** n, 2, 2 ** n, *table)


# ---- steps of neighbours

def across_a_node(k, a, b):
    """Two cut operands, the one before node 1 and the other behind it, as far apart as possible where R falls by all
    that it may from the one to the other, d / 2^(b-1) rounded up, and no farther from the node than 2^k, or 64."""
    node, most = 2 ** (2 * k + b) + 2 ** (k + b), min(2 ** k, 64)
    given = {t: reference.reciprocal(k, 2 * k + b, t, a, b) for t in range(node - most, node + most + 1)}
    found = [(after - t, t, after) for t in range(node - most, node) for after in range(node + 1, node + most + 1)
             if (given[t] - given[after]) * 2 ** (b - 1) >= after - t > 2 ** (b - 1)]
    return max(found)[1:]


def neighbours():
    yield "# Steps of neighbours, by plain words and by full ones: from the least operand, where R falls by all that it"
    yield "# may over each distance below 2^k, and across a node; by full words from an operand of one fraction bit,"
    yield "# and to operands with ones to the right, too"
    for a, b in GUARD_BITS:
        for k in (b, 12 - a % 2):
            n = 2 * k + b
            least, (t, after) = 2 ** n, across_a_node(k, a, b)
            for table in ((PLAIN, a, b), (FULL, a, b)):
                yield from image(k, 0, *table)
                yield invert(k, n, least, 2, 2 ** (b - 1) + 1, *table)
                yield invert(k, n, least + 2 ** k - 2, 2, 1, *table)
                yield invert(k, n, t, 2, after - t, *table)
                if table[0]:
                    yield invert(k, 1, 2, 1, 0, *table)
                    yield invert(k, 63, (least + 2 ** k) * 2 ** (63 - n) - 1, 1, 0, *table)
                    yield invert(k, n + 2, t * 4 + 3, 2, (after - t) * 4, *table)


PARTS = [set_examples, table2, every_operand, spread, single_precision, bits_to_the_right, wrong_words, each_bit,
         wrong_neighbours, last_piece, full_roms, limits, order, formats, full_words, full_operands, wrong_full_words,
         each_full_bit, last_full_word, filling_bits, full_refusals, guard_bit_sizes, guard_bit_images,
         guard_bit_operands, told_apart, guard_bits_to_the_right, guard_bit_changes, guard_bit_tails,
         guard_bit_refusals, neighbours]


def script():
    """The whole script: what stands down to the mark, and the parts."""
    kept, mark, _ = STDIN.read_text().partition(MARK)
    assert mark, f"crates/cases/stdin has no line {MARK!r}"
    return kept + mark + "".join(line + "\n" for part in PARTS for line in part())


if __name__ == "__main__":
    STDIN.write_text(script())
