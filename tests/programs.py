"""Tests of the programs: what they print is compared with what reference.py writes."""
import functools
import itertools
import math
import pathlib
import random
import re
import subprocess
import tempfile
import time
from collections import Counter
from fractions import Fraction

import reference
import script
from reference import FULL, PLAIN

ROOT = pathlib.Path(__file__).resolve().parent.parent


def program(name):
    """The program of a crate, as rt builds it there."""
    return ROOT / "crates" / name / "out" / name


def same(found, expected):
    """None where the two are equal, else where they first differ."""
    if found == expected:
        return None
    at = next((i for i, (a, b) in enumerate(zip(found, expected)) if a != b), min(len(found), len(expected)))
    return f"at byte {at}: found {found[at:at + 60]!r}, expected {expected[at:at + 60]!r}"


def run(name, pieces, pause=0.0):
    """What the program writes to standard output when its input arrives in these pieces. It must end well and say
    nothing else."""
    process = subprocess.Popen([program(name)], stdin=subprocess.PIPE, stdout=subprocess.PIPE, stderr=subprocess.PIPE)
    try:
        for piece in pieces:
            process.stdin.write(piece)
            process.stdin.flush()
            time.sleep(pause)
    except BrokenPipeError:
        pass  # it need not read what it has no use for
    try:
        process.stdin.close()
    except BrokenPipeError:
        pass
    process.stdin = None
    wrote, said = process.communicate(timeout=60)
    assert process.returncode == 0, f"exit status {process.returncode}"
    assert said == b"", f"standard error: {said[:80]!r}"
    return wrote


# ---- the cases

def asked():
    return script.STDIN.read_bytes()


@functools.cache
def printed():
    """What the program prints on the script."""
    return run("cases", [asked()])


@functools.cache
def expected():
    """What the reference writes for the script."""
    return reference.cases(asked()).encode()


def stored_script():
    return same(asked(), script.script().encode())


def stored_output():
    return same((ROOT / "crates" / "cases" / "stdout").read_bytes(), expected())


def printed_output():
    return same(printed(), expected())


def random_operands(rng, k):
    """The numbers of a line of operands, but for those of the table: often near a node, often with fraction bits that
    can be served, as many as the table looks at, fewer or more."""
    n = rng.choice([0, 1, k, k + 1, 2 * k + 2, 2 * k + 3, 2 * k + 3, 2 * k + 4, 2 * k + 5, 2 * k + 6,
                    31, 32, 52, 62, 63, 63, 64, rng.randrange(70)])
    n = min(n, 2 ** 32 - 1)
    least = 2 ** min(n, 64)
    nodes = 2 ** min(k, n, 12)  # that have an operand, but for the last one
    piece = least // nodes
    node = least + piece * rng.randint(0, nodes)
    x = rng.choice([node - 1, node, node + 1, least + rng.randrange(least), least + rng.randrange(least),
                    rng.getrandbits(64)])
    step = rng.choice([1, piece, piece // 2 + 1, rng.getrandbits(64)])
    return f"{k} {n} {x % 2 ** 64} {rng.randint(0, 6)} {step % 2 ** 64}"


def random_guard_bits(rng):
    """Table guard bits and input guard bits: half of them two and three, most of the others in range, some just out of
    it or far."""
    far = rng.choice([(rng.choice([0, 258, 4294967295]), 3), (2, rng.choice([0, 259, 4294967295]))])
    near, inside = (rng.randint(1, 5), rng.randint(2, 6)), (rng.randint(2, 4), rng.randint(3, 5))
    return rng.choice([(2, 3)] * 6 + [inside] * 4 + [near, far])


def random_line(rng):
    """A line of a script, or a few: mostly small precisions, either form, any guard bits, often an image, often
    slightly damaged, at any length; a full ROM, and one with a byte of it changed."""
    form = rng.choice([0, 0, 0, 0, 1, 1, 1, rng.choice([2, 256, 4294967295])])
    a, b = random_guard_bits(rng)
    table = f"{form}" if (a, b) == (2, 3) and rng.randrange(4) else f"{form} {a} {b}"
    k = rng.choice([0, 1, 1, 2, 2, 2, 3, 3, 4, 5, 6, 8, 12, 13, 4294967295])
    last = 2 ** k if k <= 12 else 4
    first = rng.choice([0, rng.randint(0, last), last - 1, last, last + 1, rng.randint(0, 2 ** 32 - 1)])
    to = min(first + rng.randint(0, 5), 2 ** 32 - 1)
    size = reference.call_image_length(k, form, a, b) or 4
    kind = rng.choice(["hex", "hex", "image", "image", "xor", "xor", "length", "length", "fill", "build", "check",
                       "check", "node", "node", "word", "rule", "precision", "format", "show", "kept", "invert",
                       "around", "through", "served", "served",
                       "served", "rom", "rom", "rom"])
    rom = min(size + rng.choice([1, 2, 63, 64, 65, rng.randint(0, 300), 16384]), 16384)
    changed = rng.choice([size, rng.randint(size, rom), rom - 1, rom, rng.randrange(rom)])
    return {
        "hex": "hex " + " ".join(f"{rng.randrange(256):02X}" for _ in range(rng.randint(1, 9))),
        "image": f"length {size}\nbuild {k} {table}",
        "xor": f"xor {rng.randrange(rng.choice([1, 3, 8, 20, 16384]))} "
               f"{rng.choice([1, 2, 4, 8, 16, 32, 64, 128, 255])}",
        "length": f"length {rng.choice([0, max(size - 1, 0), size, size + 1, rng.randint(0, 40), 16384])}",
        "fill": f"fill {rng.randrange(256)} {rng.choice([0, 1, rng.randrange(256)])}",
        "build": f"build {rng.choice([0, 1, 2, 3, 4, 13])} {table}\nshow",
        "check": f"check {k} {rng.choice([0, min(k + 3, 2 ** 32 - 1)])} {table}",
        "node": f"node {first} {to} {k} {table}",
        "word": f"word {first} {to} {k} {table}",
        "rule": f"rule {first} {to} {k}",
        "precision": f"precision {k} 0 {a}",
        "format": f"format {k} 0 {table}",
        "show": "show",
        "kept": f"kept {first} {to} {k} {table}",
        "invert": f"invert {random_operands(rng, k)} {table}",
        "around": f"around {random_operands(rng, k)} {table}",
        "through": f"through {random_operands(rng, k)} {table}",
        "rom": f"length {rom}\nbuild {k} {table}\ncheck {k} 0 {table}\n"
               f"xor {min(changed, 16383)} {rng.randint(1, 255)}\n"
               f"check {k} 0 {table}\nnode {first} {to} {k} {table}",
        "served": f"length {size}\nbuild {k} {table}\ninvert {random_operands(rng, k)} {table}",
    }[kind]


def random_scripts(seed):
    rng = random.Random(seed)
    text = "".join(random_line(rng) + "\n" for _ in range(400)).encode()
    return same(run("cases", [text]), reference.cases(text).encode())


def reciprocals(output):
    """Each answer of a reciprocal that `cases` printed: the lent bytes, by the line that last changed them; the table
    that they are taken for, as whether it is full, A and B; K, N, the operand, its number, its place and its value."""
    changed, numbers = 0, None
    for at, line in enumerate(output.decode().splitlines()):
        word, *rest = line.split(" ")
        if word:
            numbers = rest if word in ("invert", "around", "through") else None
            changed = at if word in ("hex", "fill", "xor", "length", "build") else changed
        elif numbers:
            k, n = map(int, numbers[:2])
            form, a, b = map(int, numbers[5:] + ["0", "2", "3"][len(numbers[5:]):])
            yield changed, (form != 0, a, b), k, n, *map(int, rest)


def less_than_an_ulp():
    """Each reciprocal that the program gives, and there are many, also of short operands, by full words and with any
    guard bits, is less than an ulp from the exact one."""
    given = [(table, k, n, x, value) for _, table, k, n, x, number, _, value in reciprocals(printed()) if number == 0]
    for table, k, n, x, value in given:
        if abs(Fraction(value, 2 ** (2 * k + 1)) - Fraction(2 ** n, x)) >= Fraction(1, 2 ** (2 * k + 1)):
            return f"precision {k}, {table}, {x} with {n} fraction bits: {value}"
    short = sum(n < 2 * k + b for (_, _, b), k, n, _, _ in given)
    full = sum(full for (full, _, _), *_ in given)
    each = Counter(table for table, *_ in given)
    all_tables = all(each[full, a, b] > 100 for full in (False, True) for a, b in script.GUARD_BITS)
    enough = len(given) > 5000 and short > 3000 and full > 2000 and all_tables
    return None if enough else f"only {len(given)} are given, {short} of short operands, {full} by full words, {each}"


def cut_operand(k, n, x, b):
    """An operand's first 2k + b fraction bits, with its leading one; zeros stand for those that it does not have."""
    return math.floor(Fraction(x, 2 ** n) * 2 ** (2 * k + b))


def bits_to_the_right():
    """Operands whose first 2k + b fraction bits are the same, zeros standing for those that a short one does not have,
    get the same answer from the same bytes, refusals included."""
    found = {}
    for changed, table, k, n, x, *answer in reciprocals(printed()):
        b = table[-1]
        if not reference.first_of_format(k, *table[1:]) and reference.LEAST_BITS <= n <= reference.MOST_BITS:
            found.setdefault((changed, table, k, cut_operand(k, n, x, b)), {}).setdefault(tuple(answer), set()).add(n)
    for (_, table, k, begins), answers in found.items():
        if len(answers) > 1:
            return f"precision {k}, {table}, operands that begin with the bits {begins:b}: {answers}"
    lengths = [(b, answer[0], 2 * k + b, bits)
               for (_, (_, _, b), k, _), answers in found.items() for answer, bits in answers.items()]
    bad = []
    for b in (3, 4, 5):
        own = [rest for input_bits, *rest in lengths if input_bits == b]
        several = {
            "two that are cut": {number for number, cut, bits in own if len([n for n in bits if n > cut]) > 1},
            "a short one and one that is cut": {number for number, cut, bits in own if min(bits) < cut < max(bits)},
            "two short ones": {number for number, cut, bits in own if len([n for n in bits if n < cut]) > 1},
        }
        bad += [f"{which} with {b} input guard bits: {numbers}" for which, numbers in several.items()
                if numbers != {0, 5, 6}]
    return f"operands of several lengths get only the numbers of {bad}" if bad else None


def steps_of_neighbours():
    """Any two reciprocals that the program gives at one precision with the same guard bits, whatever images and lengths
    of operands they come from: that of the larger cut operand is not larger, and where the cut operands differ by d it
    is less by at most d / 2^(b-1), rounded up. With all guard bits so large a step, of more than one ulp, is met: from
    the least operand, across a node, by two forms and by two lengths."""
    given = {}  # by precision and guard bits: each cut operand with R, and the forms and lengths with which it is given
    for _, (full, a, b), k, n, x, number, _, value in reciprocals(printed()):
        if number == 0:
            given.setdefault((k, a, b), {}).setdefault((cut_operand(k, n, x, b), value), set()).add((full, n))
    met = Counter()
    for (k, a, b), found in given.items():
        for ((t, r), ways), ((after, other), other_ways) in itertools.combinations(sorted(found.items()), 2):
            step, d = r - other, after - t
            if step < 0 or (step - 1) * 2 ** (b - 1) >= d:
                return f"precision {k}, guard bits {a} and {b}: {r} at the cut operand {t}, {other} at {after}"
            if step > 1 and step * 2 ** (b - 1) >= d:
                met[a, b, "from the least"] += t == 2 ** (2 * k + b)
                met[a, b, "across a node"] += t // 2 ** (k + b) < after // 2 ** (k + b) and after % 2 ** (k + b) != 0
                met[a, b, "two forms"] += len({full for full, _ in ways | other_ways}) == 2
                met[a, b, "two lengths"] += len({n for _, n in ways | other_ways}) > 1
    kinds = ("from the least", "across a node", "two forms", "two lengths")
    few = [(a, b, kind) for a, b in script.GUARD_BITS for kind in kinds if not met[a, b, kind]]
    return f"not met were {few}" if few else None


def bound_table():
    """Each call through a bound table stands below the same one on the image itself, and is answered as that one
    was."""
    # The call on the image, and how many numbers stand before the form.
    itself = {"kept": ("node", 3), "through": ("invert", 5)}
    asked = re.split(r"\n(?! )", printed().decode())
    seen = set()
    for above, each in zip(asked, asked[1:]):
        word, _, rest = each.partition(" ")
        if word in itself:
            name, before = itself[word]
            seen.add((word, max(0, len(rest.partition("\n")[0].split(" ")) - before)))
            if above != f"{name} {rest}":
                return f"{each}, below {above}"
    wanted = {(word, more) for word in itself for more in (0, 1, 3)}  # plain words, a form, a form and guard bits
    return None if seen == wanted else f"asked were only {seen}"


# ---- the set examples

def set_image():
    """The set examples and limits of the image, of full ROMs, full words and guard bits too, and the P of 135, by the
    reference."""
    nodes = {(1, 2): [32, 22, 16], (2, 2): [128, 103, 86, 74, 64],
             (3, 2): [512, 456, 410, 373, 342, 316, 293, 274, 256], (1, 3): [64, 43, 32], (1, 4): [128, 86, 64],
             (2, 3): [256, 205, 171, 147, 128], (2, 4): [512, 410, 342, 293, 256]}
    images = {(1, PLAIN, 2): "06", (2, PLAIN, 2): "02 75 8A", (3, PLAIN, 2): "00 C8 9A 75 56 3C 25 12",
              (1, FULL, 2): "81 64 00", (2, FULL, 2): "80 67 56 4A 40", (1, PLAIN, 3): "02 C0", (1, PLAIN, 4): "01 60",
              (2, PLAIN, 3): "01 35 59 30", (2, PLAIN, 4): "00 9A 56 25", (1, FULL, 3): "80 AD 00",
              (1, FULL, 4): "80 56 40", (2, FULL, 3): "80 33 55 69 34 00"}
    for (k, a), values in nodes.items():
        if [reference.node(k, j, a) for j in range(2 ** k + 1)] != values:
            return f"the nodes of precision {k} with {a} table guard bits"
    for table, data in images.items():
        if reference.image(*table) != bytes.fromhex(data):
            return f"the image of {table}"
    two, full, three = bytes.fromhex("02758A"), bytes.fromhex("8067564A40"), bytes.fromhex("02C0")
    limits = [
        (reference.call_check(0, two), (1, 0, 0)),
        (reference.call_check(13, bytes(20000)), (1, 0, 0)),
        (reference.call_build(12, bytes(13312))[0], (0, 0, 0)),
        (reference.call_build(12, bytes(13311)), ((2, 0, 0), bytes(13311))),
        (reference.call_node(2, two, 4), (0, 0, 64)),
        (reference.call_node(2, two, 5), (3, 0, 0)),
        (reference.call_word_bytes(2, two, 1), bytes.fromhex("0275")),
        (reference.call_word_bytes(2, two, 3), bytes.fromhex("8A")),
        (reference.call_word_bytes(2, two, 4), b""),
        (reference.call_check(2, bytes.fromhex("02758B")), (6, 3, 0)),
        (reference.call_check(2, bytes.fromhex("000000")), (6, 1, 0)),
        (reference.call_check(2, bytes.fromhex("06758A")), (6, 0, 0)),
        (reference.call_build(2, bytes.fromhex("A5A5A5A5")), ((0, 0, 0), bytes.fromhex("02758A00"))),
        (reference.call_check(2, bytes.fromhex("02758A00")), (0, 0, 0)),
        (reference.call_check(2, bytes.fromhex("02758A0001")), (7, 4, 0)),
        (reference.call_check(2, bytes.fromhex("02758B01")), (6, 3, 0)),
        (reference.call_build(2, b"\xa5" * 6, FULL), ((0, 0, 0), full + b"\0")),
        (reference.call_build(2, full[:4], FULL), ((2, 0, 0), full[:4])),
        (reference.call_check(13, full, FULL), (1, 0, 0)),
        (reference.call_check(2, full, FULL), (0, 0, 0)),
        (reference.call_check(2, bytes.fromhex("8067564A41"), FULL), (6, 4, 0)),
        (reference.call_node(2, bytes.fromhex("8067564A41"), 4, FULL), (6, 4, 0)),
        (reference.call_node(2, full, 5, FULL), (3, 0, 0)),
        (reference.call_reciprocal(2, bytes.fromhex("8067564A41"), 7, 255, FULL), (6, 4, 0)),
        (reference.call_reciprocal(2, full, 7, 255, FULL), (0, 0, 16)),
        (reference.call_word_bytes(1, bytes.fromhex("816400"), 2, FULL), bytes.fromhex("6400")),
        (reference.call_word_bytes(2, full, 4, FULL), bytes.fromhex("40")),
        (reference.call_word_bytes(2, full, 5, FULL), b""),
        (reference.call_check(1, bytes.fromhex("816401"), FULL), (7, 2, 0)),
        (reference.call_check(1, bytes.fromhex("81642001"), FULL), (7, 2, 0)),
        (reference.call_check(1, bytes.fromhex("81640001"), FULL), (7, 3, 0)),
        (reference.call_image_length(12, FULL, 4, 5), 15364),
        (reference.call_image_length(12, PLAIN, 4), 14336),
        (reference.call_image_length(1, PLAIN, 3), 2),
        (reference.call_image_length(0), 0),
        (reference.call_image_length(13, FULL, 4, 5), 0),
        (reference.call_image_length(2, PLAIN, 1), 0),
        (reference.call_image_length(2, FULL, 5), 0),
        (reference.call_image_length(2, PLAIN, 2, 2), 0),
        (reference.call_image_length(2, FULL, 2, 6), 0),
        (reference.call_build(1, b"\xa5" * 3, PLAIN, 3), ((0, 0, 0), three + b"\0")),
        (reference.call_build(1, three[:1], PLAIN, 3), ((2, 0, 0), three[:1])),
        (reference.call_build(1, three, PLAIN, 1), ((18, 0, 0), three)),
        (reference.call_build(1, b"", PLAIN, 2, 6), ((18, 0, 0), b"")),
        (reference.call_build(13, b"", PLAIN, 2, 6), ((1, 0, 0), b"")),
        (reference.call_check(1, bytes.fromhex("02FF"), PLAIN, 3), (7, 1, 0)),
        (reference.call_check(1, bytes.fromhex("016F"), PLAIN, 4), (7, 1, 0)),
        (reference.call_check(2, bytes.fromhex("0135593F"), PLAIN, 3), (7, 3, 0)),
        (reference.call_check(1, three, PLAIN, 5, 3), (18, 0, 0)),
        (reference.call_node(1, bytes.fromhex("02FF"), 2, PLAIN, 3), (0, 0, 32)),
        (reference.call_node(1, three, 2, PLAIN, 3, 2), (18, 0, 0)),
        (reference.call_reciprocal(1, bytes.fromhex("02FF"), 5, 63, PLAIN, 3), (0, 0, 4)),
        (reference.call_reciprocal(1, three, 0, 63, PLAIN, 3, 6), (18, 0, 0)),
        (reference.call_word_bytes(1, three, 1, PLAIN, 3), three),
        (reference.call_word_bytes(1, three, 2, PLAIN, 3), b""),
        (reference.call_word_bytes(1, three, 1, PLAIN, 3, 2), b""),
    ]
    for number, (found, expected) in enumerate(limits):
        if found != expected:
            return f"limit {number}: found {found}, expected {expected}"
    return None if reference.point(2, 135) * 2 ** 5 == 3921 else "P of 135"


def set_reciprocals(output):
    """tests/set_examples.txt has the set examples for reciprocals, and those of short operands, full ROMs, full words,
    guard bits and steps of neighbours, as `cases` must print them, and says where their answers are from. It must be
    printed as it stands, with no line between and none after its last case."""
    examples = (ROOT / "tests" / "set_examples.txt").read_bytes()
    cases = re.findall(rb"^#.*\n(?!#)", examples, re.M)
    if len(cases) != 91:
        return f"there are {len(cases)} cases"
    below = output.split(script.MARK.encode(), 1)[1]
    return same(below[:len(examples) + 1], examples + b"#")


PRINTED_2 = b"""precision 2 bytes 3
0 128 0
1 103 39
2 86 22
3 74 10
4 64 -
"""


def set_table():
    return same(reference.table(b"2\n").encode(), PRINTED_2)


# ---- the paper's Tables 1 and 2

def paper_rows(table):
    lines = (ROOT / "tests" / f"{table}.txt").read_text().splitlines()
    return [line for line in lines if line and not line.startswith("#")]


def printed_below(heading):
    """What `cases` prints below a heading of its script, up to the next one."""
    return printed().decode().split(f"# {heading}\n", 1)[1].split("\n#", 1)[0]


def in_base_2(text):
    whole, _, fraction = text.partition(".")
    return int(whole + fraction, 2)


def table1_reference():
    for row in paper_rows("table1"):
        index, _, value = row.split(" ")
        j = in_base_2(index) - 4  # 1.xx is i = 2^k + j, in units of 1 / 2^k
        if reference.node(2, j) != in_base_2(value):
            return f"{row}: the reference has {reference.node(2, j)}"
    return None if len(paper_rows("table1")) == 4 else "the table has four rows"


def table1_program():
    """The rows of Table 1 by the node values that the program prints."""
    values = re.findall(r"^ (\d+) 0 0 (\d+)$", printed_below("Das Sarma and Matula, Table 1"), re.M)
    found = [f"1.{int(j):02b} xxxxx {int(value) // 128}.{int(value) % 128:07b}" for j, value in values]
    return None if found == paper_rows("table1") else f"found {found}"


def table2_reference():
    for row in paper_rows("table2"):
        x, value = map(int, row.split(" "))  # in units of 1 / 128, and of 1 / 32
        if reference.reciprocal(2, 7, x) != value:
            return f"{row}: the reference has {reference.reciprocal(2, 7, x)}"
    return None if len(paper_rows("table2")) == 33 else "the table has 33 rows"


def table2_program():
    """The first and last columns of Table 2 by the reciprocals that the program prints."""
    found = re.findall(r"^ (\d+) 0 0 (\d+)$", printed_below("Das Sarma and Matula, Table 2"), re.M)
    return None if [" ".join(pair) for pair in found] == paper_rows("table2") else f"found {found}"


# ---- the printed table

MIB = 2 ** 20

GOOD = {f"precision {k}": [b"%d\n" % k] for k in range(1, 13)}
GOOD.update({
    "leading zero": [b"02\n"],
    "nine digits, 2": [b"000000002\n"],
    "nine digits, 12": [b"000000012\n"],
    "in three pieces": [b"1", b"2", b"\n"],
    "in ten pieces": [bytes([byte]) for byte in b"000000003\n"],
    "the line feed by itself": [b"7", b"\n"],
})

BAD = {
    "empty": [],
    "no line feed": [b"2"],
    "line feed alone": [b"\n"],
    "two line feeds": [b"2\n\n"],
    "line feed first": [b"\n2\n"],
    "carriage return": [b"2\r\n"],
    "plus": [b"+2\n"],
    "minus": [b"-2\n"],
    "space before": [b" 2\n"],
    "space after": [b"2 \n"],
    "space within": [b"1 2\n"],
    "tab": [b"\t2\n"],
    "ten digits, 2": [b"0000000002\n"],
    "ten digits, 2 modulo 2^32": [b"4294967298\n"],
    "twenty digits, 2 modulo 2^64": [b"18446744073709551618\n"],
    "NUL": [b"\0"],
    "NUL before": [b"\x002\n"],
    "NUL after": [b"2\0\n"],
    "NUL after the line feed": [b"2\n\0"],
    "letters": [b"two\n"],
    "letter after": [b"2x\n"],
    "hex": [b"0x2\n"],
    "fraction": [b"2.0\n"],
    "slash": [b"/\n"],
    "colon": [b":\n"],
    "high byte": [b"\xb2\n"],
    "digit of another script": ["٢\n".encode()],
    "0": [b"0\n"],
    "nine zeros": [b"000000000\n"],
    "13": [b"13\n"],
    "258": [b"258\n"],
    "999999999": [b"999999999\n"],
    "two lines": [b"2\n3\n"],
    "1 MiB of digits": [b"2" * MIB],
    "1 MiB of zeros, then 2": [b"0" * MIB + b"2\n"],
    "2, then 1 MiB of NUL": [b"2\n" + bytes(MIB)],
    "1 MiB of line feeds": [b"\n" * MIB],
    "1 MiB of lines": [b"2\n" * (MIB // 2)],
    "a second line feed, later": [b"2\n", b"\n"],
    "a digit after the line feed, later": [b"2\n", b"2"],
    "ten digits in two pieces": [b"00000", b"00002\n"],
    "no line feed, in two pieces": [b"1", b"2"],
}
# A buffer's end must not be taken for the input's: lengths about the sizes that a reader may use.
for length in (1, 2, 6, 7, 16, 4086, 4087, 65526, 65527):
    BAD[f"nine digits, a line feed, {length} bytes more"] = [b"000000002\n" + b"\n" * length]
    BAD[f"2, a line feed, {length} bytes more, later"] = [b"2\n", bytes(length)]
    BAD[f"{length + 9} zeros, then 2"] = [b"0" * (length + 9) + b"2\n"]
# One byte more than a good request of each length, at once and in two pieces.
for digits in range(1, 10):
    request = b"2".rjust(digits, b"0") + b"\n"
    for name, more in {"a line feed": b"\n", "a digit": b"2", "NUL": b"\0", "a space": b" "}.items():
        BAD[f"a request of {digits + 1} bytes and {name}"] = [request + more]
        BAD[f"a request of {digits + 1} bytes and {name}, later"] = [request, more]


def printed_table(pieces, refused):
    expected = reference.table(b"".join(pieces)).encode()
    if (expected == b"refused 1\n") != refused:
        return f"the reference says {expected[:40]!r}"
    return same(run("print_table", pieces, 0.02 if len(pieces) > 1 else 0.0), expected)


# How a read or a write fails: standard input and output as a shell sets them before the program starts.
FAILS = {
    "input closed": "<&-",
    "input a folder": "</",
    "output closed": "<<< 2 >&-",
    "output full": "<<< 2 >/dev/full",
}


def printed_table_fails(how):
    """The program ends with status 1 and a message, and writes nothing else."""
    done = subprocess.run(["bash", "-c", f'exec "$0" {FAILS[how]}', program("print_table")], capture_output=True,
                          stdin=subprocess.DEVNULL, timeout=60)
    if done.returncode != 1 or done.stdout or not re.fullmatch(rb"Error: .+\n", done.stderr):
        return f"exit status {done.returncode}, output {done.stdout[:40]!r}, standard error {done.stderr[:80]!r}"
    return None


def printed_set_table():
    return same(run("print_table", [b"2\n"]), PRINTED_2)


def one_command():
    """./print-table 2, which the README has a newcomer type, started in another folder and by a link from there."""
    with tempfile.TemporaryDirectory() as folder:
        link = pathlib.Path(folder) / "table"
        link.symlink_to(ROOT / "print-table")
        done = subprocess.run([link, "2"], cwd="/", stdin=subprocess.DEVNULL, capture_output=True, timeout=3600)
    return same(done.stdout, PRINTED_2) or (f"exit status {done.returncode}" if done.returncode else None)


def tests():
    yield "set examples: the image, its limits and P of 135, by the reference", set_image
    yield "set examples: reciprocals, by the reference", lambda: set_reciprocals(expected())
    yield "set examples: reciprocals, by the program", lambda: set_reciprocals(printed())
    yield "set examples: the printed table of precision 2, by the reference", set_table
    yield "cases: the stored script below its mark is what tests/script.py writes", stored_script
    yield "cases: the stored output is what the reference writes", stored_output
    yield "cases: the program prints what the reference writes", printed_output
    for seed in range(12):
        yield f"cases: 400 random lines, seed {seed}", lambda seed=seed: random_scripts(seed)
    yield "cases: each reciprocal given is less than an ulp off", less_than_an_ulp
    yield "cases: operands with the same first 2k + b fraction bits get the same answer", bits_to_the_right
    yield ("cases: steps of neighbours, between any two reciprocals at one precision with the same guard bits",
           steps_of_neighbours)
    yield "cases: a bound table gives what the calls on its image give", bound_table
    yield "Das Sarma and Matula, Table 1: the reference", table1_reference
    yield "Das Sarma and Matula, Table 1: the program", table1_program
    yield "Das Sarma and Matula, Table 2: the reference", table2_reference
    yield "Das Sarma and Matula, Table 2: the program", table2_program
    yield "print_table: the set example, precision 2", printed_set_table
    yield "print-table: one command prints the table of precision 2", one_command
    for name, pieces in GOOD.items():
        yield f"print_table: {name}", lambda pieces=pieces: printed_table(pieces, False)
    for name, pieces in BAD.items():
        yield f"print_table refuses: {name}", lambda pieces=pieces: printed_table(pieces, True)
    for how in FAILS:
        yield f"print_table fails: {how}", lambda how=how: printed_table_fails(how)
