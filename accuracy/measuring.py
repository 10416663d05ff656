"""Builds accuracy/measure.c over the library, runs it and reads what it prints."""
import functools
import pathlib
import subprocess
import sys
from collections import namedtuple
from fractions import Fraction

ROOT = pathlib.Path(__file__).resolve().parent.parent
sys.path.insert(0, str(ROOT / "tests"))

from archives import archive  # noqa: E402

PROGRAM = ROOT / "target" / "accuracy" / "measure"
PARTS = 2 ** 32  # lengths are printed in these parts of the distance from one cut operand to the next

# What is measured of a table. An error is (over, under): over / under ulps, found at X = under with 2k + b fraction
# bits. Of steps there is a list.
Measured = namedtuple("Measured", "k a b operands sum below above limit exact nearest length edges steps")

# The steps of d: the largest, the first t with it, and the least. All three are None where no two cut operands lie so
# far apart.
Steps = namedtuple("Steps", "d largest at least")


def command(*words):
    done = subprocess.run(words, cwd=ROOT, stdin=subprocess.DEVNULL, stdout=subprocess.PIPE, stderr=subprocess.STDOUT,
                          text=True)
    assert done.returncode == 0, f"{words[0]} ended with status {done.returncode}: {done.stdout[-400:]}"


@functools.cache
def program():
    """The measuring program, built now."""
    PROGRAM.parent.mkdir(parents=True, exist_ok=True)
    command("gcc", "-std=c11", "-O2", "-Wall", "-Wextra", "-Wpedantic", "-Werror", "-Ic/include", "-o", PROGRAM,
            "accuracy/measure.c", archive())
    return PROGRAM


def lines(*words):
    done = subprocess.run([program(), *words], stdin=subprocess.DEVNULL, capture_output=True, text=True)
    assert done.returncode == 0, done.stderr.strip() or f"the measuring program ended with status {done.returncode}"
    return [line.split(" ") for line in done.stdout.splitlines()]


def figure(text):
    """A whole number, the pair of an error, or a list of Steps."""
    if "," in text:
        return [Steps(int(one.split("/")[0]), None, None, None) if "none" in one else Steps(*map(int, one.split("/")))
                for one in text.split(",")]
    return tuple(map(int, text.split("/"))) if "/" in text else int(text)


@functools.cache
def measured(*words):
    """A Measured for each precision, over all its cut operands, with 2 and 3 guard bits; where a precision is named,
    for each choice of them at it."""
    names, *rows = lines(*map(str, words))
    assert tuple(names) == Measured._fields, f"the columns are {names}"
    return [Measured(*map(figure, row)) for row in rows]


@functools.cache
def sweep(k):
    """The values of the nodes of precision k, and each cut operand with its R."""
    rows = lines("sweep", str(k))
    return ([int(value) for kind, _, value in rows if kind == "node"],
            [(int(t), int(ulps)) for kind, t, ulps in rows if kind == "cut"])


def decimal(low, high, places):
    """What every number from low to high is to these places, which must be the same."""
    rounded = {round(end * 10 ** places) for end in (low, high)}
    assert len(rounded) == 1, f"{places} places are not settled between {float(low)} and {float(high)}"
    count = rounded.pop()
    sign, digits = "-" if count < 0 else "", f"{abs(count):0{places + 1}d}"
    return f"{sign}{digits[:-places]}.{digits[-places:]}"


def share(row):
    """Between which two numbers lies the share of all operands, as points of a line, at which R is nearest."""
    return tuple(Fraction(row.length + off, row.operands * PARTS) for off in (-row.edges, row.edges))
