"""Tests of docs/ACCURACY.md: its tables and pictures are what is measured now, and what is measured is what fractions
give."""
import math
import re
import sys
from fractions import Fraction
from itertools import zip_longest

import reference
from programs import ROOT, same

sys.path.insert(0, str(ROOT / "accuracy"))

import measuring  # noqa: E402
import page  # noqa: E402
import pictures  # noqa: E402

DISTANCES = [*range(1, 10), 16, 100]  # steps of these d are measured, and of a whole piece, 2^(k+b)


def tables_are_measured():
    text = page.PAGE.read_text()
    return same(text, page.page(text))


def pictures_are_drawn():
    drawn = pictures.pictures()
    stored = {path.name for path in pictures.FOLDER.iterdir()}
    if stored != set(drawn):
        return f"docs/pictures has {sorted(stored)}"
    differ = ((name, same((pictures.FOLDER / name).read_text(), svg)) for name, svg in drawn.items())
    return next((f"{name}, {why}" for name, why in differ if why), None)


def steps_by_fractions(given, d):
    """The Steps of d among these reciprocals, by their cut operands."""
    found = [(given[t] - given[t + d], t) for t in given if t + d in given]
    largest = max(found, default=(None,))[0]
    first = min((t for step, t in found if step == largest), default=None)
    return measuring.Steps(d, largest, first, min(found, default=(None,))[0])


def by_fractions(k, a=2, b=3):
    """What is measured of a table, from the reference's reciprocals; the share of all operands in place of its length,
    and no edges."""
    n = 2 * k + b
    given = {t: reference.reciprocal(k, n, t, a, b) for t in range(2 ** n, 2 ** (n + 1))}
    exact = {t: Fraction(2 ** n, t) * 2 ** (2 * k + 1) for t in range(2 ** n, 2 ** (n + 1) + 1)}
    below = max((exact[t] - given[t], -t) for t in given)
    above = max((given[t] - exact[t], -t) for t in given)
    limit = max((given[t] - exact[t + 1], -(t + 1)) for t in given)
    half = Fraction(1, 2)
    nearest = sum(abs(given[t] - exact[t]) < half for t in given)
    scale = exact[2 ** n] * 2 ** n
    length = sum(max(0, min(t + 1, scale / (given[t] - half)) - max(t, scale / (given[t] + half))) for t in given)
    steps = [steps_by_fractions(given, d) for d in (*DISTANCES, 2 ** (k + b))]
    return measuring.Measured(k, a, b, len(given), sum(given.values()), below, above, limit,
                              sum(given[t] == exact[t] for t in given), nearest, length / len(given), None, steps)


def step_limit(d, b=3):
    """What no step of d is above."""
    return math.ceil(Fraction(d, 2 ** (b - 1)))


def fractions_differ(found):
    """How what is measured of a table differs from what fractions give."""
    expected = by_fractions(found.k, found.a, found.b)
    errors = {name: (Fraction(*getattr(found, name)), -getattr(found, name)[1]) for name in ("below", "above", "limit")}
    low, high = measuring.share(found)
    bad = [name for name, pair in errors.items() if pair != getattr(expected, name)]
    bad += [name for name in ("operands", "sum", "exact", "nearest", "steps")
            if getattr(found, name) != getattr(expected, name)]
    bad += [] if low < expected.length < high and high - low < Fraction(1, 10 ** 8) else ["length"]
    bad += [f"the limit of steps of {step.d}" for step in expected.steps
            if step.largest is not None and not 0 <= step.least <= step.largest <= step_limit(step.d, found.b)]
    return f"{bad}: found {found}, expected {expected}" if bad else None


def measured_by_fractions(k):
    found = measuring.measured()[k - 1]
    return f"the precision: found {found}" if found[:3] != (k, 2, 3) else fractions_differ(found)


def guard_bits_by_fractions(k):
    """Each choice of guard bits is measured once, and is what fractions give."""
    rows = measuring.measured(k)
    found = [row[:3] for row in rows]
    if found != [(k, a, b) for a in (2, 3, 4) for b in (3, 4, 5)]:
        return f"found {found}"
    return next((why for row in rows if (why := fractions_differ(row))), None)


def digits(k):
    """The figures in the rows of precision k on the page: whole numbers and decimals, without the fractions."""
    rows = re.findall(rf"^\| {k} \| (.*) \|$", page.PAGE.read_text(), re.M)
    return [Fraction(cell.split("=")[0]) if re.match(r"[-\d]", cell) else None
            for row in rows for cell in row.split(" | ")]


def page_by_fractions(k):
    """Each figure that was measured is within half of its last place."""
    expected = by_fractions(k)
    mean = Fraction(math.fsum(reference.reciprocal(k, 2 * k + 3, t) - 2 ** (4 * k + 4) * math.log1p(1 / t)
                              for t in range(expected.operands, 2 * expected.operands))) / expected.operands
    below, above, limit, _, lean, operands, of_all, _, _, of_cut, *steps = digits(k)
    pairs = [(below, expected.below[0], 6), (above, expected.above[0], 6), (limit, expected.limit[0], 6),
             (lean, mean, 4), (operands, expected.operands, 0), (of_all, 100 * expected.length, 3),
             (of_cut, 100 * Fraction(expected.nearest, expected.operands), 3)]
    bad = [f"{float(found)} for {float(exact)}" for found, exact, places in pairs
           if abs(found - exact) * 10 ** places > Fraction(1, 2)]
    if steps != [step.largest for step in expected.steps]:
        bad.append(f"steps {list(map(str, steps))} for {expected.steps}")
    return "; ".join(bad) or None


def rows_below(head):
    """The cells of each row of the table on the page that has these heads."""
    _, _, below = page.PAGE.read_text().partition("| " + " | ".join(head) + " |\n")
    lines = below.partition("\n\n")[0].splitlines()[1:]
    return [line.strip("| ").split(" | ") for line in lines]


def from_the_least(k, d, a=2, b=3):
    """The step of d from the least operand, None where no two cut operands lie so far apart. Where d is below 2^k it is
    the limit."""
    n = 2 * k + b
    if d >= 2 ** n:
        return None
    step = reference.reciprocal(k, n, 2 ** n, a, b) - reference.reciprocal(k, n, 2 ** n + d, a, b)
    limit = step_limit(d, b)
    assert 0 <= step <= limit and (d >= 2 ** k or step == limit), f"k = {k}, a = {a}, b = {b}, d = {d}: {step}"
    return step


def steps_from_the_least():
    """At every precision, and at k = 8 with each choice of guard bits, the largest step of each d is that from the
    least operand. On the page it stands with its limit."""
    rows = [*measuring.measured(), *measuring.measured(8)]
    for row in rows:
        distances = [*DISTANCES, 2 ** (row.k + row.b)]
        found = [step[:3] for step in row.steps]
        steps = [from_the_least(row.k, d, row.a, row.b) for d in distances]
        expected = [(d, step, 2 ** (2 * row.k + row.b) if step is not None else None)
                    for d, step in zip(distances, steps)]
        if found != expected:
            return f"k = {row.k}, a = {row.a}, b = {row.b}: found {found}, expected {expected}"

    heads = ["d = 1", *map(str, DISTANCES[1:])]
    by_k = [["limit", *[str(step_limit(d)) for d in DISTANCES], "2^(k+1)"]]
    for k in range(1, 13):
        steps = [from_the_least(k, d) for d in (*DISTANCES, 2 ** (k + 3))]
        by_k.append([str(k), *["–" if step is None else str(step) for step in steps]])
    by_bits = [[f"{a}, {b}", *[f"{from_the_least(8, d, a, b)}/{step_limit(d, b)}" for d in (*DISTANCES, 2 ** (8 + b))]]
               for a in (2, 3, 4) for b in (3, 4, 5)]
    tables = (rows_below(["k", *heads, "2^(k+3)"]), by_k), (rows_below(["a, b", *heads, "2^(8+b)"]), by_bits)
    bad = [f"found {row}, expected {right}" for found, expected in tables
           for row, right in zip_longest(found, expected) if row != right]
    return "; ".join(bad) or None


def least_steps():
    """The sentence of the page on the least steps is what is measured, at every k; at k = 1 no two cut operands are 100
    apart."""
    least = {(row.k, "piece" if step.d == 2 ** (row.k + row.b) else step.d): step.least
             for row in measuring.measured() for step in row.steps}
    hundred = [least[k, 100] for k in range(2, 13)]
    alike = (all(found == 0 for (_, d), found in least.items() if d != "piece" and d <= 9)
             and all(found == 1 for (_, d), found in least.items() if d == 16)
             and all(found == 2 ** (k - 1) for (k, d), found in least.items() if d == "piece")
             and least[1, 100] is None and set(hundred[2:]) == {hundred[2]})
    if not alike:
        return f"measured are {least}"
    sentence = ("The least steps found at b = 3 are 0 for d up to 9, 1 for 16 and 2^(k-1) for a whole piece; "
                f"for 100 they are {hundred[0]} at k = 2, {hundred[1]} at k = 3 and {hundred[2]} from k = 4 on.")
    return None if sentence in " ".join(page.PAGE.read_text().split()) else f"the page does not say: {sentence}"


def tests():
    yield "accuracy: the tables on the page are what is measured now, over all cut operands", tables_are_measured
    yield "accuracy: the pictures are what is drawn now", pictures_are_drawn
    yield ("accuracy: the largest steps are those from the least operand, and stand on the page with their limits",
           steps_from_the_least)
    yield "accuracy: the least steps are those that the page names", least_steps
    for k in range(1, 5):
        yield (f"accuracy: what is measured at precision {k} is what fractions give",
               lambda k=k: measured_by_fractions(k))
        yield f"accuracy: the page's figures of precision {k} are what fractions give", lambda k=k: page_by_fractions(k)
    for k in range(1, 4):
        yield (f"accuracy: what is measured with each choice of guard bits at precision {k} is what fractions give",
               lambda k=k: guard_bits_by_fractions(k))
