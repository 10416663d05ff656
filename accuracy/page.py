"""The tables of docs/ACCURACY.md, and the page with them in their place."""
from decimal import Decimal, localcontext
from fractions import Fraction

import measuring

PAGE = measuring.ROOT / "docs" / "ACCURACY.md"
BEGIN, END = "<!-- measured: accuracy/run writes this -->\n", "<!-- end of measured -->\n"

# The paper, Das Sarma and Matula, in Table 4: percentage of inputs not RN, by g_t and g_i, which are a and b, and by
# k. What stands on the page is at k = 8, or at 2 and 3.
TABLE_4 = {
    (2, 3): {2: "8.419", 3: "8.896", 4: "7.405", 5: "7.851", 6: "7.772", 7: "7.367", 8: "7.535"},
    (2, 4): {8: "7.119"},
    (3, 3): {8: "6.078"},
}
AROUND_80 = range(4, 13)  # the paper, section 4: reciprocals of 8 to 24 bits
GUARDED = 8  # the precision at which every choice of guard bits is measured


def error(pair):
    """An error to six places, and as the fraction that it is."""
    exact = Fraction(*pair)
    return f"{measuring.decimal(exact, exact, 6)}={pair[0]}/{pair[1]}"


def lemma_7(row):
    """The paper's bound on the error before R is chopped, at g_t = a and g_i = b."""
    bound = (Fraction(1, 2) - Fraction(3, 2 ** (row.k + 2)) + Fraction(1, 2 ** (2 * row.k))
             + Fraction(1, 2 ** row.a) + Fraction(1, 2 ** (row.b - 1)))
    return measuring.decimal(bound, bound, 6)


def mean_error(row):
    """Between which two numbers lies the mean of R less the mean of the exact reciprocals, which is 2^(2k+1) times the
    natural logarithm of 2."""
    with localcontext() as context:
        context.prec = 50
        log = Fraction(Decimal(2).ln())
    near = Fraction(1, 10 ** 40)
    return [Fraction(row.sum, row.operands) - 2 ** (2 * row.k + 1) * end for end in (log + near, log - near)]


def percent(low, high):
    return measuring.decimal(100 * low, 100 * high, 3)


def compensated(row):
    """The share of nearest results in percent by the paper's Table 4, with compensation, and None where it has none."""
    others = TABLE_4.get((row.a, row.b), {}).get(row.k)
    return others and 100 - Decimal(others)


def errors(row):
    return [error(row.below), error(row.above), error(row.limit), lemma_7(row), measuring.decimal(*mean_error(row), 4)]


def shares(row, *beside):
    return [row.operands, percent(*measuring.share(row)), *beside, compensated(row) or "–",
            percent(*[Fraction(row.nearest, row.operands)] * 2)]


def step_limit(row, d):
    """What no step of d is above: d / 2^(b-1), rounded up."""
    return -(-d // 2 ** (row.b - 1))


def step_heads(rows, piece):
    """The d at which steps are measured, as heads of columns. The last is a whole piece, which has another length in
    another table."""
    first, *others = [[step.d for step in row.steps[:-1]] for row in rows]
    assert all(other == first for other in others), f"steps are measured at {[first, *others]}"
    return [f"d = {first[0]}", *first[1:], piece]


def largest_steps(row):
    return [step.largest if step.largest is not None else "–" for step in row.steps]


def largest_of_limits(row):
    return [f"{step.largest}/{step_limit(row, step.d)}" for step in row.steps]


def table(head, rows):
    lines = [head, ["---:"] * len(head), *rows]
    return "".join("| " + " | ".join(map(str, line)) + " |\n" for line in lines)


def tables():
    usual, guarded = measuring.measured(), measuring.measured(GUARDED)
    of_errors = ["largest below", "above, at cut operands", "above, approached", "paper, Lemma 7", "mean error"]
    of_shares = ["cut operands", "of all operands", "paper, Table 4", "of cut operands"]
    return ("Errors in ulps, with two table guard bits and three input guard bits:\n\n"
            + table(["k", *of_errors], [[row.k, *errors(row)] for row in usual])
            + "\nNearest results in percent, with the same:\n\n"
            + table(["k", *of_shares[:2], "paper, section 4", *of_shares[2:]],
                    [[row.k, *shares(row, "around 80" if row.k in AROUND_80 else "–")] for row in usual])
            + f"\nErrors in ulps at k = {GUARDED}, by table guard bits a and input guard bits b:\n\n"
            + table(["a, b", *of_errors], [[f"{row.a}, {row.b}", *errors(row)] for row in guarded])
            + f"\nNearest results in percent at k = {GUARDED}:\n\n"
            + table(["a, b", *of_shares], [[f"{row.a}, {row.b}", *shares(row)] for row in guarded])
            + "\nLargest steps of d in ulps, with two table guard bits and three input guard bits. "
            + "The first row is the limit,\nd / 4 rounded up:\n\n"
            + table(["k", *step_heads(usual, "2^(k+3)")],
                    [["limit", *[step_limit(usual[0], step.d) for step in usual[0].steps[:-1]], "2^(k+1)"],
                     *[[row.k, *largest_steps(row)] for row in usual]])
            + f"\nLargest steps of d in ulps at k = {GUARDED}, written as step/limit; "
            + "the limit is d / 2^(b-1) rounded up:\n\n"
            + table(["a, b", *step_heads(guarded, f"2^({GUARDED}+b)")],
                    [[f"{row.a}, {row.b}", *largest_of_limits(row)] for row in guarded]))


def page(text):
    """The page with the tables as they are measured now."""
    before, rest = text.split(BEGIN)
    after = rest.split(END)[1]
    return before + BEGIN + "\n" + tables() + "\n" + END + after
