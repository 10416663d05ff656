"""Draws docs/pictures/*.svg from what accuracy/measure.c prints."""
from fractions import Fraction

import measuring
import page

FOLDER = measuring.ROOT / "docs" / "pictures"

INK, GREY, PALE, BLUE, ORANGE, GREEN = "#222222", "#666666", "#d5d5d5", "#1f5fa8", "#cc5500", "#2b7a4b"


class Plot:
    """A picture with a left and a lower axis; points are given in the numbers of the axes."""
    WIDTH, LEFT, RIGHT = 960, 92, 936

    def __init__(self, title, x, y, height=560):
        self.x = x
        self.panel(y, 60, height - 120)
        self.parts = [
            f'<svg xmlns="http://www.w3.org/2000/svg" viewBox="0 0 {self.WIDTH} {height}"'
            f' width="{self.WIDTH}" height="{height}"'
            ' font-family="DejaVu Sans, Verdana, Arial, sans-serif" font-size="16">',
            f"<title>{title}</title>",
            f'<rect width="{self.WIDTH}" height="{height}" fill="#ffffff"/>']
        self.text(self.WIDTH / 2, 32, title, size=19)

    def panel(self, y, top, bottom):
        """What follows stands between these two, with a left axis of its own."""
        self.y, self.top, self.bottom = y, top, bottom

    def place(self, x, y):
        across = (x - self.x[0]) / (self.x[1] - self.x[0])
        up = (y - self.y[0]) / (self.y[1] - self.y[0])
        return self.LEFT + across * (self.RIGHT - self.LEFT), self.bottom - up * (self.bottom - self.top)

    def text(self, left, top, words, anchor="middle", color=INK, size=16, turn=""):
        self.parts.append(f'<text x="{left:.2f}" y="{top:.2f}" text-anchor="{anchor}" fill="{color}"'
                          f' font-size="{size}"{turn}>{words}</text>')

    def line(self, points, color, width, dashes=""):
        joined = " ".join("{:.2f},{:.2f}".format(*self.place(x, y)) for x, y in points)
        self.parts.append(f'<polyline points="{joined}" fill="none" stroke="{color}" stroke-width="{width}"'
                          + (f' stroke-dasharray="{dashes}"' if dashes else "") + "/>")

    def dot(self, x, y, color, fill, radius=5.5):
        left, top = self.place(x, y)
        self.parts.append(f'<circle cx="{left:.2f}" cy="{top:.2f}" r="{radius}" fill="{fill}" stroke="{color}"'
                          ' stroke-width="2"/>')

    def label(self, x, y, down, words, color):
        """A figure above or below a point, on white, so that no line runs through it."""
        left, top = self.place(x, y)
        self.parts.append(f'<rect x="{left - 24:.2f}" y="{top + down - 12:.2f}" width="48" height="15"'
                          ' fill="#ffffff"/>')
        self.text(left, top + down, words, color=color, size=14)

    def level(self, y, color, width, dashes=""):
        self.line([(self.x[0], y), (self.x[1], y)], color, width, dashes)

    def ticks(self, across, up):
        """Both axes with a label at each of these numbers."""
        for x, label in across:
            self.text(self.place(x, self.y[0])[0], self.bottom + 24, label)
        for y, label in up:
            self.text(self.LEFT - 10, self.place(self.x[0], y)[1] + 5.5, label, "end")
        self.line([(self.x[0], self.y[1]), (self.x[0], self.y[0]), (self.x[1], self.y[0])], INK, 1.5)

    def names(self, across, up):
        middle = (self.top + self.bottom) / 2
        self.text((self.LEFT + self.RIGHT) / 2, self.bottom + 52, across)
        self.text(26, middle, up, turn=f' transform="rotate(-90 26 {middle:.2f})"')

    def sample(self, column, row, words, color, fill=None, dashes=""):
        """An entry of the legend: a dot where it has a fill, else a line."""
        left, top = self.LEFT + column, self.bottom + 82 + 26 * row
        if fill:
            self.parts.append(f'<circle cx="{left + 16}" cy="{top - 5}" r="5.5" fill="{fill}" stroke="{color}"'
                              ' stroke-width="2"/>')
        else:
            self.parts.append(f'<line x1="{left}" y1="{top - 5}" x2="{left + 32}" y2="{top - 5}" stroke="{color}"'
                              ' stroke-width="3"'
                              + (f' stroke-dasharray="{dashes}"' if dashes else "") + "/>")
        self.text(left + 42, top, words, "start")

    def svg(self):
        return "\n".join([*self.parts, "</svg>"]) + "\n"


def runs(points):
    """Cut operands in a row with the same R, as (first, last, R)."""
    found = []
    for t, ulps in points:
        if found and found[-1][2] == ulps:
            found[-1] = (found[-1][0], t, ulps)
        else:
            found.append((t, t, ulps))
    return found


def between(low, high, steps):
    return [low + (high - low) * step / steps for step in range(steps + 1)]


def error_picture(k):
    """R less the exact reciprocal, for X all along the line, and the straight lines between the nodes less the same."""
    nodes, points = measuring.sweep(k)
    one = 2 ** (2 * k + 3)  # a cut operand that stands for 1
    steps = 2 ** k

    def exact(x):
        """The exact reciprocal of X / 2^n, in ulps."""
        return 2 ** (2 * k + 1) / x

    plot = Plot(f"Error of R over one sweep of X, k = {k}", (1, 2), (-1.12, 1.12))

    for j in range(steps + 1):
        plot.line([(1 + j / steps, -1.12), (1 + j / steps, 1.12)], PALE, 1.5)
    plot.level(0, GREY, 1)
    for y in (-1, 1):
        plot.level(y, INK, 1.5, "9 5")
    for y in (-0.5, 0.5):
        plot.level(y, GREY, 1.5, "2 4")

    for j in range(steps):
        start, end = nodes[j] / 4, nodes[j + 1] / 4  # four table units are an ulp
        xs = between(1 + j / steps, 1 + (j + 1) / steps, 48)
        plot.line([(x, start + (end - start) * step / 48 - exact(x)) for step, x in enumerate(xs)], GREEN, 1.5, "6 4")
    for first, last, ulps in runs(points):
        ends = [first / one, (last + 1) / one]
        halves = [2 ** (2 * k + 1) / (ulps + half) for half in (0.5, -0.5)]  # where the error is 1/2 below, and above
        cuts = [ends[0], *(x for x in halves if ends[0] < x < ends[1]), ends[1]]
        for low, high in zip(cuts, cuts[1:]):
            nearest = abs(ulps - exact((low + high) / 2)) < 0.5
            plot.line([(x, ulps - exact(x)) for x in between(low, high, 12)], BLUE if nearest else ORANGE, 3)
    for j, value in enumerate(nodes):
        plot.dot(1 + j / steps, value / 4 - exact(1 + j / steps), GREEN, "#ffffff")

    plot.ticks([(1 + j / steps, f"{1 + j / steps:g}") for j in range(steps + 1)],
               [(-1, "−1"), (-0.5, "−½"), (0, "0"), (0.5, "½"), (1, "1")])
    plot.names("the operand, X / 2ⁿ", f"R − exact, in ulps of 1/{2 ** (2 * k + 1)}")
    plot.sample(0, 0, "R, nearest", BLUE)
    plot.sample(0, 1, "R, not nearest", ORANGE)
    plot.sample(200, 0, "a node, rounded up", GREEN, "#ffffff")
    plot.sample(200, 1, "the line between nodes, before it is chopped", GREEN, dashes="6 4")
    plot.sample(640, 0, "the proved bound", INK, dashes="9 5")
    plot.sample(640, 1, "half an ulp", GREY, dashes="2 4")
    return plot.svg()


def shares_picture():
    """The share of nearest results at each precision, beside the paper's figures."""
    plot = Plot("Share of nearest results", (0.5, 12.5), (70, 96))
    for y in range(70, 96, 5):
        plot.level(y, PALE, 1)
    rows = measuring.measured()
    of_all = [(row.k, 100 * float(sum(measuring.share(row)) / 2)) for row in rows]
    of_cut = [(row.k, 100 * row.nearest / row.operands) for row in rows]
    table_4 = [(row.k, float(page.compensated(row))) for row in rows if page.compensated(row)]

    plot.line([(page.AROUND_80[0] - 0.4, 80), (page.AROUND_80[-1] + 0.4, 80)], ORANGE, 2, "9 5")
    for points, color, fill in ((of_all, BLUE, BLUE), (of_cut, GREY, "#ffffff"), (table_4, ORANGE, "#ffffff")):
        plot.line(points, color, 1.2)
        for x, y in points:
            plot.dot(x, y, color, fill)

    plot.ticks([(row.k, row.k) for row in rows], [(y, f"{y}%") for y in range(70, 96, 5)])
    plot.names("precision k", "nearest results")
    plot.sample(0, 0, "measured, of all operands", BLUE, BLUE)
    plot.sample(0, 1, "measured, of cut operands alone", GREY, "#ffffff")
    plot.sample(400, 0, "the paper: around 80%, for k = 4 to 12", ORANGE, dashes="9 5")
    plot.sample(400, 1, "the paper, Table 4: with compensation", ORANGE, "#ffffff")
    return plot.svg()


def guard_bits_picture(k):
    """The errors and the share of nearest results by guard bits, beside the paper's figures."""
    rows = measuring.measured(k)
    across = {(row.a, row.b): 4 * row.a + row.b for row in rows}  # the choices with the same a side by side
    labels = [(x, f"{a}, {b}") for (a, b), x in across.items()]
    ends = min(across.values()) - 0.8, max(across.values()) + 0.8
    plot = Plot(f"Errors and nearest results by guard bits, k = {k}", ends, (-1.25, 1.25), 780)

    plot.panel((-1.25, 1.25), 60, 360)
    plot.level(0, GREY, 1)
    for y in (-1, 1):
        plot.level(y, INK, 1.5, "9 5")
    for y in (-0.5, 0.5):
        plot.level(y, GREY, 1.5, "2 4")
    for row in rows:
        x = across[row.a, row.b]
        below, above, mean = -Fraction(*row.below), Fraction(*row.limit), sum(page.mean_error(row)) / 2
        plot.line([(x, below), (x, above)], BLUE, 16)
        plot.dot(x, mean, BLUE, "#ffffff")
        plot.label(x, 1, -8, measuring.decimal(above, above, 3), BLUE)
        plot.label(x, -1, 19, measuring.decimal(below, below, 3).replace("-", "−"), BLUE)
    plot.ticks(labels, [(-1, "−1"), (-0.5, "−½"), (0, "0"), (0.5, "½"), (1, "1")])
    plot.names("", "R − exact, in ulps")

    plot.panel((60, 100), 420, 660)
    for y in range(60, 101, 10):
        plot.level(y, PALE, 1)
    of_all = {(row.a, row.b): 100 * float(sum(measuring.share(row)) / 2) for row in rows}
    table_4 = {(row.a, row.b): float(page.compensated(row)) for row in rows if page.compensated(row)}
    for shares, color, fill in ((of_all, BLUE, BLUE), (table_4, ORANGE, "#ffffff")):
        for a in (2, 3, 4):
            plot.line([(across[pair], share) for pair, share in shares.items() if pair[0] == a], color, 1.2)
        for pair, share in shares.items():
            plot.label(across[pair], share, -12, f"{share:.1f}%", color)
            plot.dot(across[pair], share, color, fill)
    plot.ticks(labels, [(y, f"{y}%") for y in range(60, 101, 10)])
    plot.names("table guard bits a, input guard bits b", "nearest results")
    plot.sample(0, 0, "from the largest error below to the largest above", BLUE)
    plot.sample(484, 0, "the mean", BLUE, "#ffffff")
    plot.sample(640, 0, "the proved bound", INK, dashes="9 5")
    plot.sample(0, 1, "nearest, measured, of all operands", BLUE, BLUE)
    plot.sample(400, 1, "the paper, Table 4: with compensation", ORANGE, "#ffffff")
    return plot.svg()


def staircase_picture(k, inside, across):
    """R over the first two pieces, the exact reciprocal and the lines between the nodes. Of two pairs t, t + d one lies
    inside a piece and one across the node."""
    nodes, points = measuring.sweep(k)
    given = dict(points)
    piece = 2 ** (k + 3)
    start, node, end = (points[0][0] + j * piece for j in range(3))
    low, high = given[end] - 1, given[start] + 3
    fives = [y for y in range(low, given[start]) if y % 5 == 0]
    plot = Plot(f"R over the first two pieces, k = {k}", (start, end), (low, high), 640)

    for y in fives:
        plot.level(y, PALE, 1)
    plot.line([(node, low), (node, high)], GREY, 1.5, "2 4")
    plot.line([(t, start * given[start] / t) for t in between(start, end, 256)], ORANGE, 1.5)
    plot.line([(start + j * piece, nodes[j] / 4) for j in range(3)], GREEN, 1.5, "6 4")  # four table units are an ulp
    plot.line([(t, ulps) for first, last, ulps in runs(points) if first < end for t in (first, min(last + 1, end))],
              BLUE, 2.5)
    for j in range(3):
        plot.dot(start + j * piece, nodes[j] / 4, GREEN, "#ffffff")
    for t, d, where in ((*inside, "inside a piece"), (*across, "across the node")):
        assert (t < node < t + d) == (where == "across the node"), f"{t} and {t + d} do not lie {where}"
        plot.line([(t, given[t]), (t + d, given[t]), (t + d, given[t + d])], INK, 1.5)
        for end_of_step in (t, t + d):
            plot.dot(end_of_step, given[end_of_step], INK, INK, 3.5)
        left, top = plot.place(t + d, given[t])
        plot.text(left + 10, top - 21, f"t = {t} and {t + d}: R = {given[t]} and {given[t + d]}", "start", size=14)
        plot.text(left + 10, top - 3, f"{where}, the step of {d} is {given[t] - given[t + d]}", "start", size=14)

    plot.ticks([(t, t) for t in range(start, end + 1, piece // 4)], [(y, y) for y in fives])
    plot.names("the cut operand t", f"ulps of 1/{2 ** (2 * k + 1)}")
    plot.sample(0, 0, "R", BLUE)
    plot.sample(0, 1, "R at t, t + d", INK, INK)
    plot.sample(200, 0, "the exact reciprocal", ORANGE)
    plot.sample(200, 1, "the line between nodes, before it is chopped", GREEN, dashes="6 4")
    plot.sample(640, 0, "a node, rounded up", GREEN, "#ffffff")
    plot.sample(640, 1, "where pieces meet", GREY, dashes="2 4")
    return plot.svg()


def pictures():
    """Each picture by its name."""
    return {"error-k2.svg": error_picture(2), "shares.svg": shares_picture(),
            "guard-bits.svg": guard_bits_picture(page.GUARDED),
            "staircase-k3.svg": staircase_picture(3, (512, 5), (571, 6))}
