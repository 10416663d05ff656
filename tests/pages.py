"""Tests of the pages of theorems: what a page's heading and docs/SCOPE.md name stands there, so that none goes unseen.

A page is what crates/statements/proofs/Lib.antt has as `pub mod`, and PAGES has their names. A page's heading is the
comment before the first `use`. A heading writes a theorem's name bare: a word with `_` or `-` in it, or a word of a list ": NAME, NAME." What stands in
backquotes is code, and no theorem.
"""
import re

from documents import PAGES
from repository import CRATES, ROOT

PROOFS = CRATES / "statements" / "proofs"
SCOPE = ROOT / "docs" / "SCOPE.md"
NAME = r"[A-Za-z][A-Za-z0-9]*(?:_[A-Za-z0-9]+|-[A-Za-z][A-Za-z0-9]*)*"  # so that b-1 is none


def pages():
    """The text of each page."""
    names = re.findall(r"^pub mod (\w+)$", (PROOFS / "Lib.antt").read_text(), re.M)
    return {name: (PROOFS / f"{name}.antt").read_text() for name in names}


def theorems(text):
    """What a page declares as `pub`."""
    return re.findall(rf"^ *pub (?:abbrev )?({NAME}) :", text, re.M)


def heading(text):
    """The comment that a page begins with, as one line without what stands in backquotes."""
    lines = text[: re.search(r"^use ", text, re.M).start()].splitlines()
    return re.sub(r"`[^`]*`", "``", " ".join(re.sub(r"^-- *", "", line) for line in lines))


def named(text):
    """The names of theorems in a page's heading."""
    words = [word for word in re.findall(NAME, heading(text)) if "_" in word or "-" in word]
    lists = re.findall(rf": +((?:{NAME}, +)*{NAME})[.;]", heading(text))
    return set(words) | {word for names in lists for word in re.split(r", +", names)}


def unlisted():
    """Files of proofs that Lib.antt does not have, so that nothing proves them."""
    there = set(re.findall(r"^(?:pub )?mod (\w+)$", (PROOFS / "Lib.antt").read_text(), re.M))
    return sorted(path.stem for path in PROOFS.glob("*.antt") if path.stem not in there | {"Lib"})


def headings_stand():
    """Each name in a heading is a theorem of a page, and each theorem is named in the heading of its own page."""
    there = {name for text in pages().values() for name in theorems(text)}
    bad = [f"Lib.antt does not have {name}" for name in unlisted()] + ([] if there else ["there are no theorems"])
    bad += [f"{name} is a page in one of Lib.antt and PAGES alone" for name in sorted(set(pages()) ^ set(PAGES))]
    for page, text in pages().items():
        bad += [f"{page} names {name}, which is no theorem" for name in sorted(named(text) - there)]
        bad += [f"{page} does not name its {name}" for name in theorems(text) if name not in named(text)]
    return "; ".join(bad) or None


def column():
    """The cells under `theorems` in the tables of docs/SCOPE.md, each with the first cell of its row."""
    at = None
    for line in SCOPE.read_text().splitlines():
        cells = [cell.strip() for cell in line.strip().strip("|").split("|")] if line.startswith("|") else []
        if not cells:
            at = None
        elif "theorems" in cells:
            at = cells.index("theorems")
        elif at is not None and not re.fullmatch(r":?-+:?", cells[at]):
            yield cells[0], cells[at]


def table_stands():
    """Each call of the table names its theorems, and each of them stands on a page."""
    there = {name for text in pages().values() for name in theorems(text)}
    bad = [] if list(column()) else ["no table has a column `theorems`"]
    for call, cell in column():
        names = re.findall(r"`([^`]+)`", cell)
        bad += [] if names else [f"{call} has no theorem"]
        bad += [f"{call} has {name}, which is no theorem" for name in names if name not in there]
    return "; ".join(bad) or None


def tests():
    yield "pages: each theorem that a heading names stands on a page", headings_stand
    yield "pages: each theorem of docs/SCOPE.md's table stands on a page", table_stands
