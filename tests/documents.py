"""Tests of the documents: the first page is short and true, pages are narrow and few, links lead somewhere, nothing
cites what a reader of the repository does not have, and what a reader has to believe stands apart from what only inner
promises cite."""
import os
import re

import reference
from repository import CRATES, ROOT, listed, open_functions

README = ROOT / "README.md"
DOCS = ROOT / "docs"
BESIDE = ["README.md", "c/README.md", "rust/README.md"]  # and all below docs/
MOST_LINES = 1400  # of docs/, but for docs/history
WIDEST = 120
NO_PART = {".git", "target", "out", "__pycache__"}

# What a reader does not have: files beside the repository; papers and requests by their numbers, in whatever form. The
# classes of one letter keep this file from finding itself.
ELSEWHERE = re.compile(r"\.\./sha[r]ed|01-sco[p]e|02-change-requ[e]sts|proof-no[t]es|90-rat[t]le")
BY_NUMBER = re.compile(r"(?-i:\b[Q][-_]?\d+)|[d]ocuments?[-_ ]*\d+|[d]emands?[-_ ]*\d+|\b[r]equests?[-_ #]*\d+", re.I)
FOR_CALLERS = ["yildegga", "yildegga_bound", "precision", "format", "answers", "building", "checking", "reading",
               "inverting", "binding", "table_text"]
PAGES = ["Refusals", "Construction", "Bound", "Usual", "Plain", "Full", "Guards", "Neighbours", "Printed", "Examples"]


# ---- the first page

def short():
    lines = README.read_text().splitlines()
    wide = [number for number, line in enumerate(lines, 1) if len(line) > 120]
    if len(lines) >= 120:
        return f"it has {len(lines)} lines"
    return f"above 120 columns: lines {wide}" if wide else None


def table_shown():
    """The block that it shows for precision 2 is what the reference prints."""
    block = "".join(f"    {line}\n" for line in reference.table(b"2\n").splitlines())
    return None if f"\n\n{block}\n" in README.read_text() else "it does not stand there as the reference prints it"


def crates_named():
    """The first column of its table of crates names those of crates.txt, each once."""
    table = re.search(r"^\| crates \|.*\n\|[- |]*\n((?:\|.*\n)+)", README.read_text(), re.M)
    rows = table[1].splitlines() if table else []
    named = [name for row in rows for name in re.findall(r"`(\w+)`", row.split("|")[1])]
    missing, more = sorted(set(listed()) - set(named)), sorted(set(named) - set(listed()))
    if missing or more or len(named) != len(set(named)):
        return f"not named: {missing}; no such crate: {more}; {len(named)} names"
    return None


# ---- all pages

def pages():
    return [ROOT / name for name in BESIDE] + sorted(DOCS.rglob("*.md"))


def in_history(page):
    return DOCS / "history" in page.parents


def narrow():
    """No line is wide, but for those of docs/history."""
    bad = [f"{page.relative_to(ROOT)}: lines {wide}" for page in pages() if page.is_file() and not in_history(page)
           if (wide := [number for number, line in enumerate(page.read_text().splitlines(), 1) if len(line) > WIDEST])]
    return "; ".join(bad) or None


def few_lines():
    lines = {page.name: len(page.read_text().splitlines()) for page in DOCS.rglob("*.md") if not in_history(page)}
    return None if 0 < sum(lines.values()) <= MOST_LINES else f"{sum(lines.values())} lines: {lines}"


# ---- links

def prose(page):
    """A page without its code."""
    text = re.sub(r"^```.*?^```", "", page.read_text(), flags=re.M | re.S)
    return re.sub(r"`[^`\n]*`|^    .*$", "", text, flags=re.M)


def links_lead():
    """Every link that is no address leads to a file, whether it is written in place or as a reference at the foot."""
    bad = [f"there is no {page.relative_to(ROOT)}" for page in pages() if not page.is_file()]
    for page in filter(lambda page: page.is_file(), pages()):
        for link in re.findall(r"\]\(([^)\s]+)", prose(page)) + re.findall(r"^\[[^\]]+\]:\s*(\S+)", prose(page), re.M):
            path = link.partition("#")[0]
            if path and not re.match(r"[a-z]+:", path) and not (page.parent / path).exists():
                bad.append(f"{page.relative_to(ROOT)}: {link}")
    return "; ".join(bad) or None


def references_stand():
    """Where a page has references, each label in square brackets is one of them."""
    bad = []
    for page in filter(lambda page: page.is_file(), pages()):
        there = {label.lower() for label in re.findall(r"^\[([^\]]+)\]:", prose(page), re.M)}
        used = re.findall(r"\[([^\]\n]+)\](?![(:])", prose(page)) if there else []
        bad += [f"{page.relative_to(ROOT)}: [{label}]" for label in used if label.lower() not in there]
    return "; ".join(bad) or None


def texts():
    """Every text file of the repository."""
    for folder, folders, names in os.walk(ROOT):
        folders[:] = sorted(set(folders) - NO_PART)
        for name in names:
            path = ROOT / folder / name
            try:
                yield str(path.relative_to(ROOT)), path.read_text()
            except (UnicodeDecodeError, FileNotFoundError):  # no text, or a link that leads nowhere
                continue


def run_on(text):
    """A text without its ends of lines, and without what begins a line of comment behind them."""
    return re.sub(r"[ \t]*\n[ \t]*(?:(?://[/!]?|--|#|\*|\|)[ \t]+)?", " ", text)


def nothing_elsewhere():
    """No file names a file that is not in the repository."""
    found = dict(texts())
    bad = [f"{name}: {ELSEWHERE.search(text)[0]}" for name, text in found.items() if ELSEWHERE.search(text)]
    return "; ".join(bad) or (None if "README.md" in found else "no file was found")


def nothing_by_number():
    """No file cites a paper or a request by its number, neither in its text, over the ends of lines too, nor in its
    name."""
    cited = {name: BY_NUMBER.findall(f"{name} {run_on(text)}") for name, text in texts()}
    bad = [f"{name} ({len(found)}, {found[0]})" for name, found in cited.items() if found]
    if bad:
        return f"{sum(map(len, cited.values()))} in {len(bad)} files: {', '.join(bad)}"
    return None if cited else "no file was found"


def titles_stand():
    """Where a file names docs/SCOPE.md and, behind a comma, titles in quotation marks, each is one of its headings."""
    there = set(re.findall(r"^#+ (.*)$", (DOCS / "SCOPE.md").read_text(), re.M))
    cited = {(title, name) for name, text in texts()
             for titles in re.findall(r'docs/SCOPE\.md,((?: (?:and )?"[^"]+",?)+)', run_on(text))
             for title in re.findall(r'"([^"]+)"', titles)}
    bad = sorted(f"{name}: {title}" for title, name in cited if title not in there)
    return "; ".join(bad) or (None if cited else "no title is cited")


# ---- what a reader has to believe, and what only inner promises cite

def definitions():
    """The files of definitions that a reader has to believe."""
    return [path for path in sorted(CRATES.glob("*/specs/**/*.antt")) if path.name != "Inner.antt"]


def lines_stated():
    """The README says how many lines these have."""
    there = sum(len(path.read_text().splitlines()) for path in definitions())
    stated = re.findall(r"\b(\w+)\s+lines in all", README.read_text())
    return None if stated == [str(there)] else f"there are {there}, and it says {stated}"


def inner_lines(path):
    """The lines of a file, but for comments, that name an Inner file."""
    return [line for line in path.read_text().splitlines() if re.match(r"\s*(?!--)\S.*\.Inner\b", line)]


def definitions_apart():
    bad = [str(path.relative_to(CRATES)) for path in definitions() if inner_lines(path)]
    return f"{bad} name an Inner file" if bad or not definitions() else None


def inner_names(text):
    """The names that a source file imports from Inner files, as it calls them."""
    lists = re.findall(r"\buse [\w·.]+\.Inner\.\{([^}]*)\}", text)
    lists += re.findall(r"\buse [\w·.]+\.Inner\.([^\s{;]+)", text)
    return {name.split()[-1] for names in lists for name in names.split(",") if name.strip()} | {"Inner"}


def promises_apart():
    """No contract of an open function in the crates that callers meet cites what an Inner file defines."""
    bad = []
    for crate in FOR_CALLERS:
        names = set().union(*(inner_names(path.read_text()) for path in (CRATES / crate).glob("src/**/*.rt")))
        contracts = [(name, "\n".join(lines)) for owner, name, lines in open_functions() if owner == crate]
        bad += [] if contracts else [f"{crate} has no open function"]
        bad += [f"{crate}::{call} cites {name}" for call, text in contracts for name in sorted(names)
                if re.search(rf"(?<![\w'-]){re.escape(name)}(?![\w'-])", text)]
    return "; ".join(bad) or None


def theorems_apart():
    bad = [page for page in PAGES if inner_lines(CRATES / "statements" / "proofs" / f"{page}.antt")]
    return f"{bad} name an Inner file" if bad else None


def tests():
    yield "documents: README.md is under 120 lines of at most 120 columns", short
    yield "documents: README.md shows the printed table of precision 2", table_shown
    yield "documents: README.md names every crate", crates_named
    yield f"documents: no line has more than {WIDEST} columns, but in docs/history", narrow
    yield f"documents: docs/ has at most {MOST_LINES} lines, but for docs/history", few_lines
    yield "documents: every link leads to a file", links_lead
    yield "documents: every reference stands on its page", references_stand
    yield "documents: no file names a document that is not in the repository", nothing_elsewhere
    yield "documents: no file cites a paper or a request by its number", nothing_by_number
    yield "documents: docs/SCOPE.md has the headings that comments cite", titles_stand
    yield "documents: README.md says how many lines of definitions there are to believe", lines_stated
    yield "documents: no definition to believe stands on an Inner file", definitions_apart
    yield "documents: no promise that a caller meets cites an Inner file", promises_apart
    yield "documents: no page of theorems cites an Inner file", theorems_apart
