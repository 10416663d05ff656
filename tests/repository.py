"""Tests of the repository: units do not mix, every crate is listed and lists what it uses, contracts stand on every
open call, must-fail edits are sound."""
import functools
import pathlib
import re
import shutil
import subprocess
import tempfile
from collections import Counter

from edits import edits, named

ROOT = pathlib.Path(__file__).resolve().parent.parent
CRATES = ROOT / "crates"
UNITS = ROOT / "tests" / "units"
# What stands before the brace of a clause.
CLAUSE = re.compile(r"\b(?:(?:requires|ensures)\*?\s*\w*|ghost\b[^{}]*)\s*$")
OPEN = re.compile(r"^\s*(?:#\[[^\]]*\]\s*)*pub (?:const )?(?:extern \"C\" )?fn (\w+)")


def rt(*words, cwd=ROOT, timeout=600):
    return subprocess.run(["rt", *words], cwd=cwd, stdin=subprocess.DEVNULL, stdout=subprocess.PIPE,
                          stderr=subprocess.STDOUT, text=True, timeout=timeout)


def listed():
    """What crates.txt says: each crate with those below it."""
    crates = {}
    for line in (ROOT / "crates.txt").read_text().splitlines():
        name, colon, below = line.partition("#")[0].partition(":")
        if colon:
            crates[name.split()[0]] = below.split()  # after the name may stand what kind of crate it is
    return crates


# ---- units do not mix

def texts_of(crate, room):
    """Copies the code, the definitions and the proofs of a crate to a repository of its own."""
    for part in ("src", "specs", "proofs"):
        if (CRATES / crate / part).is_dir():
            shutil.copytree(CRATES / crate / part, room / "crates" / crate / part)


def trial(name):
    """The text tests/units/NAME.txt as the program of a crate above `units`, in a repository of its own."""
    with tempfile.TemporaryDirectory() as folder:
        room = pathlib.Path(folder)
        crates = {"trial": ["units"]}
        todo = ["units"]
        while todo:
            crate = todo.pop()
            if crate in listed() and crate not in crates:
                crates[crate] = listed()[crate]
                todo += crates[crate]
                texts_of(crate, room)
        (room / "crates" / "trial" / "src").mkdir(parents=True)
        shutil.copy(UNITS / f"{name}.txt", room / "crates" / "trial" / "src" / "main.rt")
        (room / "crates.txt").write_text("".join(f"{crate}: {' '.join(below)}\n" for crate, below in crates.items()))
        return rt("check", cwd=room / "crates" / "trial")


def code_lines(name):
    lines = (UNITS / f"{name}.txt").read_text().splitlines()
    return [line for line in lines if not line.startswith("//")]


def units_kept():
    done = trial("right")
    return None if done.returncode == 0 else done.stdout[-400:]


def units_mixed(name, asked, found):
    """The program differs from the right one in a single line, and is refused for its types and nothing else."""
    changed = [pair for pair in zip(code_lines("right"), code_lines(name)) if pair[0] != pair[1]]
    if len(changed) != 1 or len(code_lines("right")) != len(code_lines(name)):
        return "it does not differ from the right program in one line"
    done = trial(name)
    if done.returncode == 0:
        return "it was accepted"
    errors = re.findall(r": error\[?.*", done.stdout)
    if errors != [f": error[mismatched-types]: expected `{asked}`, found `{found}`"]:
        return f"the errors are {errors}"
    return None


# ---- the shape of the repository

def crates_listed():
    folders = {path.name for path in CRATES.iterdir()}
    names = set(listed())
    if folders == names:
        return None
    return f"only a folder: {sorted(folders - names)}; only listed: {sorted(names - folders)}"


def without_comments(path):
    """A file of code, definitions or proofs without its comments."""
    return re.sub(r"//.*" if path.suffix == ".rt" else r"--.*", "", path.read_text())


def uses_named():
    """Each crate names those that crates.txt has it use, in its code, its definitions or its proofs."""
    bad = []
    for crate, below in listed().items():
        files = [*(CRATES / crate / "src").rglob("*.rt"), *(CRATES / crate / "specs").rglob("*.antt"),
                 *(CRATES / crate / "proofs").rglob("*.antt")]
        text = "\n".join(map(without_comments, files))
        bad += [f"{crate}: {name}" for name in below
                if not re.search(rf"\bRattle\.{name}\.|\b{name}::|\buse {name}\b", text)]
    return f"listed, and not named in the crate: {bad}" if bad else None


def formatted():
    """In a copy, `rt fmt` leaves every file as it is, the programs of tests/units too."""
    bad = []
    with tempfile.TemporaryDirectory() as folder:
        room = pathlib.Path(folder)
        shutil.copy(ROOT / "crates.txt", room)
        for crate in listed():
            texts_of(crate, room)
        programs = room / "crates" / "of_units" / "src"
        programs.mkdir(parents=True)
        for path in UNITS.glob("*.txt"):
            shutil.copy(path, programs / f"{path.stem}.rt")
        for crate in [*listed(), "of_units"]:
            done = rt("fmt", cwd=room / "crates" / crate)
            if done.returncode:
                bad.append(f"{crate}: {done.stdout[-200:]}")
        copied = {path: ROOT / path.relative_to(room) for path in sorted((room / "crates").rglob("*"))
                  if path.suffix in (".rt", ".antt")}
        copied.update((path, UNITS / f"{path.stem}.txt") for path in programs.glob("*.rt"))
        bad += [str(own.relative_to(ROOT)) for path, own in copied.items() if path.read_bytes() != own.read_bytes()]
        empty = not any(programs.iterdir()) or len(copied) <= len(listed())
    return "; ".join(bad) or ("files are missing" if empty else None)


COMMENT = {".rt": "//", ".antt": "--", ".edit": "#"}  # what a line of comment begins with


def comments_narrow():
    """No line of comment in the crates has more than 120 columns."""
    files = [path for path in sorted(CRATES.rglob("*")) if path.suffix in COMMENT and "out" not in path.parts]
    wide = Counter(str(path.relative_to(CRATES)) for path in files for line in path.read_text().splitlines()
                   if len(line) > 120 and line.lstrip().startswith(COMMENT[path.suffix]))
    each = ", ".join(f"{name} ({count})" for name, count in sorted(wide.items()))
    if wide:
        return f"{sum(wide.values())} lines in {len(wide)} files: {each}"
    return None if files else "no file was found"


def to_the_body(lines):
    """The lines of a function's head and clauses, up to the one that opens its body: the first brace that is no
    clause's."""
    depth, before = 0, ""
    for end, line in enumerate(lines):
        for sign in line.partition("//")[0] + "\n":
            if sign == "{" and depth == 0 and not CLAUSE.search(before):
                return lines[:end + 1]
            depth += (sign == "{") - (sign == "}")
            before = "" if sign == "}" and depth == 0 else before + sign
    raise ValueError(f"no body follows {lines[0]!r}")


def open_functions():
    """Each open function: its crate, its name, and the text of its contract, up to the line that opens the body."""
    for path in sorted(CRATES.glob("*/src/**/*.rt")):
        lines = path.read_text().splitlines()
        for at, line in enumerate(lines):
            head = OPEN.match(line)
            if head:
                yield path.relative_to(CRATES).parts[0], head.group(1), to_the_body(lines[at:])


def contracts_stand():
    found = list(open_functions())
    bad = [f"{crate}::{name}" for crate, name, lines in found
           if not any(re.match(r"\s*ensures\b", line) for line in lines)
           or any(re.match(r"\s*requires\b", line) for line in lines)]
    if not found:
        return "no open function was found"
    return f"no ensures, or a requires: {bad}" if bad else None


# ---- must-fail edits

# Pages of theorems, which no call promises.
PAGES = {"Algorithm 2", "set examples", "table of words", "units", "order of refusals"}
OF_PAGES = {"interpolation", "layout", "statements", "units"}  # the crates of which an edit may change a definition
MANY = 6  # in a crate with more open calls than these, one edit of each is enough


def owner(crate, lines, at):
    """What stands before `::` in the name of an open function: the type whose `impl` it is indented in, or its
    crate."""
    if not lines[at].startswith(" "):
        return crate
    heads = [re.match(r"impl\b(?:<.*?>)? *(\w+)", line) for line in lines[:at]]
    return [head[1] for head in heads if head][-1]


def open_calls():
    """Each open call as (crate, `crate::fn` or `Type::fn`). An `impl From` of an open type is one, `Type::from`."""
    calls = set()
    for path in sorted(CRATES.glob("*/src/**/*.rt")):
        crate, text = path.relative_to(CRATES).parts[0], path.read_text()
        lines = text.splitlines()
        calls |= {(crate, f"{owner(crate, lines, at)}::{head[1]}") for at, line in enumerate(lines)
                  if (head := OPEN.match(line))}
        made = re.findall(r"^impl(?:<.*>)? From<.*> for (\w+)", text, re.M)
        calls |= {(crate, f"{name}::from") for name in made
                  if re.search(rf"^pub (?:struct|enum) {name}\b", text, re.M)}
    return calls


def of_programs():
    """The functions of programs, as (crate, `crate::fn`). An edit may name one, and none has to be named."""
    return {(path.parent.parent.name, f"{path.parent.parent.name}::{name}") for path in CRATES.glob("*/src/main.rt")
            for name in re.findall(r"^fn (\w+)", path.read_text(), re.M)}


def edits_say_what():
    """Each edit begins with a comment that names its call and says which wrong program it is."""
    bad = [named(edit) for edit in edits() if not edit.call or not edit.program]
    return f"no `# CALL: sentence` in front: {bad}" if bad else None


def edits_of_calls():
    """Each edit is of an open call, of a function of a program, or of a page of theorems."""
    there = PAGES | {call for _, call in open_calls() | of_programs()}
    bad = [f"{named(edit)}: {edit.call}" for edit in edits() if edit.call and edit.call not in there]
    return f"no such call or page: {bad}" if bad else None


def enough_edits():
    """Each open call has two edits or more of its own crate, or one in a crate with many open calls."""
    calls = open_calls()
    own = Counter((edit.crate, edit.call) for edit in edits())
    many = {crate for crate, count in Counter(crate for crate, _ in calls).items() if count > MANY}
    bad = [f"{crate}, {call}: {own[crate, call]}" for crate, call in sorted(calls)
           if own[crate, call] < (1 if crate in many else 2)]
    return f"too few edits: {bad}" if bad else (None if calls else "no open call was found")


def edits_of_programs():
    """An edit changes a program, and no proof. It may change a definition where it tries a page of theorems."""
    bad = [f"{named(edit)}: {file}" for edit in edits() for file in edit.files or ["no file"]
           if not file.startswith("src/") and not (file.startswith("specs/") and edit.crate in OF_PAGES)]
    return f"they change no program: {bad}" if bad else None


# What is said where a proof does not fit the code: a name that is not there, code that does not compile, a term to
# rewrite that the goal does not have. Such a refusal shows nothing about the wrong program.
NOT_A_FACT = ("that can be named from here", "is not in scope", "has no ", ": error[",
              "`rw`: no occurrence", "`rw`: no part of", "no equation of the list has an instance")


@functools.cache
def said_of_edits():
    """What `rt must-fail` says of each edit; what `rt ci` has tried it does not try again."""
    done = rt("must-fail", timeout=14400)
    return dict(re.findall(r"^rt: must-fail ([\w-]+/[\w-]+)\.edit: (.*)", done.stdout, re.M))


def complaint(said):
    """The first thing that the check had against an edited crate, but for names that the edit took away, or None where
    it is said that there is nothing else, that the prover only met a limit, or that the edit was not refused."""
    found = re.fullmatch(r"refused, as it must be: (?:note: )?(.+)", said or "")
    return found and found[1]


def refused_for_a_fact():
    bad = []
    for edit in map(named, edits()):
        said = said_of_edits().get(edit)
        first = complaint(said)
        if first is None or any(words in first for words in NOT_A_FACT):
            bad.append(f"{edit}: " + (said[:200] if said else "it was not tried"))
    if not edits():
        return "there is no edit"
    return "; ".join(bad) or None


def tests():
    yield "units: ulps are taken for ulps", units_kept
    yield ("units: table units are not taken for ulps",
           lambda: units_mixed("ulps_from_table_units", "Ulps", "TableUnits"))
    yield ("units: ulps are not taken for table units",
           lambda: units_mixed("table_units_from_ulps", "TableUnits", "Ulps"))
    yield "repository: crates.txt lists the folders under crates/", crates_listed
    yield "repository: each crate names those that crates.txt has it use", uses_named
    yield "repository: rt fmt finds nothing to change", formatted
    yield "repository: comments in the crates are at most 120 columns wide", comments_narrow
    yield "repository: every open function has an ensures and no requires", contracts_stand
    yield "edits: each edit begins with its call and the wrong program", edits_say_what
    yield "edits: each edit is of an open call, of a program or of a page of theorems", edits_of_calls
    yield "edits: two edits or more for each open call, one where its crate has many", enough_edits
    yield "edits: each edit changes a program, or a definition that a page of theorems speaks of", edits_of_programs
    yield "must-fail: each edit was refused because a fact fails", refused_for_a_fact
