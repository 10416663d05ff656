#!/usr/bin/env python3
"""The must-fail edits: each is a wrong program that a promise shuts out, in a file crates/CRATE/must-fail/LABEL.edit.
Its first comment names the call and the wrong program, as `# CALL: sentence.`, and may run on in further lines. CALL is
`crate::fn`, `Type::fn`, or the name of a page of theorems.

usage: python3 tests/edits.py [CRATE]    prints a table of them: the call, the wrong program, the edit as CRATE/LABEL
"""
import pathlib
import re
import sys
from collections import namedtuple

CRATES = pathlib.Path(__file__).resolve().parent.parent / "crates"

# `call` and `program` are empty where the first comment has another form; `files` are those that the edit changes.
Edit = namedtuple("Edit", "crate label call program files")


def read(path):
    """The Edit that a file says."""
    text = path.read_text()
    says = " ".join(re.sub(r"^#", "", re.match(r"(?:#.*\n)*", text)[0], flags=re.M).split())
    call, _, program = says.partition(": ") if re.match(r"[A-Za-z]\w*(?:::\w+|(?: \w+)*): \S", says) else ("", "", "")
    return Edit(path.parent.parent.name, path.stem, call, program, re.findall(r"^file: (\S+)", text, re.M))


def edits():
    return [read(path) for path in sorted(CRATES.glob("*/must-fail/*.edit"))]


def named(edit):
    return f"{edit.crate}/{edit.label}"


def main():
    crates = sys.argv[1:]
    found = [edit for edit in edits() if not crates or edit.crate in crates]
    print("| call | wrong program | edit |\n| --- | --- | --- |")
    for edit in found:
        print(f"| {edit.call} | {edit.program} | {named(edit)} |")
    sys.exit(None if found else "there is no such edit")


if __name__ == "__main__":
    main()
