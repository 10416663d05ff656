"""Tests of the C side: the header under strict compilers, every call made from C and compared with reference.py, and
make. Those of its examples are in c_examples.py."""
import collections
import filecmp
import functools
import itertools
import pathlib
import re
import shutil
import tempfile

import c_examples
import reference
from c_build import C_WARNINGS, ROOM, ROOT, WARNINGS, archive, files, make, need, pkg_config, prefix, room, run, well

HERE = ROOT / "tests" / "c"
INCLUDE = f"-I{ROOT / 'c' / 'include'}"
CXX_WARNINGS = [*WARNINGS, "-Wmissing-declarations", "-Wold-style-cast"]
GXX_WARNINGS = ["-Wuseless-cast", "-Wzero-as-null-pointer-constant"]


# ---- the header

def compilers():
    """Each compiler with its language, and how it is called with all warnings on."""
    yield "gcc, C99", ["gcc", "-x", "c", "-std=c99", *C_WARNINGS, "-Wc++-compat"]
    yield "gcc, C17", ["gcc", "-x", "c", "-std=c17", *C_WARNINGS, "-Wc++-compat"]
    yield "g++, C++11", ["g++", "-x", "c++", "-std=c++11", *CXX_WARNINGS, *GXX_WARNINGS]
    yield "g++, C++17", ["g++", "-x", "c++", "-std=c++17", *CXX_WARNINGS, *GXX_WARNINGS]
    if shutil.which("clang") and shutil.which("clang++"):
        yield "clang, C99", ["clang", "-x", "c", "-std=c99", *C_WARNINGS]
        yield "clang++, C++11", ["clang++", "-x", "c++", "-std=c++11", *CXX_WARNINGS]


def header_taken(compiler):
    need(compiler[0], compiler[0])
    done = run(*compiler, INCLUDE, "-fsyntax-only", HERE / "header_alone.c")
    return None if (done.returncode, done.stderr) == (0, b"") else done.stderr.decode()[:400]


def every_name(compiler):
    """A program that uses every name of the header is taken without a warning, and ends well."""
    need(compiler[0], compiler[0])
    text = (HERE / "every_name.c").read_text()
    names = set(re.findall(r"\b(?:yildegga|YILDEGGA)_\w+", (ROOT / "c" / "include" / "yildegga.h").read_text()))
    unused = {name for name in names if not re.search(rf"\b{name}\b", text)}
    inner = {"YILDEGGA_H", "yildegga_laid_out_as_in_the_archive", "yildegga_format_of"}  # the last is for macros in C++
    if unused != inner:
        return f"tests/c/every_name.c uses all names but {unused}"
    program = room() / "every_name"
    done = run(*compiler, INCLUDE, "-o", program, HERE / "every_name.c", "-x", "none", archive())
    if (done.returncode, done.stderr) != (0, b""):
        return done.stderr.decode()[:400]
    status = run(program).returncode
    return f"it ends with status {status}" if status else None


def refused(compiler, file, words, error):
    """The compiler refuses the file, and its first error is this one."""
    done = run(*compiler, INCLUDE, "-fsyntax-only", *words, HERE / file)
    errors = re.findall(r"error: (.*)", done.stderr.decode())
    as_it_should = done.returncode and errors and re.search(error, errors[0])
    return None if as_it_should else f"status {done.returncode}, errors {errors}"


def units_apart(compiler, error):
    need(compiler[0], compiler[0])
    taken = run(*compiler, INCLUDE, "-fsyntax-only", "-DGIVEN=reciprocal", HERE / "units.c")
    if taken.returncode:
        return f"ulps are refused: {taken.stderr.decode()[:300]}"
    return refused(compiler, "units.c", ["-DGIVEN=node"], error)


# ---- the calls

CONSTANTS = {"SERVED": 0, "PRECISION": 1, "GUARD_BITS": 18, "SHORT_BUFFER": 2, "NODE_NUMBER": 3, "FRACTION_BITS": 4,
             "NOT_NORMALISED": 5, "WRONG_WORD": 6, "TAIL_NOT_ZERO": 7, "LEAST_PRECISION": 1, "GREATEST_PRECISION": 12,
             "LEAST_TABLE_GUARD_BITS": 2, "GREATEST_TABLE_GUARD_BITS": 4, "LEAST_INPUT_GUARD_BITS": 3,
             "GREATEST_INPUT_GUARD_BITS": 5, "LONGEST_IMAGE": 13312, "FULL_LONGEST_IMAGE": 14340,
             "ANY_LONGEST_IMAGE": 15364, "LEAST_FRACTION_BITS": 1, "MOST_FRACTION_BITS": 63, "TABLE_UNITS_IN_ULP(2)": 4,
             "TABLE_UNITS_IN_ULP(3)": 8, "TABLE_UNITS_IN_ULP(4)": 16, "PLAIN_WORDS": 0, "FULL_WORDS": 1}
# The numbers of each call's answers where the guard bits are in range: docs/SCOPE.md, "Turned back, in checking order".
NUMBERS = {"build": {0, 1, 2}, "check": {0, 1, 2, 6, 7}, "node": {0, 1, 2, 3, 6}, "reciprocal": {0, 1, 2, 4, 5, 6}}
FORMS = (reference.PLAIN, reference.FULL)
GUARD_BITS = list(itertools.product((2, 3, 4), (3, 4, 5)))  # the pairs in range
WRONG_GUARD_BITS = [(a, b) for a in (0, 1, 5, 258, 2 ** 31, 2 ** 32 - 1, 2, 3, 4)
                    for b in (0, 2, 6, 259, 2 ** 31, 2 ** 32 - 1, 3, 4, 5) if (a, b) not in GUARD_BITS]


@functools.cache
def built(name, *libraries):
    """The program tests/c/NAME.c."""
    program = room() / name
    well("gcc", "-g", "-O1", "-std=c99", *C_WARNINGS, INCLUDE, "-o", program, HERE / f"{name}.c", archive(), *libraries)
    return program


@functools.cache
def calls_printed():
    return well(built("calls"), "64")


def lent(table, count, *damages):
    """The bytes that tests/c/calls.c lends: a full ROM of the table where the image has room, else bytes that are A5;
    one byte or two damaged."""
    form, k, *guard_bits = table
    buffer = bytearray(reference.call_build(k, b"\xa5" * count, form, *guard_bits)[1])
    for at, mask in zip(damages[::2], damages[1::2]):
        if mask:
            buffer[at] ^= mask
    return bytes(buffer)


def answer(call, table, buffer, numbers):
    """What is printed for a call: its name, its numbers and what the reference answers."""
    form, k, a, b = table
    if call == "build":
        found, after = reference.call_build(k, buffer, form, a, b)
        return [call, *found, after.hex()]
    if call == "check":
        return [call, *reference.call_check(k, buffer, form, a, b)]
    if call == "node":
        return [call, numbers[0], *reference.call_node(k, buffer, numbers[0], form, a, b)]
    if call == "reciprocal":
        return [call, *numbers[:2], *reference.call_reciprocal(k, buffer, *numbers[:2], form, a, b)]
    assert call == "word_bytes", call
    part = reference.call_word_bytes(k, buffer, numbers[0], form, a, b)
    offset = numbers[0] * reference.width(k, form, a) // 8 if part else 0
    return [call, numbers[0], offset, len(part), part.hex()]


# Numbers that stand for the full form as 1 does, each with the guard bits with which it is asked for.
FULL_TOO = {2: (2, 3), 255: (4, 5), 2 ** 8: (2, 3), 2 ** 16: (4, 5), 2 ** 31: (2, 3), 2 ** 32 - 1: (4, 5)}


def calls_compared():
    table, buffer = (0, 0, 2, 3), b""  # form, precision, guard bits
    asked = collections.defaultdict(set)  # by call, form and guard bits: the precisions, or the numbers of the answers
    operands = collections.defaultdict(set)  # by table and fraction bits: each operand with its number, 0, 4 or 5
    places = collections.defaultdict(set)  # by table and the check's number
    for line in calls_printed().splitlines():
        call, *words = line.split(" ")
        if call in ("constant", "limits", "length", "words", "node_8"):
            continue
        if call in ("lent", "null"):
            form, k, a, b, *how = map(int, words)
            table, buffer = (form, k, a, b), lent((form, k, a, b), *how) if how else b""
            asked[call, form, a, b].add(k)
            continue
        numbers = [int(word) for word in words[:5 if call == "reciprocal" else 3]]
        expected = " ".join(map(str, answer(call, table, buffer, numbers)))
        if line != expected:
            return f"{named(table)}, {len(buffer)} bytes: printed {line[:100]!r}, expected {expected[:100]!r}"
        form, _, *guard_bits = table
        asked[call, form, *guard_bits].add(int(words[{"build": 0, "check": 0, "node": 1}.get(call, 2)]))
        if call == "reciprocal" and numbers[2] in (0, 4, 5):
            operands[table, numbers[0]].add((numbers[1], numbers[2]))
        if call == "check":
            places[table, numbers[0]].add(numbers[1])
    return every_format_asked(asked) or ends_asked(operands) or places_named(places)


def named(table):
    form, k, a, b = table
    return f"precision {k}, form {form}, guard bits {a} and {b}"


def every_format_asked(asked):
    """Both forms were asked for at all precisions with all guard bits, and the other numbers of the full form at two
    precisions, each with every number of answer; guard bits out of range too, with 1 and 18 alone."""
    tables = [(form, *guard_bits) for form in FORMS for guard_bits in GUARD_BITS]
    full_too = [(form, *guard_bits) for form, guard_bits in FULL_TOO.items()]
    wrong = [(form, *guard_bits) for form in FORMS for guard_bits in WRONG_GUARD_BITS]
    for table in tables + full_too + wrong:
        _, a, b = table
        lent_at, none_at = ({0, 2}, {0, 2}) if table in full_too else (set(range(14)), {*range(21), 2 ** 32 - 1})
        if table in wrong:
            lent_at, none_at = ({0, 1, 2} if a == 2 or b == 3 else set()), {0, 1, 2, 12, 13, 2 ** 32 - 1}
        if not lent_at <= asked["lent", *table] or not none_at <= asked["null", *table]:
            return (f"form and guard bits {table}: the precisions are {asked['lent', *table]}, with no buffer "
                    f"{asked['null', *table]}")
        short = {call: asked[call, *table] for call, numbers in NUMBERS.items()
                 if asked[call, *table] != ({1, 18} if table in wrong else numbers)}
        if short:
            return f"form and guard bits {table}: not every number was answered, or others: {short}"
    return None


def ends_asked(operands):
    """Of every table the operands at the ends of what is served were asked for: at 1 fraction bit, at so many as are
    looked at, one less and one more, at 63, and at a = 2 and b = 3 at each below, the least and the greatest, which are
    served, and the next to them, which are refused by 5; and n = 0 and 64, refused by 4."""
    for form, k, (a, b) in itertools.product(FORMS, range(1, 13), GUARD_BITS):
        looked_at = 2 * k + b
        shorter = range(1, looked_at) if (a, b) == (2, 3) else (1, looked_at - 1)
        for n in (*shorter, looked_at, looked_at + 1, 63):
            ends = {(2 ** n, 0), (2 ** (n + 1) - 1, 0), (2 ** n - 1, 5), (2 ** (n + 1) % 2 ** 64, 5)}
            found = operands[(form, k, a, b), n]
            if not ends <= found:
                return f"{named((form, k, a, b))}, {n} fraction bits: not found were {sorted(ends - found)}"
        for n in (0, 64):
            found = {number for _, number in operands[(form, k, a, b), n]}
            if found != {4}:
                return f"{named((form, k, a, b))}, {n} fraction bits: {sorted(found)}"
    return None


def places_named(places):
    """The check named the last word, in the full form that of node 2^k, and the image's last byte exactly where there
    are filling bits."""
    for form, k, (a, b) in itertools.product(FORMS, range(1, 13), GUARD_BITS):
        table, last, length = (form, k, a, b), reference.count(k, form) - 1, reference.length(k, form, a)
        filling = reference.bit_count(k, form, a) % 8 != 0
        if last not in places[table, 6] or ((length - 1) in places[table, 7]) != filling:
            return f"{named(table)}: wrong words {sorted(places[table, 6])}, bytes {sorted(places[table, 7])}"
    return None


def printed_below(word):
    return [line.split(" ")[1:] for line in calls_printed().splitlines() if line.startswith(f"{word} ")]


def constants():
    found = {name: int(value) for name, value in printed_below("constant")}
    return None if found == CONSTANTS else f"{sorted(found.items() ^ CONSTANTS.items())}"


def limits():
    """Of two table guard bits, and of any."""
    found = [tuple(map(int, row)) for row in printed_below("limits")]
    sizes = reference.count, reference.width
    expected = [(k, 2 ** k, *(size(k, form) for form in FORMS for size in sizes)) for k in range(1, 13)]
    if found != expected:
        return f"{found}"
    rows = {tuple(map(int, row)) for row in printed_below("words")}
    for form, k, a, words, bits in rows:
        if (words, bits) != (reference.count(k, form), reference.width(k, form, a)):
            return f"precision {k}, form {form}, {a} table guard bits: {words} words of {bits} bits"
    asked = set(itertools.product(FORMS, range(1, 13), (2, 3, 4)))
    return None if asked <= {row[:3] for row in rows} else f"asked were {sorted(rows)}"


def lengths():
    """The call has 0 exactly where 1 or 18 applies; the header's macro has no b, and those of two table guard bits no
    a."""
    rows = [tuple(map(int, row)) for row in printed_below("length")]
    for form, k, a, b, *found in rows:
        right_k, right_a = reference.in_range(k), 2 <= a <= 4
        expected = [reference.call_image_length(k, form, a, b),
                    reference.length(k, form, a) if right_k and right_a else 0,
                    (reference.length(k, form) if form else reference.LENGTHS[k - 1]) if right_k else 0]
        if found != expected:
            return f"{named((form, k, a, b))}: by the call and by two macros {found}, expected {expected}"
    asked = {(form, k, *guard_bits) for form in FORMS for k in (*range(21), 2 ** 32 - 1) for guard_bits in GUARD_BITS}
    asked |= {(form, k, *guard_bits) for form in FORMS for k in (0, 1, 2, 12, 13, 2 ** 32 - 1)
              for guard_bits in WRONG_GUARD_BITS}
    asked |= {(form, k, *guard_bits) for form, guard_bits in FULL_TOO.items() for k in (0, 2)}
    missing = asked - {row[:4] for row in rows}
    return f"not asked were {sorted(missing)[:5]}" if missing else None


def constant_nodes():
    """The nodes of precision 8 that need no image, and 0 above node 256."""
    rows = [tuple(map(int, row)) for row in printed_below("node_8")]
    for j, value in rows:
        if value != reference.value_or_0(8, j):
            return f"node {j}: {value}, expected {reference.value_or_0(8, j)}"
    asked = {j for j, _ in rows}
    return None if {*range(301), 2 ** 31, 2 ** 32 - 1} <= asked else f"asked were {sorted(asked)}"


def memory_checked():
    """Valgrind sees the archive's own code, which no sanitizer has gone through: each buffer is a heap block of just
    its length."""
    done = run(need("valgrind", "valgrind"), "--quiet", "--leak-check=full", "--error-exitcode=9", built("calls"), "0")
    if done.returncode or done.stderr:
        return f"status {done.returncode}: {done.stderr.decode()[:400]}"
    return None if done.stdout.decode() == calls_printed() else "the answers are others than between guard bytes"


def past_image():
    """The builder and the check take the buffer to its last byte, with 21 tails for each table, one of them empty, and
    touch nothing behind it; the other calls touch no byte past the image, where the buffer is longer."""
    calls = 0
    for form, k, (a, _) in itertools.product(FORMS, range(1, 13), GUARD_BITS):
        filling = 8 * reference.length(k, form, a) - reference.bit_count(k, form, a)
        calls += 21 * (3 + filling) + 20 * 2 + 2 * reference.count(k, form) + 2 * 2 ** k
    found = well(built("past_image"))
    return None if found == f"{calls} of {calls}\n" else f"as they should were {found}"


def rounding_modes():
    """In each of the four rounding modes, full ROMs of every format with and without a tail are the reference's, and
    the other calls answer as by default. The mode stays, and no flag is raised, but inexact by the builder."""
    images = list(itertools.product(FORMS, (2, 3, 4), range(1, 13)))
    calls = 4 * 3 * sum(24 + 4 * 2 ** k + (2 if reference.bit_count(k, form, a) % 8 else 0) for form, a, k in images)
    given = b"".join(reference.image(k, form, a) for form, a, k in images)
    found = well(built("rounding", "-lm"), stdin=None, input=given)
    return None if found == f"{calls} calls\n" else f"{calls} calls are to be made, and it says {found!r}"


def asked_for():
    """The archive asks a program for `memset` and for nothing else."""
    found = set(re.findall(r"^ +U (\w+)$", well("nm", "--undefined-only", archive()), re.M))
    return None if found == {"memset"} else f"{sorted(found)}"


def exported():
    """The archive has the functions that the header declares, and no other name."""
    there = set(re.findall(r"^\w+ \w (\w+)$", well("nm", "--extern-only", "--defined-only", archive()), re.M))
    header = (ROOT / "c" / "include" / "yildegga.h").read_text()
    declared = set(re.findall(r"\b(yildegga_\w+)\([^();]*\);", header))  # a body in the place of `;` is none of them
    return None if there == declared and len(there) == 7 else f"exported {sorted(there)}, declared {sorted(declared)}"


# ---- what the header says in words

@functools.cache
def words_printed():
    """The version's numbers, the version as a string, and the text of each number, the same in C and in C++."""
    printed = set()
    for label, compiler in compilers():
        program = room() / "words"
        well(need(compiler[0], compiler[0]), *compiler[1:], INCLUDE, "-o", program, HERE / "words.c")
        printed.add(well(program))
    numbers, version, *texts = printed.pop().splitlines()
    assert not printed, "the compilers do not agree"
    return numbers, version, {int(number): text for number, _, text in (line.partition(" ") for line in texts)}


def version():
    numbers, text, _ = words_printed()
    modversion = pkg_config(prefix() / "lib", "--modversion")
    same = numbers.replace(" ", ".") == text and modversion == [text]
    return None if same else f"{numbers}, {text}, pkg-config {modversion}"


def refusals_in_words():
    """0 and each number of a refusal have a text of their own; all others have one and the same, which none of these
    has."""
    texts = words_printed()[2]
    named = {number: texts[number] for numbers in NUMBERS.values() for number in numbers | {18}}
    others = {text for number, text in texts.items() if number not in named}
    if len(named) != 9 or len(set(named.values())) != 9 or not all(named.values()):
        return f"the texts are {named}"
    apart = len(others) == 1 and others != {""} and not others & set(named.values())
    return None if apart else f"the texts of other numbers are {others}"


# ---- make

def installed():
    there = prefix()
    if files(there) != {"include/yildegga.h", "lib/libyildegga.a", "lib/pkgconfig/yildegga.pc"}:
        return f"installed were {files(there)}"
    if not filecmp.cmp(there / "include" / "yildegga.h", ROOT / "c" / "include" / "yildegga.h", shallow=False):
        return "the header is another"
    if not filecmp.cmp(there / "lib" / "libyildegga.a", archive(), shallow=False):
        return "the archive is another"
    flags = pkg_config(there / "lib", "--cflags", "--libs")
    return None if flags == [f"-I{there}/include", f"-L{there}/lib", "-lyildegga"] else f"pkg-config says {flags}"


def installed_elsewhere():
    """DESTDIR stands before every path and in no file; a folder named from here is named in full; LIBDIR is had; all
    goes again."""
    archive()
    stage = room() / "stage"
    how = ["PREFIX=target/tests-c/away", "LIBDIR=/opt/lib64", f"DESTDIR={stage}"]
    make("install", *how)
    away = f"{ROOM}/away"
    if files(stage) != {f"{away[1:]}/include/yildegga.h", "opt/lib64/libyildegga.a", "opt/lib64/pkgconfig/yildegga.pc"}:
        return f"installed were {files(stage)}"
    flags = pkg_config(stage / "opt" / "lib64", "--cflags", "--libs")
    if flags != [f"-I{away}/include", "-L/opt/lib64", "-lyildegga"]:
        return f"pkg-config says {flags}"
    make("uninstall", *how)
    return f"left are {files(stage)}" if files(stage) else None


def names_not_taken():
    """A folder's name that make or sed would take apart is refused before anything is done."""
    names = ["", "target/tests-c/a b", *(f"target/tests-c/a{sign}b" for sign in "&|\\")]
    taken = [name for name in names if run(need("make", "make"), "-n", "install", f"PREFIX={name}").returncode == 0]
    return f"taken are {taken}" if taken else None


def clean():
    """In a copy of the repository and its proofs: clean takes away the archive and the examples and nothing else, and
    make brings the archive back."""
    archive()
    with tempfile.TemporaryDirectory() as folder:
        copy = pathlib.Path(folder)
        (copy / "target").mkdir(parents=True)
        for name in ("Makefile", "crates.txt", "c", "crates", "target/staticlib"):
            well("cp", "-a", ROOT / name, copy / name)
        make("examples", cwd=copy)
        before = files(copy)
        make("clean", cwd=copy)
        gone = before - files(copy)
        mine = {"target/staticlib/libyildegga.a", *(f"target/examples/{name}" for name in c_examples.EXAMPLES)}
        if gone != mine or files(copy) - before:
            return f"taken away were {gone}"
        make(cwd=copy)
        if not filecmp.cmp(copy / "target" / "staticlib" / "libyildegga.a", archive(), shallow=False):
            return "the archive that make brings back is another"
        again = make(cwd=copy)
        return None if "rt" not in again.split() else f"a second make does the work again: {again}"


def tests():
    for label, compiler in compilers():
        yield f"c: the header alone, {label}", lambda compiler=compiler: header_taken(compiler)
        yield f"c: every name of the header used, {label}", lambda compiler=compiler: every_name(compiler)
    ways = dict(compilers())
    yield "c: table units are not taken for ulps, C", lambda: units_apart(
        ways["gcc, C99"], "incompatible type for argument 1 of .twice.")
    yield "c: table units are not taken for ulps, C++", lambda: units_apart(
        ways["g++, C++11"], "could not convert .* from .yildegga_table_units. to .yildegga_ulps.")
    yield "c: packed structs are refused", lambda: refused(
        ["gcc"], "header_alone.c", ["-fpack-struct=1"],
        "size of array .yildegga_laid_out_as_in_the_archive. is negative")
    yield "c: another machine is refused", lambda: refused(
        ["gcc"], "header_alone.c", ["-m32"], "#error .libyildegga.a is for x86-64")
    yield "c: the constants of the header", constants
    yield "c: the limits of each precision, of two table guard bits and of any", limits
    yield "c: the image lengths of both forms and all guard bits, by the call and by the header", lengths
    yield "c: the constant nodes of precision 8", constant_nodes
    yield "c: every call around every limit, of all formats, between guard bytes, by the reference", calls_compared
    yield "c: every call around every limit, under valgrind", memory_checked
    yield "c: the builder and the check take the buffer to its end, and the other calls the image alone", past_image
    yield "c: the same bytes and answers in every rounding mode, and no flag but inexact by the builder", rounding_modes
    yield "c: the archive calls nothing outside itself but memset", asked_for
    yield "c: the archive exports the calls of the header and nothing else", exported
    yield "c: the version of the header, in numbers and as a string, is pkg-config's", version
    yield "c: the refusals in words: each has a text of its own, and so have 0 and any other number", refusals_in_words
    yield "c: make install, and pkg-config finds it", installed
    yield "c: make install with DESTDIR and LIBDIR, and make uninstall", installed_elsewhere
    yield "c: make install refuses names that it would take apart", names_not_taken
    yield "c: make clean, and make after it", clean
    yield from c_examples.tests()
