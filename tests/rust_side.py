"""Tests of the Rust crate in rust/: its own tests and documentation, its four examples against reference.py, and what
its files owe."""
import functools
import itertools
import os
import pathlib
import random
import re
import subprocess
import tempfile

import reference
from archives import archive
from examples import (
    PLAIN, TABLES, blocks, commands_print, full_rom, given_up, line_without_end, lines_of, long_roms, no_room, options,
    proof, read_to_an_error, sizes, too_short, without_end)

ROOT = pathlib.Path(__file__).resolve().parent.parent
RUST = ROOT / "rust"
BUILT = ROOT / "target" / "cargo"
PAGE = RUST / "README.md"
DECLARATIONS = RUST / "sys" / "src" / "lib.rs"  # the one file with unsafe code


def run(words, cwd=ROOT, stdin=b"", **more):
    return subprocess.run(words, cwd=cwd, input=stdin, capture_output=True, timeout=600, **more)


def end(done):
    """None where a command ended well, else the last that it said."""
    return None if done.returncode == 0 else f"status {done.returncode}: {(done.stderr + done.stdout).decode()[-1500:]}"


def variables():
    """Those that a command of cargo is given: every warning is an error."""
    given = {name: value for name, value in os.environ.items() if name != "YILDEGGA_LIB_DIR"}
    return given | {"CARGO_TARGET_DIR": str(BUILT), "CARGO_TERM_COLOR": "never", "RUSTFLAGS": "-D warnings",
                    "RUSTDOCFLAGS": "-D warnings"}


def cargo(*words, **more):
    """A command of cargo that may fetch nothing."""
    archive()
    return run(["cargo", words[0], "--offline", "--locked", *words[1:]], cwd=RUST, env=variables() | more)


# ---- the crate's own tests

def own_tests():
    """Each file in rust/tests has tests, and they pass."""
    for path in sorted((RUST / "tests").glob("*.rs")):
        done = cargo("test", "--test", path.stem)
        why = end(done)
        if why:
            return why
        if not re.search(r"^test result: ok\. [1-9]\d* passed", done.stdout.decode(), re.M):
            return f"{path.name} has no test"
    return None if list((RUST / "tests").glob("*.rs")) else "there are no tests"


def documentation_runs():
    functions = 0
    for path in sorted((RUST / "src").glob("*.rs")):
        lines = path.read_text().splitlines()
        for at, line in enumerate(lines):
            if re.match(r"\s*pub (const )?fn ", line):
                functions += 1
                said = re.compile(r"\s*(///|#\[)")
                start = next(up for up in range(at - 1, -1, -1) if not said.match(lines[up]))
                if not any(re.match(r"\s*/// ```", above) for above in lines[start:at]):
                    return f"no example: {path.name}, {line.strip()}"
    done = cargo("test", "--doc")
    ran = re.findall(r"^test result: ok\. (\d+) passed", done.stdout.decode(), re.M)
    enough = sum(map(int, ran)) >= functions > 0
    return end(done) or (None if enough else f"{ran} examples for {functions} functions")


def no_warning():
    """No warning in any target, nor in the documentation."""
    return end(cargo("build", "--workspace", "--all-targets")) or end(cargo("doc", "--workspace", "--no-deps"))


# ---- what the files owe

def sources():
    return sorted(path for path in RUST.rglob("*.rs") if "target" not in path.relative_to(RUST).parts)


def unsafe_in_one_file():
    """The word stands in the declarations alone, and every other file that a compilation begins with forbids it."""
    bad = [str(path) for path in sources() if path != DECLARATIONS and re.search(r"\bunsafe\b", path.read_text())]
    roots = [RUST / "src" / "lib.rs", RUST / "sys" / "build.rs", *(RUST / "tests").glob("*.rs"),
             *(RUST / "examples").glob("*.rs")]
    bad += [f"{path} does not forbid it" for path in roots if "\n#![forbid(unsafe_code)]\n" not in path.read_text()]
    if not re.search(r"\bunsafe\b", DECLARATIONS.read_text()):
        bad.append("the declarations have none")
    return "; ".join(bad) or None


def nothing_fetched():
    """Cargo.lock names the two packages of the repository and no other."""
    lock = (RUST / "Cargo.lock").read_text()
    names = re.findall(r'^name = "(.*)"$', lock, re.M)
    return None if names == ["yildegga", "yildegga-sys"] and "source" not in lock else f"{names}, or one has a source"


def declared():
    """Each declaration is an exported function of crates/yildegga with its parameters, a slice as pointer and length,
    and each exported function is declared; the structs have the fields of those that it is asked and answers by."""
    exported, answers, formats, units = ((ROOT / "crates" / name / "src" / "lib.rt").read_text()
                                        for name in ("yildegga", "answers", "format", "units"))
    ours = DECLARATIONS.read_text()

    def structs(text):
        found = re.findall(r"#\[repr\(C\)\]\n(?:#\[.*\]\n)*pub struct (\w+) \{\n((?:    .*\n)*)\}", text)
        return {name: re.findall(r"^\s*pub (\w+: \w+),$", fields, re.M) for name, fields in found}

    theirs = structs(answers) | structs(formats)
    for unit in ("TableUnits", "Ulps"):
        if f"pub struct {unit}(pub u64);" not in units:
            return f"{unit} is not a u64"
    if structs(ours)["TableUnits"] != ["count: u64"]:
        return f"table units are {structs(ours)['TableUnits']}"
    same = {"Done": "Answer", "NodeRead": "Answer", "ReciprocalGiven": "Answer", "Part": "Part",
            "FormatNumbers": "Format"}
    for name, our in same.items():
        if [re.sub(r"TableUnits|Ulps", "u64", field) for field in theirs[name]] != structs(ours)[our]:
            return f"{name} has {theirs[name]}, {our} has {structs(ours)[our]}"

    def functions(text, pattern):
        return {(name, parameters, same.get(answer, answer)) for name, parameters, answer in re.findall(pattern, text)}

    # `rt fmt` gives each parameter a line where one line has no room for all.
    exported = re.sub(r"\(\n([^()]*),\n\)", lambda found: f"({' '.join(found[1].split())})", exported)
    slices = exported.replace("&mut [u8]", "*mut u8, length: usize").replace("&[u8]", "*const u8, length: usize")
    there = functions(slices.replace(": FormatNumbers", ": Format"),
                      r'#\[unsafe\(no_mangle\)\]\s*pub extern "C" fn (\w+)\((.*)\) -> (\w+)')
    here = functions(ours, r"\n    fn (\w+)\((.*)\) -> (\w+);")
    if not there:
        return "no exported function was found"
    alone = f"declared alone: {sorted(here - there)}; exported alone: {sorted(there - here)}"
    return None if here == there else alone


# ---- what the compiler refuses

HEAD = "use yildegga::*;\npub fn trial(image: &mut [u8]) -> Result<usize, Refused> {\n"
REFUSED = {
    "formats, units and lent bytes as they should be": (None, """
        let two = Format::plain(2);
        build(two, image)?;
        let table = BoundTable::new(two, image);
        let (c, r): (TableUnits, Ulps) = (table.node(1)?, table.reciprocal(7, 135)?);
        let part: &[u8] = word_bytes(two, image, 1);
        let shown = part.len();
        image[0] = 0;
        Ok(shown + (c.0 + r.0) as usize)"""),
    "forms and refusals with an arm for others": (None, """
        let words = match Format::plain(2).form() { Form::Plain => 4, Form::Full => 5, _ => 0 };
        Ok(match check(Format::plain(2), image).map_err(|refused| refused.refusal()) {
            Err(Refusal::Precision | Refusal::ShortBuffer) => 0,
            Err(other) if other == Refusal::WrongWord || other != Refusal::TailNotZero => 1,
            _ => words,
        })"""),
    "a match over forms with no arm for others": (
        "E0004", "Ok(match Format::plain(2).form() { Form::Plain => 4, Form::Full => image.len() })"),
    "a match over refusals with no arm for others": (
        "E0004", "use Refusal::*;\nlet Err(refused) = check(Format::plain(2), image) else { return Ok(0) };\n"
                 "Ok(match refused.refusal() { Precision | GuardBits | ShortBuffer | NodeNumber => 1,\n"
                 "FractionBits | NotNormalised | WrongWord | TailNotZero => 2 })"),
    "refusals compared by an order": (
        "E0369", "Ok((Refusal::GuardBits < Refusal::ShortBuffer) as usize + image.len())"),
    "refusals sorted": ("E0277", "let mut refusals = [Refusal::GuardBits, Refusal::ShortBuffer];\nrefusals.sort();\n"
                                 "Ok(refusals.len() + image.len())"),
    "table units as ulps": ("E0308", "let value: Ulps = node(Format::plain(2), image, 1)?;\nOk(value.0 as usize)"),
    "ulps as table units": ("E0308", "let value: TableUnits = reciprocal(Format::plain(2), image, 7, 135)?;\n"
                                     "Ok(value.0 as usize)"),
    "table units compared with ulps": ("E0308", "Ok((TableUnits(1) == Ulps(1)) as usize)"),
    "a precision as a format": ("E0308", "check(2, image)?;\nOk(0)"),
    "a format made of its parts": (
        "E0451", "let (precision, form) = (2, Form::Full);\n"
                 "check(Format { precision, form, table_guard_bits: 2, input_guard_bits: 3 }, image)?;\nOk(0)"),
    "table guard bits alone": ("E0061", "check(Format::plain(2).with_guard_bits(2), image)?;\nOk(0)"),
    "an image changed while a table is bound to it": (
        "E0506", "let table = BoundTable::new(Format::plain(2), image);\nimage[0] = 0;\ntable.node(0)?;\nOk(0)"),
    "an image built while a word of it is held": ("E0502", "let part = word_bytes(Format::full(2), image, 1);\n"
                                                         "build(Format::full(2), image)?;\nOk(part.len())"),
    "a word kept longer than its image": (
        "E0597", "let part = { let own = image.to_vec(); word_bytes(Format::plain(2), &own, 1) };\nOk(part.len())"),
}


def rustc(folder, text, *words):
    """What rustc does with a program that uses the crate, as it is built for debugging."""
    path = pathlib.Path(folder) / "trial.rs"
    path.write_text(text)
    debug = BUILT / "debug"
    return run(["rustc", "--edition", "2021", *words, "--out-dir", folder, path,
                "--extern", f"yildegga={debug}/libyildegga.rlib", "-L", f"dependency={debug}/deps"], cwd=RUST)


def compiled(name):
    """What the compiler says of a program that the crate's types must refuse, by the code of its error, or accept."""
    code, body = REFUSED[name]
    why = end(cargo("build"))
    if why:
        return why
    with tempfile.TemporaryDirectory() as folder:
        done = rustc(folder, HEAD + body + "\n}\n", "--crate-type", "lib", "--emit", "metadata")
    said = done.stderr.decode()
    found = re.findall(r"^error(?:\[(\w+)\])?:", said, re.M)
    if code is None:
        return end(done)
    refused = done.returncode != 0 and code in found and set(found) <= {code, ""}
    return None if refused else f"the errors are {found}: {said[:400]}"


def printed(text):
    """What a program that uses the crate prints."""
    why = end(cargo("build"))
    assert why is None, why
    with tempfile.TemporaryDirectory() as folder:
        why = end(rustc(folder, text, "-L", f"native={archive().parent}"))
        assert why is None, why
        done = run([pathlib.Path(folder) / "trial"])
    assert done.returncode == 0, end(done)
    return done.stdout.decode()


# ---- where the archive is found

OTHER_ARCHIVE = """
#include <stddef.h>
#include <stdint.h>
struct format { uint32_t precision; uint32_t form; uint32_t table_guard_bits; uint32_t input_guard_bits; };
struct answer { uint32_t number; uint64_t place; uint64_t value; };
struct answer yildegga_build(struct format format, uint8_t *image, size_t length)
{
    uint32_t numbers[4] = {format.precision, format.form, format.table_guard_bits, format.input_guard_bits};
    for (size_t at = 0; at < length; at++)
        image[at] = (uint8_t)numbers[at % 4];
    return (struct answer) {0, 0, 0};
}
"""


def archive_found():
    """The archive is taken from YILDEGGA_LIB_DIR, a new one is linked anew, and where there is none the message has the
    command."""
    with tempfile.TemporaryDirectory() as name:
        folder = pathlib.Path(name)
        lib = folder / "lib"
        lib.mkdir()

        def build():
            there = {"YILDEGGA_LIB_DIR": str(lib), "CARGO_TARGET_DIR": str(folder / "cargo")}
            return cargo("build", "--example", "order_image", **there)

        def order(*more):
            run([folder / "cargo" / "debug" / "examples" / "order_image", "2", folder / "image", *more])
            return (folder / "image").read_bytes()

        absent = build()
        said = b"make it by `make`" in absent.stderr and b"YILDEGGA_LIB_DIR" in absent.stderr
        if absent.returncode == 0 or not said:
            return f"with no archive: status {absent.returncode}, {absent.stderr[-400:]!r}"
        (lib / "libyildegga.a").write_bytes(archive().read_bytes())
        why = end(build())
        if why or order() != reference.image(2):
            return why or f"ordered {order()!r}"
        (folder / "other.c").write_text(OTHER_ARCHIVE)
        why = end(run(["gcc", "-O1", "-fPIC", "-c", "other.c", "-o", "other.o"], cwd=folder))
        (lib / "libyildegga.a").unlink()
        why = why or end(run(["ar", "rc", lib / "libyildegga.a", "other.o"], cwd=folder)) or end(build())
        there = why or [order("--size", "4"), order("--size", "4", "--full", "-a", "3", "-b", "5")]
        return why or (None if there == [b"\2\0\2\3", b"\2\1\3\5"] else f"with another archive ordered {there}")


# ---- the examples

@functools.cache
def examples():
    """The folder with the four programs."""
    why = end(cargo("build", "--examples"))
    assert why is None, why
    return BUILT / "debug" / "examples"


def example(words, stdin=b"", **more):
    return run([examples() / words[0], *words[1:]], stdin=stdin, **more)


def differs(words, done, status, output):
    """None where an example ended with this status, printed this and said nothing else."""
    if (done.returncode, done.stdout.decode(), done.stderr) == (status, output, b""):
        return None
    return (f"{words}: status {done.returncode}, printed {done.stdout[:200]!r}, said {done.stderr[:200]!r}; "
            f"expected {status}, {output[:200]!r}")


def ordered():
    """The image of each precision, in a file of just its bytes, and full ROMs of it; that of precision 2 is 02 75 8A.
    A ROM for which there is no memory is told."""
    with tempfile.TemporaryDirectory() as folder:
        for k in range(1, 13):
            file = pathlib.Path(folder) / f"image {k}"
            file.write_bytes(bytes(20000))  # what stood there goes
            words = ["order_image", str(k), file]
            why = differs(words, example(words), 0, f"{k} {reference.LENGTHS[k - 1]}\n")
            if why or file.read_bytes() != reference.image(k):
                return why or f"precision {k}: {file.read_bytes()[:40].hex(' ')}"
            rom = pathlib.Path(folder) / "rom"
            for size in sizes(k):
                words = ["order_image", str(k), rom, "--size", str(size)]
                why = differs(words, example(words), 0, f"{k} {size}\n")
                if why or rom.read_bytes() != full_rom(k, size):
                    return why or f"precision {k}, {size} bytes: {rom.read_bytes()[:40].hex(' ')}"
        if (pathlib.Path(folder) / "image 2").read_bytes() != bytes.fromhex("02758A"):
            return "the image of precision 2"
        return no_room(examples() / "order_image", pathlib.Path(folder))


def ordered_and_read():
    """An image or a ROM of any form and guard bits goes from `order_image` through `proofread` to `reciprocals`, by the
    same options. The plain image of precision 1 with three table guard bits is 02 C0, and a filling bit of it is
    told."""
    with tempfile.TemporaryDirectory() as folder:
        file = pathlib.Path(folder) / "image"
        for k, (form, a, b) in itertools.product(range(1, 13), TABLES):
            image, asked = reference.image(k, form, a), options(form, a, b)
            for size in (None, len(image), len(image) + 1, 15364):
                words = ["order_image", *asked, str(k), file, *([] if size is None else ["--size", str(size)])]
                expected = image if size is None else image.ljust(size, b"\0")
                why = differs(words, example(words), 0, f"{k} {len(expected)}\n")
                if why or file.read_bytes() != expected:
                    return why or f"precision {k}, {asked}, size {size}: {file.read_bytes()[:40].hex(' ')}"
            n = 2 * k + b
            operands = [2 ** n, 2 ** n + 1, 2 ** n + 2 ** (n - 1) // 3, 2 ** (n + 1) - 1, 2 ** (n + 1)]
            taken = ["reciprocals", str(k), *asked, str(n), *map(str, operands)]
            why = (differs(asked, example(["proofread", str(k), file, *asked]), 0, "right\n")
                   or differs(taken, example(taken), *lines_of(k, n, operands, form, a, b)))
            if why:
                return why
        example(["order_image", "-a", "3", "1", file])
        if file.read_bytes() != bytes.fromhex("02C0"):
            return f"precision 1, 3 table guard bits: {file.read_bytes().hex(' ')}"
        file.write_bytes(bytes.fromhex("02C1"))
        worn = "wrong filling bits at byte 1: C1\nshould be C0: the image is bytes 0 to 1\n"
        return differs(["proofread", "02 C1"], example(["proofread", "-a", "3", "1", file]), 1, worn)


def bench_words():
    """Each word of a full image is the node, that of the last node too, with whatever guard bits."""
    for k in range(1, 13):
        for form, a, b in (None, 2, 3), *TABLES:
            nodes = "".join(f"{j} {reference.node(k, j, a)}\n" for j in range(2 ** k + 1))
            words = ["bench_words", str(k), *([] if form is None else options(form, a, b))]
            why = differs(words, example(words), 0, nodes)
            if why:
                return why
    return None


def bench_words_at_once():
    """A short table is written as one: who takes its first lines alone, as `head` does, stops no write."""
    reader, writer = os.pipe2(os.O_DIRECT)  # what is read is what one write wrote
    try:
        subprocess.run([examples() / "bench_words", "2"], stdout=writer, timeout=60, check=True)
        found = os.read(reader, 4096)
    finally:
        os.close(reader)
        os.close(writer)
    return None if found == b"0 128\n1 103\n2 86\n3 74\n4 64\n" else f"the first write is {found!r}"


def proofread():
    """Files of each precision, right, with tails, and with some bits damaged, the set examples among them; and in each
    form, with all guard bits."""
    rng = random.Random(1)
    set_examples = ("02758A", "02758B", "000000", "06758A", "02758A00", "02758A0001", "02758B01")
    files = [(2, bytes.fromhex(text), PLAIN, 2, []) for text in set_examples]
    for k, (form, a, b) in itertools.product(range(1, 13), [(None, 2, 3), *TABLES]):
        right, asked = reference.image(k, form or PLAIN, a), [] if form is None else options(form, a, b)
        made = [right, right + b"\xff", right + bytes(20000), bytes(len(right))]
        for count in (1, 1, 1, 2, 5):
            data = bytearray(right + rng.choice([b"", b"\xff"]))
            for bit in rng.sample(range(8 * len(right)), count):
                data[bit // 8] ^= 0x80 >> bit % 8
            made.append(bytes(data))
        made.append(right[:-1] + bytes([right[-1] ^ 1]))  # a filling bit, where there are any
        files += [(k, data, form or PLAIN, a, asked) for data in made]
    met = set()
    with tempfile.TemporaryDirectory() as folder:
        file = pathlib.Path(folder) / "mask"
        for k, data, form, a, asked in files:
            file.write_bytes(data)
            status, lines = proof(k, data, form, a)
            met.add(lines.split(" at ")[0])
            done = example(["proofread", str(k), *asked, file])
            why = differs(["proofread", k, *asked, data[:20].hex(" ")], done, status, lines)
            if why or file.read_bytes() != data:
                return why or f"precision {k}: the file was changed"
    return None if met == {"right\n", "wrong word", "wrong tail", "wrong filling bits"} else f"only {met} were met"


def proofread_long():
    """Files past the longest image, named and through a pipe, and one without end."""
    with tempfile.TemporaryDirectory() as folder:
        file = pathlib.Path(folder) / "mask"
        for k, data, expected in long_roms():
            file.write_bytes(data)
            what = ["proofread", k, len(data)]
            why = (differs(what, example(["proofread", str(k), file]), *expected)
                   or differs(what, example(["proofread", str(k), "/dev/stdin"], stdin=data), *expected))
            if why:
                return why
    return without_end(examples() / "proofread")


def reciprocals():
    """Operands as arguments and as lines of standard input, at each precision, short ones and some out of their limits
    among them."""
    rng = random.Random(2)
    lists = [(2, 7, [128, 129, 135, 160, 255]), (2, 63, [2 ** 63 + 1, 2 ** 64 - 1]), (1, 5, [32, 63]),
             (2, 7, [127, 128, 256]), (2, 6, [63, 64, 127, 128]), (2, 0, [0, 1]), (2, 64, [2 ** 63]),
             (2, 2 ** 32 - 1, [0]),
             *((2, n, range(2 ** n - 1, 2 ** (n + 1) + 1)) for n in range(1, 8))]  # all up to 7 bits, and their next
    for k in range(1, 13):
        for n in (1, rng.randint(1, 2 * k + 2), 2 * k + 2, 2 * k + 3, 2 * k + 4, 52, 63):
            operands = (rng.randrange(2 ** n, 2 ** (n + 1)) for _ in range(40))
            lists.append((k, n, [2 ** n, 2 ** (n + 1) - 1, *operands]))
        lists.append((k, rng.randrange(70), [rng.getrandbits(rng.randint(1, 64)) for _ in range(20)]))
    asked = [(*each, PLAIN, 2, 3, []) for each in lists]
    asked += [(*each, *table, options(*table)) for each, table in zip(lists, itertools.cycle(TABLES))]
    seen = set()
    for k, n, operands, *table, more in asked:
        status, output = lines_of(k, n, operands, *table)
        seen |= set(re.findall(r"refused (\d)", output)) | {status}
        words = ["reciprocals", str(k), str(n), *more]
        lines = "".join(f"{x}\n" for x in operands).encode()
        why = (differs(words, example([*words, *map(str, operands)]), status, output)
               or differs(words, example(words, stdin=lines), status, output)
               or differs(words, example(words, stdin=lines[:-1]), status, output))  # no line feed after the last
        if why:
            return why
    return None if seen == {0, 1, "4", "5"} else f"only {seen} were met"


def lines_bounded():
    """A line of 1000 bytes is an operand and one of 1001 is none, with a line feed and without one; the operands before
    it are answered. A line without end takes no memory, and an argument may have any length."""
    for zeros, text in itertools.product((997, 998), (b"\n", b"", b"\n128\n")):
        done = example(["reciprocals", "2", "7"], stdin=b"256\n" + b"0" * zeros + b"135" + text)
        after = "128 32\n" if text == b"\n128\n" else ""
        expected = ((1, f"256 refused 5 0\n135 30\n{after}", "") if zeros == 997 else
                    (2, "256 refused 5 0\n", "reciprocals: operand 2 is a line of more than 1000 bytes\n"))
        if (done.returncode, done.stdout.decode(), done.stderr.decode()) != expected:
            return f"{zeros} zeros, then {text!r}: {done}"
    words = ["reciprocals", "2", "7", "0" * 5000 + "135"]
    return differs(words[:3], example(words), 0, "135 30\n") or line_without_end(examples() / "reciprocals")


# Mistakes: the arguments, the standard input, the exit status, and what the message must hold. FOLDER has the file
# `image`, the image of precision 2, the file `short`, which lacks its last byte, and the empty file `empty`.
RANGE = "refusal 1: the precision is below 1 or above 12"
GUARD_BITS = "refusal 18: the table guard bits are not 2 to 4, or the input guard bits not 3 to 5"
SHORT = "refusal 2: the buffer is shorter than the image"
USAGES = {"bench_words": "[--full] [-a A] [-b B] K", "order_image": "[--full] [-a A] [-b B] [--size SIZE] K FILE",
          "proofread": "[--full] [-a A] [-b B] K FILE", "reciprocals": "[--full] [-a A] [-b B] K N [X...]"}
RESTS = {"bench_words": [], "order_image": ["FOLDER/new"], "proofread": ["FOLDER/image"], "reciprocals": ["7", "128"]}
NO_NUMBER = ["", "two", "+2", "2.0", " 2", "0x2", "4294967296", "18446744073709551616", b"\xff"]
NO_OPTION = ["-", "--", "-1", "-k", "-A", "-a2", "-a=2", "--a", "--fully", "--FULL", "--full=1", "-full", "--siz",
             "--help"]
NO_GUARD_BITS = [["-a", "1"], ["-a", "5"], ["-b", "2"], ["-b", "6"], ["-a", "0", "-b", "0"], ["-a", "4294967295"],
                 ["-b", "4294967295"]]
K, SIZE, OPERAND = "K is not a number below 2^32", "--size is not a number below 2^32", "is not a number below 2^64"


def misused():
    """Calls that are none: an option that there is not, that stands twice or lacks its number, a number that is none or
    has more than 32 bits, too few words and too many."""
    for name, rest in RESTS.items():
        def usage(*words, why="", name=name):
            return name, words, b"128\n", 2, f"{name}: {why}{'; ' if why else ''}usage: {name} {USAGES[name]}\n"

        yield usage()
        yield usage("-a", "3")
        if rest:
            yield usage("2")
        if name != "reciprocals":
            yield usage("2", *rest, "2")
        numbered = ["-a", "-b", *(["--size"] if name == "order_image" else [])]
        for text in NO_OPTION + ([] if name == "order_image" else ["--size"]):
            yield usage(text, "2", *rest, why=f"{text} is no option")
            yield usage("2", *rest, text, why=f"{text} is no option")
        for option in numbered:
            yield usage("2", *rest, option, why=f"{option} has no number behind it")
            yield usage(option, "2", "2", *rest, option, "2", why=f"{option} stands twice")
            for text in [*NO_NUMBER, "-1", "--full", "-a"]:
                yield usage(option, text, "2", *rest, why=f"{option} is not a number below 2^32")
        yield usage("--full", "2", *rest, "--full", why="--full stands twice")
        for text in NO_NUMBER:
            yield usage(text, *rest, why=K)
        if name == "reciprocals":
            for text in NO_NUMBER:
                yield usage("2", text, "128", why="N is not a number below 2^32")


MISTAKES = [
    *misused(),
    *((name, [*asked, k, *rest], b"128\n", 1, RANGE) for name, rest in RESTS.items() for k in ("0", "13", "4294967295")
      for asked in ([], ["--full"], ["-a", "9"])),
    *((name, [k, *rest, *asked, *full], b"128\n", 1, GUARD_BITS) for name, rest in RESTS.items()
      for k in ("1", "2", "12") for asked in NO_GUARD_BITS for full in ([], ["--full"])),
    *(("order_image", ["2", "FOLDER/new", "--size", size, "-b", "6"], b"", 1, GUARD_BITS) for size in ("0", "4")),
    *(("order_image", [k, "FOLDER/new", "--size", *size], b"", 1, SHORT) for k, *size in (
        ("1", "0"), ("2", "0"), ("2", "2"), ("2", "0002"), ("12", "13311"), ("1", "1", "-a", "3"),
        ("2", "3", "-a", "3"), ("12", "13823", "-a", "3"), ("2", "4", "--full"))),
    *(("order_image", [k, "FOLDER/new", "--size", size], b"", 1, RANGE) for k, size in (("0", "0"), ("13", "65536"))),
    ("order_image", ["2", "/dev/full", "--size", "65536"], b"", 2, "No space left"),
    ("order_image", ["2", "FOLDER"], b"", 2, "directory"),
    ("order_image", ["2", ""], b"", 2, "No such file"),
    ("order_image", ["2", "FOLDER/none/new"], b"", 2, "No such file"),
    ("order_image", ["2", b"FOLDER/\xff/new"], b"", 2, "No such file"),
    ("order_image", ["2", "/dev/full"], b"", 2, "No space left"),
    ("proofread", ["2", "FOLDER"], b"", 2, "directory"),
    ("proofread", ["2", "FOLDER/new"], b"", 2, "No such file"),
    ("proofread", ["2", b"FOLDER/\xff"], b"", 2, "No such file"),
    ("proofread", ["2", "FOLDER/short"], b"", 1, too_short(2, 3)),
    ("proofread", ["2", "FOLDER/empty"], b"", 1, too_short(0, 3)),
    ("proofread", ["12", "FOLDER/image"], b"", 1, too_short(3, 13312)),
    ("proofread", ["2", "FOLDER/image", "--full", "-a", "4"], b"", 1, too_short(3, 7)),
    *(("reciprocals", ["2", "7", x], b"", 2, f"operand 1 {OPERAND}")
      for x in ("", "x", "+128", "1.5", "1 2", "18446744073709551616", b"\xff")),
    *(("reciprocals", ["2", "7"], line, 2, f"operand 1 {OPERAND}")
      for line in (b"\n", b"x\n", b"-1\n", b"--full\n", b"128 \n", b"128\r\n", b"128,129\n", b"128\0\n", b"\xff\n")),
]


def mistakes():
    """A message of one line under the program's name, the exit status, nothing printed, and no file made or changed."""
    with tempfile.TemporaryDirectory() as name:
        folder = pathlib.Path(name)
        files = {"image": reference.image(2), "short": reference.image(2)[:-1], "empty": b""}
        for file, data in files.items():
            (folder / file).write_bytes(data)
        for program, words, stdin, status, message in MISTAKES:
            words = [os.fsencode(word).replace(b"FOLDER", os.fsencode(name)) for word in words]
            done = example([program, *words], stdin=stdin)
            said = done.stderr.decode(errors="replace")
            if not (done.returncode == status and said.startswith(f"{program}: ") and message in said
                    and said.count("\n") == 1 and done.stdout == b"" and "panicked" not in said):
                return (f"{program} {words} {stdin!r}: status {done.returncode}, printed {done.stdout[:80]!r}, "
                        f"said {said!r}, expected {message!r}")
            if {file.name: file.read_bytes() for file in folder.iterdir()} != files:
                return f"{program} {words}: the folder has {list(folder.iterdir())}"
    return None


def streams_closed():
    """Where the output cannot be written or the input cannot be read, a message and exit status 2, and no panic. A line
    that cannot be read to its end is not answered."""
    with tempfile.TemporaryDirectory() as folder:
        file = pathlib.Path(folder) / "image"
        file.write_bytes(reference.image(2))
        worn = pathlib.Path(folder) / "worn"
        worn.write_bytes(reference.image(2) + b"\1")
        for words in (["order_image", "2", file], ["proofread", "2", file], ["proofread", "2", worn],
                      ["reciprocals", "2", "7", "128"], ["bench_words", "2"]):
            call = [examples() / words[0], *words[1:]]
            with open("/dev/full", "wb") as full:
                done = subprocess.run(call, stdin=subprocess.DEVNULL, stdout=full, stderr=subprocess.PIPE)
            reader, writer = os.pipe()
            os.close(reader)  # nobody reads what it prints
            gone = subprocess.run(call, stdin=subprocess.DEVNULL, stdout=writer, stderr=subprocess.PIPE)
            os.close(writer)
            for each in (done, gone):
                said = each.stderr
                if each.returncode != 2 or not said.startswith(words[0].encode() + b": ") or b"panicked" in said:
                    return f"{words}: status {each.returncode}, said {said!r}"
    found = read_to_an_error([examples() / "reciprocals", "2", "7"])
    expected = 2, "128 32\n256 refused 5 0\n", "reciprocals: Input/output error (os error 5)\n"
    return f"input that cannot be read: {found}" if found != expected else given_up(examples() / "reciprocals")


def page_first_call():
    """The page's first call, copied to a shell as it stands but for the folder, prints what the page says."""
    archive()
    commands, expected = blocks(PAGE, "sh")[0], blocks(PAGE, "text")[0]
    with tempfile.TemporaryDirectory() as folder:
        commands = commands.replace("/tmp/first-call", f"{folder}/first-call")
        done = run(["sh", "-ec", commands], env=variables() | {"CARGO_TARGET_DIR": f"{folder}/cargo"})
    return end(done) or (None if done.stdout.decode().endswith("\n" + expected) else f"printed {done.stdout[-400:]!r}")


def page_short():
    """It has at most 200 lines of at most 120 columns."""
    lines = PAGE.read_text().splitlines()
    wide = [number for number, line in enumerate(lines, 1) if len(line) > 120]
    return f"{len(lines)} lines, lines {wide} above 120 columns" if wide or len(lines) > 200 else None


def page_commands():
    examples()
    return commands_print(PAGE, RUST, env=variables() | {"CARGO_NET_OFFLINE": "true"})


def tests():
    yield "rust: the crate's own tests", own_tests
    yield "rust: the examples in its documentation run, and each open function has one", documentation_runs
    yield "rust: no warning, nor any in its documentation", no_warning
    yield "rust: unsafe code stands in one file", unsafe_in_one_file
    yield "rust: nothing is fetched", nothing_fetched
    yield "rust: the declarations are the exported functions", declared
    for name, (code, _) in REFUSED.items():
        yield f"rust: the compiler {'refuses' if code else 'accepts'} {name}", lambda name=name: compiled(name)
    yield "rust: the archive is found, linked anew where it changed, and asked for where it is absent", archive_found
    yield "rust: order_image writes each image, and full ROMs up to some MiB", ordered
    yield "rust: images of all formats, from order_image through proofread to reciprocals", ordered_and_read
    yield "rust: proofread names the first wrong word and counts them, or the first wrong byte behind them", proofread
    yield "rust: proofread reads files past the longest image whole", proofread_long
    yield "rust: reciprocals are the reference's", reciprocals
    yield "rust: reciprocals takes lines of at most 1000 bytes", lines_bounded
    yield "rust: bench_words has the nodes from the words of each full image, with all guard bits", bench_words
    yield "rust: bench_words writes a short table at once", bench_words_at_once
    yield f"rust: {len(MISTAKES)} mistakes in calling the examples give a message and an exit status", mistakes
    yield "rust: an example whose output cannot be written, or whose input cannot be read, says so", streams_closed
    yield "rust: the first call of rust/README.md, copied to a shell", page_first_call
    yield "rust: rust/README.md is short", page_short
    yield "rust: the commands of rust/README.md", page_commands
