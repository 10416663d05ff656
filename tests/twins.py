"""Tests that the examples in C and those in Rust are twins: on the same arguments, files and input they print the same,
end with the same status, leave the same files and give the same message. That what they print is right, c_examples.py
and rust_side.py test. And tests that the header and the crate have one version and the same words for each refusal."""
import os
import pathlib
import random
import re
import signal
import subprocess
import tempfile

import c_examples
import c_side
import reference
import rust_side
from examples import FULL, MIB, PLAIN, TABLES, full_rom, options, read_to_an_error

ROOT = pathlib.Path(__file__).resolve().parent.parent

# What stands in the folder of a run.
FILES = {
    "right": reference.image(2), "longer": reference.image(2) + b"\xff", "short": reference.image(2)[:-1], "empty": b"",
    "damaged": bytes.fromhex("02758B"), "first wrong": bytes.fromhex("82758A"), "zeros": bytes(3),
    "three": reference.image(3), "twelve": reference.image(12), "twelve, longer": reference.image(12) + bytes(20000),
    "twelve, short": reference.image(12)[:-1],
    "twelve, damaged": reference.image(12)[:-1] + bytes([reference.image(12)[-1] ^ 1]),
    "full": reference.image(2) + bytes(5), "tail, first": reference.image(2) + b"\1" + bytes(4),
    "tail, last": reference.image(2) + bytes(4) + b"\x80", "word and tail": bytes.fromhex("02758B01"),
    "twelve, tail": reference.image(12) + b"\1", "one": reference.image(1) + bytes(1),
}
# Images and ROMs of other tables, right and damaged, by precision, form and table guard bits.
OTHERS = {f"{k}, {form}, {a}{what}": data for k in (1, 2, 12) for form in (PLAIN, FULL) for a in (2, 3, 4)
          for right in [reference.image(k, form, a)]
          for what, data in ((", right", right), (", longer", right + bytes(3)), (", tail", right + bytes(2) + b"\x10"),
                             (", last bit", right[:-1] + bytes([right[-1] ^ 1])), (", short", right[:-1]),
                             (", words", bytes([right[0] ^ 1]) + right[1:-1] + bytes([right[-1] ^ 0xf0])))}
# Those that stand there only where they are named.
LONG = {
    "long": full_rom(2, 65536), "long, tail": full_rom(2, 65535) + b"\1", "twelve, long": full_rom(12, 65536),
    "some MiB": full_rom(2, 3 * MIB + 5), "some MiB, tail": full_rom(2, 3 * MIB + 5) + b"\xff" + bytes(7),
    "some MiB, word and tail": bytes([0x02, 0x75, 0x8B]) + bytes(3 * MIB) + b"\xff", **OTHERS,
}
NO_NUMBER = ["", " ", "x", "+", "+0", "+2", "++2", " 2", "2 ", "2\n", "2x", "0x2", "2.0", "2e0", "2_0", "2,0", "٢",
             b"\xff", "18446744073709551616", "18446744073709551618", "9" * 20, "1" + "0" * 20, "9" * 400]
WIDE = ["4294967296", "4294967298", "18446744073709551615"]  # numbers, but of more than 32 bits
NO_OPTION = ["-", "--", "-1", "-0", "-x", "-A", "-a2", "-a=2", "-aa", "--a", "--FULL", "--full=1", "--fully", "-full",
             "--siz", "--size=4", "--help", "-a ", b"-\xff", b"--full\xff", b"-\xe2\x88", "-٢", "-\n"]
PRECISIONS = ["0", "1", "2", "002", "0" * 400 + "2", "3", "12", "13", "258", "4294967295"]
# Guard bits, in range and out of it, asked for by options.
GUARD_BITS = [options(PLAIN, a, b) for a in (2, 3, 4) for b in (3, 4, 5)] + [
    ["-a", "3"], ["-b", "4"], ["-b", "5", "-a", "4"]]
WRONG_GUARD_BITS = [["-a", a] for a in ("0", "1", "5", "258", "2147483648", "4294967295")] + [
    ["-b", b] for b in ("0", "2", "6", "259", "2147483648", "4294967295")] + [
    options(PLAIN, a, b) for a, b in ((5, 6), (3, 2), (0, 0))] + [["-a", "002", "-b", "0" * 400 + "3"]]


def placed(asked, words):
    """The calls in which options stand before the words, behind them, and between them."""
    yield [*asked, *words]
    yield [*words, *asked]
    if len(words) > 1:
        yield [words[0], *asked, *words[1:]]
        yield [*asked[:1], *words, *asked[1:]]  # no longer in front of its number, where it has one


def misused(words, sizes=False):
    """Calls that are none: options that there are not, that stand twice or lack their number, and numbers that are
    none, alone, beside one another, and beside words that are wrong too."""
    numbered = ["-a", "-b", "--size"]  # the last one is an option of order_image alone
    for option in [*NO_OPTION, *numbered, "--full"]:
        yield [option]
        yield [option, option]
        yield [option, *words]
        yield [*words, option]
        yield [*words, "--full", option, "--full"]
        yield [words[0], option, *words[1:], option]
        yield ["x", *words[1:], option]
        yield ["-a", option, *words]
    for option in numbered:
        for text in [*NO_NUMBER, *WIDE, "2"]:
            yield [option, text, *words]
            yield ["x", *words[1:], option, text]
        yield [option, "2"]
        yield [option, "2", *words, option, "3"]
        yield [option, "x", *words, option, "3"]
        yield [option, "2", "-x", option]
        yield [option, "9", *words, "-x"]
    yield ["-a", "3", "--full", *words, "-b", "4", *(["--size", "65536"] if sizes else [])]


def bench_words():
    for words in ([], ["2", "2"], ["2", ""], ["", ""], ["x", "y"], ["13", "2"], ["2", "3", "3"], ["", "", ""]):
        yield words, b""
    for words in misused(["2"]):
        yield words, b""
    for k in [*map(str, range(1, 13)), *PRECISIONS, *NO_NUMBER, *WIDE]:
        yield [k], b""
        yield [k, "--full"], b""
    for k in "1", "2", "3", "12", "0", "13":
        for guard_bits in GUARD_BITS + WRONG_GUARD_BITS:
            for words in placed(guard_bits, [k]):
                yield words, b""
        yield ["--full", k, *GUARD_BITS[-1]], b""


def order_image():
    for words in ([], ["2"], ["", ""], ["2", ""], ["new", "2"], ["2", "none/new"], ["2", "."], ["2", b"\xff/new"],
                  ["2", b"\xff"], ["2", "n" * 300], ["2", "right"], ["2", "twelve, longer"], ["2", "/dev/full"],
                  ["12", "/dev/full"], ["13", "none/new"], ["13", "right"], ["+2", "right"], ["2", "new", "4"],
                  ["2", "new", "other"], ["2", "4", "new"], ["", "", ""], ["2", "right", "2"], ["2", "new", "3", "3"],
                  ["x", "new", "x", "y", "z"], ["2", "none/new", "--size", "4", "-a", "5"],
                  ["2", "/dev/full", "--size", "65536", "-a", "4"], ["12", "twelve, longer", "--full", "-a", "4"],
                  ["2", "right", "--size", "x"], ["2", "/dev/full", "--size", "65536"],
                  ["2", "none/new", "--size", "4"], ["2", "none/new", "--size", "2"],
                  ["2", "twelve, longer", "--size", "4"], ["2", "short", "--size", "65536"],
                  ["13", "new", "--size", "2"]):
        yield words, b""
    for words in misused(["2", "new"], sizes=True):
        yield words, b""
    for k in PRECISIONS + NO_NUMBER + WIDE:
        yield [k, "new"], b""
        yield [k, "new", "--full"], b""
    for size in ["0", "1", "2", "3", "4", "004", "0" * 400 + "4", "13311", "13312", "13313", "65536", str(3 * MIB + 5)]:
        for k in "1", "2", "12", "13", "x":
            yield [k, "new", "--size", size], b""
            yield ["--size", size, "--full", k, "new"], b""
    for k in "1", "2", "12", "13", "0":
        for guard_bits in GUARD_BITS + WRONG_GUARD_BITS:
            for words in placed(guard_bits, [k, "new"]) if k == "2" else [[k, "new", *guard_bits]]:
                yield words, b""
            yield ["--full", k, "new", *guard_bits], b""
            for size in ("0", "3", "4", "5", "65536") if k in ("2", "13") else ():
                yield [k, "new", "--size", size, *guard_bits], b""


def proofread():
    for words in ([], ["2"], ["2", "right", "right"], ["", ""], ["2", ""], ["right", "2"], ["2", "none/right"],
                  ["2", "."], ["2", b"\xff"], ["2", "n" * 300], ["2", "/dev/null"], ["13", "none"], ["13", "empty"],
                  ["+2", "none"]):
        yield words, b""
    for words in misused(["2", "right"]):
        yield words, b""
    for k in PRECISIONS:
        for file in FILES:
            yield [k, file], b""
    for file in OTHERS:
        k = file.partition(",")[0]
        for form, a, b in TABLES:
            if b == 3 + (a + int(k)) % 3:  # it plays no part
                yield [*options(form, a, b), k, file], b""
        yield [k, "--full", file], b""
        yield [k, file, "-a", "4"], b""
    for guard_bits in WRONG_GUARD_BITS:
        for words in placed(guard_bits, ["2", "right"]):
            yield words, b""
        yield ["13", "right", *guard_bits], b""
        yield ["2", "empty", *guard_bits], b""
        yield ["2", "none", *guard_bits], b""
    for k in "2", "12", "13":
        for file in LONG:
            yield [k, file], b""
        for data in b"", reference.image(2), full_rom(2, 65536), full_rom(2, 65536) + b"\1", full_rom(12, 70000):
            yield [k, "/dev/stdin"], data
            yield [k, "/dev/stdin", "--full"], data
    for k in NO_NUMBER + WIDE:
        yield [k, "right"], b""


def reciprocals():
    for words in ([], ["2"], ["7"], ["", ""], ["x", "y"], ["2", "x", "y"], ["13", "x"], ["13", "99"], ["13", "7"]):
        yield words, b"128\n"
    for words in misused(["2", "7", "128"]):
        yield words, b"135\n"
    for k in PRECISIONS + NO_NUMBER + WIDE:
        yield [k, "7", "128", "135"], b""
        yield [k, "7"], b"128\n"
        yield ["2", k, "128", "135"], b""
    for n in "0", "1", "6", "7", "007", "63", "64", "4294967295":
        yield ["2", n, "1", "2", "64", "128", "9223372036854775809"], b""
    for x in ["0", "127", "128", "0128", "0" * 400 + "128", "0" * 2000 + "128", "255", "256", *WIDE, *NO_NUMBER]:
        yield ["2", "7", x], b""
        yield ["2", "7", "255", "0", x, "128"], b""  # one served and one refused before it, one after it
    for x in ["0", "127", "128", "0128", "0" * 400 + "128", "255", "256", *WIDE, *NO_NUMBER, *NO_OPTION]:
        line = os.fsencode(x)
        for text in (line, line + b"\n", b"255\n0\n" + line + b"\n128\n", line + b"\r\n", line + b"\0\n",
                     line + b"\n\n", b"\n" + line):
            yield ["2", "7"], text
    for text in (b"", b"\n", b"\n\n", b"128\n\n135\n", b"128\n135", b"128\r135\n", b"128\n\n", b"\0",
                 b"\xef\xbb\xbf128\n"):
        yield ["2", "7"], text
        yield ["2", "7", "135"], text  # it is not read
        yield ["13", "7"], text
    for length in 998, 999, 1000, 1001, 1002, 2000, 8192, 10 ** 6:  # a line that is too long ends the list
        for line in b"9" * length, b"0" * (length - 3) + b"128", b"\xff" * length, b"\0" * length:
            for text in line, b"255\n0\n" + line + b"\n128\n", line + b"\r\n", b"128\n" + line:
                yield ["2", "7"], text
    rng = random.Random(5)
    for k in range(1, 13):
        for n in rng.randint(1, 2 * k + 2), rng.randint(2 * k + 3, 63):
            operands = [str(rng.randrange(2 ** n, 2 ** (n + 1)) if rng.random() < 0.8 else rng.getrandbits(64))
                        for _ in range(500)]
            yield [str(k), str(n), *operands], b""
            yield [str(k), str(n)], "\n".join(operands).encode()
        for number, table in enumerate(TABLES):
            asked = options(*table) if number % 2 else options(*table)[:-2]
            n = rng.randint(1, 2 * k + 5)
            operands = [str(rng.randrange(2 ** n, 2 ** (n + 1))) for _ in range(40)]
            yield [*asked, str(k), str(n), *operands], b""
            yield [str(k), *asked, str(n)], "\n".join(operands).encode()
            yield [str(k), str(n), *operands, *asked], b""
    for guard_bits in WRONG_GUARD_BITS:
        for words in placed(guard_bits, ["2", "7", "128"]):
            yield words, b""
        yield ["13", "7", *guard_bits], b"128\n"
        yield ["2", "64", *guard_bits], b"128\n"


def ran(program, words, **streams):
    """The status of a program in a folder of its own, what it prints, its message, and the files that it leaves."""
    with tempfile.TemporaryDirectory() as name:
        folder = pathlib.Path(name)
        for file, data in (FILES | {file: LONG[file] for file in words if file in LONG}).items():
            (folder / file).write_bytes(data)
        done = subprocess.run([program, *words], cwd=folder, stderr=subprocess.PIPE, timeout=60, env=c_examples.WITH,
                              **{"stdout": subprocess.PIPE, **streams})
        said = c_examples.own_words(done.stderr.decode(errors="replace"))
        message = re.sub(r" \(os error \d+\)$", "", said, flags=re.M)  # what Rust adds
        files = {os.fsencode(path.name): path.read_bytes() for path in folder.iterdir()}
        return done.returncode, done.stdout, message, files


def differ(name, words, **streams):
    """The status, and None where the two agree."""
    programs = c_examples.example(name), rust_side.examples() / name
    in_c, in_rust = (ran(program, words, **streams) for program in programs)
    if in_c == in_rust:
        return in_c[0], None
    given = {key: str(value)[:60] for key, value in streams.items()}
    return in_c[0], f"{name} {str(words)[:200]} {given}: C {str(in_c[:3])[:300]}, Rust {str(in_rust[:3])[:300]}" + (
        "" if in_c[3] == in_rust[3] else ", and the files differ")


def agree(name, cases):
    seen = set()
    for words, given in cases():
        status, why = differ(name, words, input=given)
        if why:
            return why
        seen.add(status)
    return None if seen == {0, 1, 2} else f"only the statuses {seen} were met"


def streams_agree():
    """Output that cannot be written, and input that cannot be read, end both with status 2. The lines before the one
    that cannot be read to its end are answered."""
    for name, words in (("bench_words", ["2"]), ("bench_words", ["12"]), ("order_image", ["2", "new"]),
                        ("proofread", ["2", "right"]), ("proofread", ["2", "damaged"]),
                        ("proofread", ["2", "tail, first"]),
                        ("reciprocals", ["2", "7", "128"]), ("reciprocals", ["2", "7", "127"]),
                        ("reciprocals", ["2", "7", "128", "x"]), ("reciprocals", ["2", "7", *["128"] * 5000])):
        with open("/dev/full", "wb") as full:
            status, why = differ(name, words, stdin=subprocess.DEVNULL, stdout=full)
        if why or status != 2:
            return why or f"{name} {words}: status {status}"
    folder = os.open(ROOT, os.O_RDONLY)
    try:
        status, why = differ("reciprocals", ["2", "7"], stdin=folder)
    finally:
        os.close(folder)
    if why or status != 2:
        return why or f"a folder as input: status {status}"
    in_c = read_to_an_error([c_examples.example("reciprocals"), "2", "7"], env=c_examples.WITH)
    in_rust = read_to_an_error([rust_side.examples() / "reciprocals", "2", "7"])
    same = in_c[:2] == in_rust[:2] and in_rust[2] == in_c[2].replace("\n", " (os error 5)\n")
    return None if same and in_c[:2] == (2, "128 32\n256 refused 5 0\n") else f"in C {in_c}, in Rust {in_rust}"


def streams_apart():
    """What rust/README.md says to be apart. With nobody to read the output, SIGPIPE ends the program in C, and that in
    Rust ends with status 2 and a message. A standard stream that is closed, or not open for what it is there for, ends
    that in C with status 2 and a message, and is `/dev/null` for that in Rust."""
    for name, *words in (("bench_words", "12"), ("order_image", "2", "new"), ("proofread", "2", "right"),
                         ("proofread", "2", "damaged"), ("reciprocals", "2", "7", "128")):
        programs = c_examples.example(name), rust_side.examples() / name
        reader, writer = os.pipe()
        os.close(reader)
        try:
            gone = [ran(program, words, stdin=subprocess.DEVNULL, stdout=writer)[::2] for program in programs]
        finally:
            os.close(writer)
        if gone != [(-signal.SIGPIPE, ""), (2, f"{name}: Broken pipe\n")]:
            return f"{name} {words}, nobody to read the output: {gone}"
        why = closed(programs, words, f"{name}: Bad file descriptor\n", ">&-", "1</dev/null")
        if why:
            return f"{name} {words}, {why}"
    programs = c_examples.example("reciprocals"), rust_side.examples() / "reciprocals"
    return closed(programs, ["2", "7"], "reciprocals: Bad file descriptor\n", "<&-", "0>/dev/null")


def closed(programs, words, message, *ways):
    """A standard stream in some ways: in C a message and status 2, and in Rust what `/dev/null` in its place makes."""
    for way in ways:
        in_c, in_rust = (ran("sh", ["-c", f'exec "$0" "$@" {way}', program, *words]) for program in programs)
        taken = ran(programs[1], words, stdin=subprocess.DEVNULL, stdout=subprocess.DEVNULL)
        if in_c[::2] != (2, message) or (in_rust[0], *in_rust[2:]) != (taken[0], *taken[2:]) or in_rust[1]:
            return f"{way}: in C {in_c[:3]}, in Rust {in_rust[:3]}"
    return None


SAID = """use yildegga::{build, check, node, reciprocal, Format, Refused};

fn said(refused: Refused) {
    println!("{} {}", refused.number(), refused.refusal());
}

"""
# Calls that are turned back, by the number of the refusal.
TURNED_BACK = {
    1: "build(Format::plain(0), &mut [])", 18: "build(Format::plain(2).with_guard_bits(5, 3), &mut [])",
    2: "build(Format::plain(2), &mut [])", 3: "node(Format::plain(2), &[2, 117, 138], 5)",
    4: "reciprocal(Format::plain(2), &[2, 117, 138], 0, 1)", 5: "reciprocal(Format::plain(2), &[2, 117, 138], 7, 1)",
    6: "check(Format::plain(2), &[2, 117, 139])", 7: "check(Format::plain(2), &[2, 117, 138, 1])",
}


def same_words():
    """Each refusal that the header has a number for is in the same words in C and in Rust, and the crate has no
    other."""
    calls = "\n".join(f"    said({call}.unwrap_err());" for call in TURNED_BACK.values())
    lines = rust_side.printed(SAID + f"fn main() {{\n{calls}\n}}\n").splitlines()
    in_rust = {int(number): text for number, _, text in (line.partition(" ") for line in lines)}
    header = (ROOT / "c" / "include" / "yildegga.h").read_text()
    answers = header[header.index("/* The numbers of an answer"):header.index("/* The limits. */")]
    numbered = {int(number) for number in re.findall(r"^#define YILDEGGA_\w+ (\d+)u", answers, re.M)} - {0}
    source = (ROOT / "rust" / "src" / "refusal.rs").read_text()
    crate = {int(number) for number in re.findall(r"^    \w+ = (\d+),$", source, re.M)}
    texts = c_side.words_printed()[2]
    in_c = {number: texts[number] for number in numbered}
    same = in_c == in_rust and numbered == set(TURNED_BACK) == crate
    return None if same else f"in C {in_c}, in Rust {in_rust}, the crate has {sorted(crate)}"


def same_version():
    """The header, the pkg-config file and Cargo.toml state one version, and so does Cargo.lock for both packages."""
    in_header = [c_side.words_printed()[1]]
    in_c = re.findall(r"^Version: (.*)$", (ROOT / "c" / "yildegga.pc.in").read_text(), re.M)
    in_rust = re.findall(r'^version = "(.*)"$', (ROOT / "rust" / "Cargo.toml").read_text(), re.M)
    locked = re.findall(r'^version = "(.*)"$', (ROOT / "rust" / "Cargo.lock").read_text(), re.M)
    return None if in_header == in_c == in_rust and locked == 2 * in_c else (
        f"in the header {in_header}, for pkg-config {in_c}, in Rust {in_rust}, locked {locked}")


def tests():
    for name, cases in (("bench_words", bench_words), ("order_image", order_image), ("proofread", proofread),
                        ("reciprocals", reciprocals)):
        yield (f"twins: {name} in C and in Rust, on {len(list(cases()))} calls and inputs",
               lambda name=name, cases=cases: agree(name, cases))
    yield "twins: output that cannot be written, and input that cannot be read", streams_agree
    yield "twins: what is apart, output that nobody reads and standard streams that are closed", streams_apart
    yield "twins: the words of the refusals", same_words
    yield "twins: the version", same_version
