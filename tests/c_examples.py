"""Tests of the examples in c/examples, built as a user builds them: what they print is compared with reference.py."""
import functools
import itertools
import os
import random
import re

import reference
from c_build import C_WARNINGS, ROOT, WARNINGS, archive, files, make, pkg_config, prefix, room, run, well
from examples import (
    FULL, GUARD_BITS, PLAIN, TABLES, blocks, commands_print, full_rom, given_up, line_without_end, lines_of, long_roms,
    no_room, options, proof, read_to_an_error, sizes, too_short, without_end)

EXAMPLES = ["bench_words", "order_image", "proofread", "reciprocals"]
SANITIZED = 77  # the status of a program that a sanitizer has stopped
WITH = {**os.environ, "ASAN_OPTIONS": f"exitcode={SANITIZED}:detect_leaks=0:allocator_may_return_null=1",
        "UBSAN_OPTIONS": f"exitcode={SANITIZED}"}


@functools.cache
def example(name):
    """An example as a user builds it, by the flags of pkg-config, with all warnings on and with the sanitizers."""
    program = room() / name
    flags = pkg_config(prefix() / "lib", "--cflags", "--libs")
    well("gcc", "-g", "-O1", "-std=c99", *C_WARNINGS, "-fsanitize=address,undefined", "-fno-sanitize-recover=all",
         "-o", program, ROOT / "c" / "examples" / f"{name}.c", *flags)
    return program


def own_words(said):
    """What an example says on standard error, without what a sanitizer adds where memory is refused."""
    return re.sub(r"^==\d+==WARNING: AddressSanitizer failed to allocate 0x\w+ bytes\n", "", said, flags=re.M)


def ask(name, *words, **more):
    """The status of an example, what it prints, and what it says on standard error."""
    done = run(example(name), *words, env=WITH, timeout=60, **more)
    return done.returncode, done.stdout.decode(), own_words(done.stderr.decode())


def mask_file(data):
    path = room() / "mask"
    path.write_bytes(data)
    return path


def made():
    """`make examples`, and what each of them does first of all."""
    make("examples")
    there = ROOT / "target" / "examples"
    if files(there) != set(EXAMPLES):
        return f"there are {files(there)}"
    path = room() / "ordered"
    if well(there / "order_image", "2", path) != "2 3\n":
        return "order_image does not print the precision and the bytes"
    if path.read_bytes() != bytes.fromhex("02758A"):
        return f"the image of precision 2 is {path.read_bytes().hex()}"
    if well(there / "proofread", "2", path) != "right\n":
        return "proofread does not accept it"
    found = well(there / "reciprocals", "2", "7", "135")
    if found != "135 30\n":
        return found
    found = well(there / "bench_words", "2")
    return None if found == "0 128\n1 103\n2 86\n3 74\n4 64\n" else found


def ordered():
    for k in range(1, 13):
        path = room() / "ordered"
        path.unlink(missing_ok=True)
        found = ask("order_image", str(k), path)
        if found != (0, f"{k} {reference.LENGTHS[k - 1]}\n", "") or path.read_bytes() != reference.image(k):
            return f"precision {k}: {found}"
        for size in sizes(k):
            found = ask("order_image", str(k), path, "--size", str(size))
            if found != (0, f"{k} {size}\n", "") or path.read_bytes() != full_rom(k, size):
                return f"precision {k}, a ROM of {size} bytes: {found}"
    make("examples")
    return no_room(ROOT / "target" / "examples" / "order_image", room())  # no sanitizer, which needs room of its own


def ordered_and_read():
    """An image or a ROM of any form and guard bits goes from `order_image` through `proofread` to `reciprocals`, by the
    same options, wherever these stand. A table whose image is another is told by `proofread`."""
    path = room() / "ordered"
    for k, (form, a, b) in itertools.product(range(1, 13), TABLES):
        image, asked = reference.image(k, form, a), options(form, a, b)
        for size, more in (len(image), []), (len(image) + k, ["--size", str(len(image) + k)]):
            path.unlink(missing_ok=True)
            found = ask("order_image", *around(asked + more, str(k), path))
            if found != (0, f"{k} {size}\n", "") or path.read_bytes() != image.ljust(size, b"\0"):
                return f"precision {k}, {asked}, a ROM of {size} bytes: {found}"
        found = ask("proofread", *around(asked, str(k), path))
        if found != (0, "right\n", ""):
            return f"precision {k}, {asked}: {found}"
        n = 2 * k + b
        operands = [2 ** n, 2 ** n + 1, 2 ** n + 2 ** (n - 1) // 3, 2 ** (n + 1) - 1, 2 ** (n + 1)]
        found = ask("reciprocals", *around(asked, str(k), str(n), *map(str, operands)))
        if found != (*lines_of(k, n, operands, form, a, b), ""):
            return f"precision {k}, {asked}: {found}"
        other = (1 - form, a, b) if k % 2 else (form, 2 + (a - 1) % 3, b)
        wrong = proofread_of(k, path.read_bytes(), *other[:2])
        if ask("proofread", str(k), path, *options(*other)) != wrong:
            return f"precision {k}, {asked}, read as {other}: not {wrong}"
    return None


def around(asked, *words):
    """A call whose options stand before the words, between them or behind them; which, the words decide."""
    at = sum(map(len, map(str, words))) % (len(words) + 1)
    return [*words[:at], *asked, *words[at:]]


def proofread_of(k, data, form, a):
    """What `proofread` does on a file of any content and length, where its format is served."""
    wanted = reference.length(k, form, a)
    return (1, "", too_short(len(data), wanted)) if len(data) < wanted else (*proof(k, data, form, a), "")


def proofread():
    """Right images, each single bit of that of precision 2 wrong, some bits of each, tails, and files that hold
    something else."""
    rng = random.Random(4)
    masks = [(2, bytes.fromhex("02758A")), (2, bytes(3)), (12, bytes(20000)), (1, b"\x06" * 20000), (3, b"\xff" * 8),
             *((2, bytes.fromhex(text)) for text in ("02758A00", "02758A0001", "02758A01", "02758B01", "02758B00"))]
    for k in range(1, 13):
        right = reference.image(k)
        bits = 8 * len(right)
        masks += [(k, right + tail) for tail in (b"", b"\0", b"\x01", bytes(99) + b"\x80", b"\x40" + bytes(99))]
        for bit in range(24) if k == 2 else [0, bits - 1, *rng.choices(range(bits), k=4)]:
            masks.append((k, flipped(right, bit)))
    for k, data in masks:
        found, expected = ask("proofread", str(k), mask_file(data)), (*proof(k, data), "")
        if found != expected:
            return f"precision {k}, {data[:20].hex()}: {found}, expected {expected}"
    word = ask("proofread", "2", mask_file(bytes.fromhex("02758B01")))[1]
    tail = ask("proofread", "2", mask_file(bytes.fromhex("02758A0001")))[1]
    if word != "wrong word at node 3, bytes 2 to 2: 8B\nshould be 8A: node 3 is 74 table units\nwrong words: 1 of 4\n":
        return word
    return None if tail == "wrong tail at byte 4: 01\nshould be 00: the image is bytes 0 to 2\n" else tail


def flipped(data, *bits):
    """Bytes of which some bits are changed."""
    changed = bytearray(data)
    for bit in bits:
        changed[bit // 8] ^= 0x80 >> bit % 8
    return bytes(changed)


def proofread_formats():
    """In each form with each number of table guard bits: wrong words, one and some, filling bits and tails, and files
    that are too short."""
    rng = random.Random(8)
    met = set()
    for k, (form, a, b) in itertools.product(range(1, 13), TABLES):
        right = reference.image(k, form, a)
        bits = reference.bit_count(k, form, a)
        some = [flipped(right, *rng.sample(range(bits), count)) for count in (1, 1, 2, 5)]
        some += [flipped(right, bit) for bit in {0, bits - 1, *range(bits, 8 * len(right))}]
        for data in (*some, right, right + bytes(k), right + b"\1", bytes(len(right)), right[:-1], b""):
            found = ask("proofread", str(k), *options(form, a, b), mask_file(data))
            if found != proofread_of(k, data, form, a):
                return f"precision {k}, form {form}, {a} table guard bits, {data[:20].hex()}: {found}"
            met.add((found[1] or found[2]).split(" at ")[0])
    missing = {"right\n", "wrong word", "wrong tail", "wrong filling bits", too_short(4, 5)} - met
    one = ask("proofread", "1", "-a", "3", mask_file(bytes.fromhex("02C1")))[1]
    if one != "wrong filling bits at byte 1: C1\nshould be C0: the image is bytes 0 to 1\n":
        return one
    return f"not met were {missing}" if missing else None


def proofread_long():
    """Files past the longest image, named and through a pipe, and one without end."""
    for k, data, (status, lines) in long_roms():
        for found in (ask("proofread", str(k), mask_file(data)),
                      ask("proofread", str(k), "/dev/stdin", stdin=None, input=data)):
            if found != (status, lines, ""):
                return f"precision {k}, {len(data)} bytes: {found}, expected {status}, {lines!r}"
    make("examples")
    return without_end(ROOT / "target" / "examples" / "proofread")  # no sanitizer, which needs room of its own


def reciprocals():
    """The set examples and other operands, short ones among them, as arguments and as lines, some of them out of their
    limits."""
    rng = random.Random(7)
    asked = [(2, 7, [128, 129, 135, 160, 255]), (2, 63, [2 ** 63 + 1, 2 ** 64 - 1]), (1, 5, [32, 63]),
             (2, 7, [127, 128, 256, 255]), *((2, n, [135, 1, 0]) for n in (0, 64, 2 ** 32 - 1)),
             *((2, 7, [x, 128]) for x in (0, 2 ** 32 + 2, 2 ** 64 - 1)),
             *((2, n, range(2 ** n - 1, 2 ** (n + 1) + 1)) for n in range(1, 8))]  # all up to 7 bits, and their next
    for k in range(1, 13):
        for n in (1, rng.randint(1, 2 * k + 2), 2 * k + 2, 2 * k + 3, rng.randint(2 * k + 3, 63), 63):
            asked.append((k, n, [2 ** n, 2 ** (n + 1) - 1, *(2 ** n + rng.randrange(2 ** n) for _ in range(20))]))
    asked = [(*each, (PLAIN, 2, 3), []) for each in asked]
    for number, (k, n, operands, _, _) in enumerate(asked[-72:]):  # the same with each form and all guard bits
        table = TABLES[number % len(TABLES)]
        asked.append((k, n, operands, table, options(*table)))
    for k, n, operands, table, words in asked:
        expected = (*lines_of(k, n, operands, *table), "")
        lines = "".join(f"{x}\n" for x in operands).encode()
        for found in (ask("reciprocals", *words, str(k), str(n), *map(str, operands)),
                      ask("reciprocals", str(k), *words, str(n), stdin=None, input=lines),
                      ask("reciprocals", str(k), str(n), *words, stdin=None, input=lines[:-1])):  # no last line feed
            if found != expected:
                return f"precision {k}, {n} fraction bits, {words}: {found}, expected {expected}"
    found = ask("reciprocals", "2", "7", stdin=None, input=b"")
    return None if found == (0, "", "") else f"no operand: {found}"


def lines_bounded():
    """A line of 1000 bytes is an operand and one of 1001 is none, with a line feed and without one; the operands before
    it are answered. A line without end takes no memory, and an argument may have any length."""
    for zeros, end in itertools.product((997, 998), (b"\n", b"", b"\n128\n")):
        found = ask("reciprocals", "2", "7", stdin=None, input=b"256\n" + b"0" * zeros + b"135" + end)
        after = "128 32\n" if end == b"\n128\n" else ""
        expected = ((1, f"256 refused 5 0\n135 30\n{after}", "") if zeros == 997 else
                    (2, "256 refused 5 0\n", "reciprocals: operand 2 is a line of more than 1000 bytes\n"))
        if found != expected:
            return f"{zeros} zeros, then {end!r}: {found}"
    found = ask("reciprocals", "2", "7", "0" * 5000 + "135")
    if found != (0, "135 30\n", ""):
        return f"an argument of 5003 digits: {found}"
    make("examples")
    return line_without_end(ROOT / "target" / "examples" / "reciprocals")


def bench_words():
    """Each word of a full image is the node, that of the last node too, with all guard bits."""
    for k, (a, b) in itertools.product(range(1, 13), GUARD_BITS):
        expected = 0, "".join(f"{j} {reference.node(k, j, a)}\n" for j in range(2 ** k + 1)), ""
        for words in [options(PLAIN, a, b), options(FULL, a, b)] + ([[]] if (a, b) == (2, 3) else []):
            found = ask("bench_words", *around(words, str(k)))
            if found != expected:
                return f"precision {k}, guard bits {words}: {found[0]}, {found[1][-200:]}, {found[2]}"
    return None


NO_NUMBER = ["", "x", "+2", " 2", "2 ", "2\n", "2x", "0x2", "2.0", "2e0", "٢", "18446744073709551618", "9" * 400]
NO_OPTION = ["-", "--", "-1", "-0", "-k", "-A", "-aa", "-a2", "-a=2", "-ab", "--a", "--fully", "--FULL", "--full=1",
             "-full", "--siz", "--help"]
NO_NUMBER_32 = [*NO_NUMBER, *NO_OPTION, "--full", "-a", "4294967296", "4294967298"]
NO_PRECISION = ["0", "13", "00013", "258", "4294967295"]
NO_TABLE_GUARD_BITS = ["0", "1", "5", "0005", "258", "2147483648", "4294967295"]
NO_INPUT_GUARD_BITS = ["0", "2", "6", "0006", "259", "2147483648", "4294967295"]
USAGES = {"bench_words": "[--full] [-a A] [-b B] K", "order_image": "[--full] [-a A] [-b B] [--size SIZE] K FILE",
          "proofread": "[--full] [-a A] [-b B] K FILE", "reciprocals": "[--full] [-a A] [-b B] K N [X...]"}


def misused():
    """Each call that is none: the program, its words, and what is wrong with them."""
    new = room() / "new"
    rests = {"bench_words": [], "order_image": [new], "proofread": [new], "reciprocals": ["7", "135"]}
    for name, rest in rests.items():
        numbered = ["-a", "-b", *(["--size"] if name == "order_image" else [])]
        more = [] if name == "reciprocals" else [["2", *rest, "2"]]  # a word too many, where there is one
        for words in [], ["-a", "3"], *([["2"]] if rest else []), *more:
            yield name, words, ""
        for text in NO_OPTION + ([] if name == "order_image" else ["--size"]):
            yield name, [text, "2", *rest], f"{text} is no option"
            yield name, ["2", *rest, text], f"{text} is no option"
            yield name, ["--full", "-a", "9", text, "-a"], f"{text} is no option"  # it is met first
        for option in numbered:
            yield name, ["2", *rest, option], f"{option} has no number behind it"
            yield name, [option, "2", "x", *rest, option], f"{option} stands twice"
            yield name, [option, "2", "2", option, "2", *rest], f"{option} stands twice"
            for text in NO_NUMBER_32:
                yield name, [option, text, "2", *rest], f"{option} is not a number below 2^32"
                yield name, ["x", *rest, option, text], f"{option} is not a number below 2^32"
        yield name, ["--full", "2", *rest, "--full"], "--full stands twice"
        for text in set(NO_NUMBER_32) - {*NO_OPTION, "--full", "-a"}:
            yield name, [text, *rest], "K is not a number below 2^32"
            yield name, [text, *rest, "-a", "9"], "K is not a number below 2^32"
            if name == "reciprocals":
                yield name, ["2", text, "135"], "N is not a number below 2^32"
                yield name, ["13", text], "N is not a number below 2^32"


def calls_misused():
    """A call that is none is answered by what is wrong and by the usage, with status 2."""
    new = room() / "new"
    new.unlink(missing_ok=True)
    for name, words, why in misused():
        found = ask(name, *words)
        expected = 2, "", f"{name}: {why}{'; ' if why else ''}usage: {name} {USAGES[name]}\n"
        if found != expected:
            return f"{name} {words}: {found}, expected {expected}"
    return "a call that is none makes a file" if new.exists() else None


def mistakes():
    """Each mistake: the program, its words, its input, the status and how what it says begins."""
    right = mask_file(reference.image(2))
    new = room() / "new"
    new.unlink(missing_ok=True)
    rests = {"bench_words": [], "order_image": [new], "proofread": [right], "reciprocals": ["7", "135"]}
    for name, rest in rests.items():
        for text in NO_PRECISION:
            yield name, [text, *rest], b"", 1, f"{name}: refusal 1: "
        for guard_bits in [*(["-a", a] for a in NO_TABLE_GUARD_BITS), *(["-b", b] for b in NO_INPUT_GUARD_BITS),
                           ["-a", "5", "-b", "6"], ["-b", "2", "-a", "3"]]:
            sized = [["--size", "0"], ["--size", "65536", "--full"]] if name == "order_image" else []
            for more in [], ["--full"], *sized:
                yield name, ["2", *rest, *guard_bits, *more], b"", 1, (
                    f"{name}: refusal 18: the table guard bits are not 2 to 4, or the input guard bits not 3 to 5\n")
                yield name, [*more, "13", *guard_bits, *rest], b"", 1, f"{name}: refusal 1: "
    for k, *sized in (("1", "0"), ("2", "0"), ("2", "2"), ("2", "0002"), ("12", "13311"), ("2", "3", "-a", "3"),
                      ("2", "4", "--full"), ("1", "1", "-a", "3"), ("12", "15363", "--full", "-a", "4")):
        yield "order_image", [k, new, "--size", *sized], b"", 1, (
            "order_image: refusal 2: the buffer is shorter than the image\n")
    for k, size in ("0", "0"), ("13", "0"), ("13", "65536"):
        yield "order_image", [k, new, "--size", size], b"", 1, "order_image: refusal 1: "
    for name in ("order_image", "proofread"):
        yield name, ["2", room() / "none" / "mask"], b"", 2, f"{name}: {room()}/none/mask: No such file or directory"
        yield name, ["2", room()], b"", 2, f"{name}: {room()}: Is a directory"
    for words in ["2", "/dev/full"], ["12", "/dev/full"], ["2", "/dev/full", "--size", "65536"]:
        yield "order_image", words, b"", 2, "order_image: /dev/full: No space left on device"
    for k, length in (2, 0), (2, 2), (12, 13311):
        short = room() / f"short{length}"
        short.write_bytes(reference.image(k)[:length])
        yield "proofread", [str(k), short], b"", 1, too_short(length, reference.LENGTHS[k - 1])
    for text in NO_NUMBER:
        yield "reciprocals", ["2", "7", text], b"", 2, "reciprocals: operand 1 is not a number below 2^64\n"
    for text in (b"\n", b" 135\n", b"135 \n", b"135\r\n", b"135\0\n", b"135\0", b"\0", b"-135", b"--full", b"135,136\n",
                 b"9" * 1000, b"\xff\n"):
        yield "reciprocals", ["2", "7"], text, 2, "reciprocals: operand 1 is not a number below 2^64\n"


def mistakes_told():
    for name, words, given, status, beginning in mistakes():
        found, printed, said = ask(name, *words, stdin=None, input=given)
        if found != status or not said.startswith(beginning) or said.count("\n") != 1 or printed:
            return (f"{name} {words}, input {given[:20]!r}: status {found}, {printed[:100]!r}, {said[:200]!r}; "
                    f"expected {status}, {beginning!r}")
    return "a call that is turned back makes a file" if (room() / "new").exists() else None


def mistake_after_work():
    """Operands before one that is no number are answered, and none after it."""
    found = ask("reciprocals", "2", "7", "256", "135", "x", "128")
    expected = 2, "256 refused 5 0\n135 30\n", "reciprocals: operand 3 is not a number below 2^64\n"
    return None if found == expected else f"{found}"


def no_room_for_output():
    """Standard output that cannot be written, and standard input that cannot be read, are told; a line that cannot be
    read to its end is not answered."""
    worn = room() / "worn"
    worn.write_bytes(bytes.fromhex("02758A01"))
    for name, words in (("bench_words", ["2"]), ("bench_words", ["12"]), ("order_image", ["2", room() / "ordered"]),
                        ("proofread", ["2", mask_file(bytes.fromhex("02758B"))]), ("proofread", ["2", worn]),
                        ("reciprocals", ["2", "7", "135"])):
        done = run("sh", "-c", 'exec "$0" "$@" >/dev/full', example(name), *words, env=WITH)
        if done.returncode != 2 or done.stderr != f"{name}: No space left on device\n".encode():
            return f"{name}: {done}"
    done = run("sh", "-c", 'exec "$0" "$@" <&-', example("reciprocals"), "2", "7", env=WITH)
    if (done.returncode, done.stderr) != (2, b"reciprocals: Bad file descriptor\n"):
        return f"{done}"
    found = read_to_an_error([example("reciprocals"), "2", "7"], env=WITH)
    if found != (2, "128 32\n256 refused 5 0\n", "reciprocals: Input/output error\n"):
        return f"{found}"
    return given_up(example("reciprocals"), env=WITH)


# ---- c/README.md

PAGE = ROOT / "c" / "README.md"


def page_program():
    """The page's first call, copied to a shell as it stands, prints what the page says, and so it does with the header
    and the archive installed; its program is taken by all compilers without a warning."""
    archive()  # what make itself prints comes before the program's lines
    home = room() / "home"
    home.mkdir(exist_ok=True)
    first, installed, *_ = blocks(PAGE, "sh")
    expected = blocks(PAGE, "text")[0]
    for commands in first, installed:
        printed = well("sh", "-ec", commands, env={**os.environ, "HOME": str(home)})
        if not printed.endswith("\n" + expected):
            return f"printed {printed[-400:]!r}, the page has {expected!r}"
    source, program = room() / "first.c", room() / "first"
    source.write_text(re.search(r"^cat > .* <<'END'\n(.*)^END$", first, re.M | re.S)[1])
    for compiler in ["gcc", "-std=c99", *C_WARNINGS], ["g++", "-x", "c++", "-std=c++11", *WARNINGS]:
        well(*compiler, f"-I{ROOT / 'c' / 'include'}", source, "-x", "none", "-o", program, archive())
        printed = well(program)
        if printed != expected:
            return f"{compiler[0]}: printed {printed!r}, the page has {expected!r}"
    return None


def page_short():
    """It has at most 225 lines of at most 120 columns."""
    lines = PAGE.read_text().splitlines()
    wide = [number for number, line in enumerate(lines, 1) if len(line) > 120]
    return f"{len(lines)} lines, lines {wide} above 120 columns" if wide or len(lines) > 225 else None


def page_commands():
    make("examples")
    return commands_print(PAGE, ROOT)


def tests():
    yield "c: make examples", made
    yield "c: order_image writes the image of each precision, and full ROMs up to some MiB", ordered
    yield "c: images of all formats, from order_image through proofread to reciprocals", ordered_and_read
    yield "c: proofread names the first wrong word and counts them, or the first wrong byte behind them", proofread
    yield "c: proofread on images of both forms and all guard bits, right, damaged and too short", proofread_formats
    yield "c: proofread reads files past the longest image whole", proofread_long
    yield "c: reciprocals gives those of the reference", reciprocals
    yield "c: reciprocals takes lines of at most 1000 bytes", lines_bounded
    yield "c: bench_words has the nodes from the words of each full image, of all guard bits", bench_words
    yield f"c: {len(list(misused()))} calls that are none give what is wrong and the usage", calls_misused
    yield "c: a caller's mistake is told, with a status", mistakes_told
    yield "c: reciprocals stops at an operand that is no number", mistake_after_work
    yield "c: output that cannot be written and input that cannot be read are told", no_room_for_output
    yield "c: the first call of c/README.md, copied to a shell", page_program
    yield "c: c/README.md is short", page_short
    yield "c: the commands of c/README.md", page_commands
