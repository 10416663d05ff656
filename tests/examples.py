"""What the examples print, those in C and those in Rust alike, by reference.py; files that they are tried on; and what
is printed by the commands of a page."""
import os
import pty
import re
import subprocess
import tty

import reference


PLAIN, FULL = reference.PLAIN, reference.FULL
GUARD_BITS = [(a, b) for a in (2, 3, 4) for b in (3, 4, 5)]
TABLES = [(form, a, b) for form in (PLAIN, FULL) for a, b in GUARD_BITS]  # form, table guard bits and input guard bits


def options(form=PLAIN, a=2, b=3):
    """The options that ask for a table, all of them, though 2 and 3 need none."""
    return [*(["--full"] if form else []), "-a", str(a), "-b", str(b)]


def wrong_tail(k, at, byte, form=PLAIN, a=2):
    """The exit status of `proofread` where this is the first byte with a set bit behind the words, and its lines."""
    right = reference.image(k, form, a)
    what, should = ("filling bits", right[at]) if at < len(right) else ("tail", 0)
    return 1, (f"wrong {what} at byte {at}: {byte:02X}\n"
               f"should be {should:02X}: the image is bytes 0 to {len(right) - 1}\n")


def proof(k, data, form=PLAIN, a=2):
    """The exit status of `proofread` on a file that holds a full ROM, a wrong word or a wrong tail, and its lines."""
    number, j, _ = reference.call_check(k, data, form, a)
    if number == 0:
        return 0, "right\n"
    if number == 7:
        return wrong_tail(k, j, data[j], form, a)
    assert number == 6, number
    width, words = reference.width(k, form, a), reference.count(k, form)
    first, last = j * width // 8, (j * width + width - 1) // 8
    images = data, reference.image(k, form, a)
    found, right = (reference.call_word_bytes(k, each, j, form, a).hex(" ").upper() for each in images)
    wrong = sum(reference.word_is_wrong(k, data, each, form, a) for each in range(words))
    return 1, (f"wrong word at node {j}, bytes {first} to {last}: {found}\n"
               f"should be {right}: node {j} is {reference.node(k, j, a)} table units\n"
               f"wrong words: {wrong} of {words}\n")


def too_short(found, wanted):
    """What `proofread` says of a file that is shorter than the image."""
    return (f"proofread: refusal 2: the buffer is shorter than the image: the file has {found} bytes, "
            f"and the image {wanted}\n")


MIB = 2 ** 20


def sizes(k):
    """Of ROMs of precision k: about its image, and past the longest image; with some MiB at two precisions."""
    length = reference.LENGTHS[k - 1]
    return [length, length + 1, length + 100, 13313, 65536, *([3 * MIB + 5] if k in (2, 12) else [])]


def full_rom(k, size, form=PLAIN, a=2):
    return reference.image(k, form, a).ljust(size, b"\0")


def long_roms():
    """Precisions and files past 13,312 bytes, right and damaged, each with the exit status and the lines of
    `proofread`, which follow from the bytes that are damaged: the first and the last of the tail, one between, two of
    them, and a wrong word beside them."""
    for k in range(1, 13):
        length = reference.LENGTHS[k - 1]
        for size in sizes(k)[3:]:
            last, between = size - 1, (13312 + size) // 2
            yield k, full_rom(k, size), (0, "right\n")
            for first, *others in {(length,), (between,), (last,), (between, last), (length, last)}:
                rom = bytearray(full_rom(k, size))
                for at in (first, *others):
                    rom[at] = 0x80 >> at % 8
                yield k, bytes(rom), wrong_tail(k, first, rom[first])
                rom[length - 1] ^= 1
                yield k, bytes(rom), proof(k, bytes(rom[:length]))


# ---- what no example may take much memory for, and input that cannot be read

LIMIT = "ulimit -v 262144 && exec"  # KiB of memory; a program with sanitizers needs more


def limited(program, *words, given="/dev/null"):
    """The status of a program that may have little memory, what it prints and what it says."""
    with open(given, "rb") as stdin:
        done = subprocess.run(["sh", "-c", f'{LIMIT} "$0" "$@"', program, *words], stdin=stdin, capture_output=True,
                              text=True, timeout=60)
    return done.returncode, done.stdout, done.stderr


def without_end(program):
    """A file that has no end fills the memory that `proofread` may have, and it says so."""
    found = limited(program, "2", "/dev/zero")
    return None if found == (2, "", "proofread: /dev/zero: out of memory\n") else f"{found}"


def no_room(program, folder):
    """A ROM for which there is no memory ends `order_image` with a message, and makes no file."""
    found = limited(program, "2", folder / "huge", "--size", str(2 ** 30))
    if found != (2, "", "order_image: out of memory\n"):
        return f"{found}"
    found = limited(program, "13", folder / "huge", "--size", str(2 ** 30))  # none is asked for without a table
    if found != (1, "", "order_image: refusal 1: the precision is below 1 or above 12\n"):
        return f"{found}"
    return "it made a file" if (folder / "huge").exists() else None


def line_without_end(program):
    """A line that has no end is turned back as soon as it is too long: `reciprocals` keeps no more of it."""
    found = limited(program, "2", "7", given="/dev/zero")
    expected = 2, "", "reciprocals: operand 1 is a line of more than 1000 bytes\n"
    return None if found == expected else f"{found}"


def given_up(program, **more):
    """A list of operands without end is given up where its lines cannot be written."""
    with open("/dev/full", "wb") as full, subprocess.Popen(["yes", "128"], stdout=subprocess.PIPE) as operands:
        done = subprocess.run([program, "2", "7"], stdin=operands.stdout, stdout=full, stderr=subprocess.PIPE,
                              timeout=20, **more)
    said = done.stderr.decode().replace(" (os error 28)", "")
    told = (done.returncode, said) == (2, "reciprocals: No space left on device\n")
    return None if told else f"status {done.returncode}, said {said!r}"


def read_to_an_error(words, **more):
    """The status of a program whose standard input has the lines 128 and 256, then the beginning of a third one, 13,
    and cannot be read from there on, and what it prints and says."""
    master, slave = pty.openpty()  # once the other end is closed, the first one is read to an error, not to an end
    try:
        tty.setraw(slave)
        os.write(slave, b"128\n256\n13")
        os.close(slave)
        done = subprocess.run(words, stdin=master, capture_output=True, timeout=60, **more)
    finally:
        os.close(master)
    return done.returncode, done.stdout.decode(), done.stderr.decode()


def line_of(k, n, x, form=PLAIN, a=2, b=3):
    """The line of `reciprocals` for an operand."""
    number, place, value = reference.call_reciprocal(k, reference.image(k, form, a), n, x, form, a, b)
    return f"{x} refused {number} {place}\n" if number else f"{x} {value}\n"


def lines_of(k, n, operands, *table):
    """The exit status of `reciprocals` on operands, and its lines."""
    lines = "".join(line_of(k, n, x, *table) for x in operands)
    return (1 if "refused" in lines else 0), lines


def blocks(page, language):
    """The blocks of a page that are marked as of a language, in their order."""
    return re.findall(rf"^```{language}\n(.*?)^```$", page.read_text(), re.M | re.S)


def commands_print(page, folder, **variables):
    """Each line of a page's text that begins with `$ ` is a command; run in a folder, it prints the lines below it and
    no others."""
    asked = [part for block in blocks(page, "text") for part in re.split(r"^\$ ", block, flags=re.M)[1:]]
    for part in asked:
        command, _, expected = part.partition("\n")
        done = subprocess.run(["sh", "-c", command], cwd=folder, stdin=subprocess.DEVNULL, stdout=subprocess.PIPE,
                              stderr=subprocess.STDOUT, text=True, timeout=600, **variables)
        if done.stdout != expected:
            return f"{command}: printed {done.stdout[:300]!r}, the page has {expected!r}"
    return None if asked else "the page has no command"
