"""Tests that compare the library, called as C calls it, with the independent implementation in tests/compare/, and one
run of fewer cases under valgrind."""
import functools
import os
import pathlib
import re
import subprocess

from archives import archive
from c_build import need

ROOT = pathlib.Path(__file__).resolve().parent.parent
BUILT = ROOT / "target" / "cargo"

# The parts of a run, each with the cases that it has at least, in both forms together. Those that do not say otherwise
# have two table guard bits and three input guard bits.
OTHERS = [(a, b) for a in (2, 3, 4) for b in (3, 4, 5) if (a, b) != (2, 3)]


def cut(greatest, b=3):
    """The operands of as many fraction bits as are looked at, at the precisions up to one, in one form."""
    return sum(2 ** (2 * k + b) for k in range(1, greatest + 1))


def short(greatest, b=3):
    """The operands of fewer."""
    return sum(2 ** n for k in range(1, greatest + 1) for n in range(1, 2 * k + b))


WHOLE = {
    "every cut operand": 2 * cut(12),
    "longer operands": 73_000_000 + 9_000_000,
    "every short operand": short(12) + 20_000_000,
    "bits to the right of short operands": 20_000_000 + 4_500_000,
    "limits of operands": 4 * 19_000,
    "steps of cut operands": 2 * cut(12),
    "steps from the least operand": 2 * sum(2 ** k for k in range(1, 13)),
    "steps of operands of any length": 8_200_000,
    "image lengths": 4 * 200,
    "constant nodes": 400,
    "images built": 30_000,
    "images read": 2 * 1_050_000,
    "one bit changed": 17_700_000,
    "two bits changed": 48_000_000,
    "any content": 5_800_000,
    "every content of the shortest images": 3 * 2 ** 24 + 4 * 2 ** 24,
    "tails built": 12 * (64 + 8) * 81 * 3,
    "tails with one bit changed": (7 * 64 + 5 * 8 + 6 * 8 + 6 * 2) * 8 * sum(range(81)),
    "tails with more than one byte changed": 4_400_000,
    "filling bits": 8_200_000,
    "tails of some MiB": 25_000,
    "a tail beyond 4 GiB": 17,
    "refusals": 98_000_000 + 15_000_000,
    "upper halves of registers": 37_000,
    "no bytes": 4 * 890_000 + 1_600_000,
    "fences": 800_000,
    "cut operands with other guard bits": 2 * sum(cut(8, b) for _, b in OTHERS) + 166_000_000,
    "longer operands with other guard bits": 35_000_000,
    "short operands with other guard bits": 2 * sum(short(8, b) for _, b in OTHERS) + 44_000_000,
    "bits to the right of short operands with other guard bits": 34_000_000,
    "limits of operands with other guard bits": 8 * 4 * 19_000,
    "steps of cut operands with other guard bits": 2 * sum(cut(8, b) for _, b in OTHERS),
    "steps from the least operand with other guard bits": 8 * 2 * sum(2 ** k for k in range(1, 13)),
    "steps of operands of any length with other guard bits": 9_200_000,
    "image lengths with other guard bits": 1_400_000,
    "images built with other guard bits": 69_000,
    "images read with other guard bits": 3_100_000,
    "one bit changed with other guard bits": 7_300_000,
    "two bits changed with other guard bits": 7_800_000,
    "any content with other guard bits": 5_000_000,
    "contents of short images with other guard bits": 29_000_000,
    "tails built with other guard bits": 56_000,
    "tails with one bit changed with other guard bits": 9_100_000,
    "tails with more than one byte changed with other guard bits": 1_700_000,
    "filling bits with other guard bits": 9_500_000,
    "guard bits out of range": 10_500_000,
    "upper halves of registers with other guard bits": 370_000,
    "fences with other guard bits": 1_700_000,
}
MEMORY = {
    "blocks not written to": 320,
    "images built": 2_800,
    "images read": 198_000,
    "every short operand": 2 * short(4),
    "bits to the right of short operands": 220_000,
    "limits of operands": 4 * 26_000,
    "steps of cut operands": 2 * cut(3),
    "steps from the least operand": 2 * sum(2 ** k for k in range(1, 9)),
    "steps of operands of any length": 61_000,
    "one bit changed": 63_000,
    "two bits changed": 35_000,
    "any content": 200_000,
    "every content of the shortest images": 12_000,
    "contents of short images with other guard bits": 160_000,
    "tails built": 1_100,
    "tails with one bit changed": 186_000,
    "tails with more than one byte changed": 34_000,
    "filling bits": 140_000,
    "refusals": 2_700_000,
    "guard bits out of range": 460_000,
    "upper halves of registers": 37_000,
    "fences": 290_000,
}


def run(*words, **more):
    return subprocess.run(words, cwd=ROOT, stdin=subprocess.DEVNULL, capture_output=True, text=True, timeout=1800,
                          **more)


def well(*words, **more):
    """Runs a command that must end with status 0."""
    done = run(*words, **more)
    said = (done.stdout + done.stderr)[-400:]
    assert done.returncode == 0, f"{' '.join(map(str, words))}: status {done.returncode}: {said}"


@functools.cache
def program():
    """The comparing program, linked with the archives of the library and of the calls through a bound table."""
    archive("yildegga")
    archive("yildegga_bound")
    given = {name: value for name, value in os.environ.items() if name != "YILDEGGA_LIB_DIR"}
    given |= {"CARGO_TARGET_DIR": str(BUILT), "RUSTFLAGS": "-D warnings"}
    well("cargo", "build", "--release", "--offline", "--locked", "--manifest-path", "tests/compare/Cargo.toml",
         env=given)
    return BUILT / "release" / "compare"


@functools.cache
def whole_run():
    return run(program())


@functools.cache
def memory_run():
    return run(need("valgrind", "valgrind"), "--quiet", "--error-exitcode=9", program(), "memory")


def counts(done):
    """The cases of each part that a run found equal."""
    return {name: int(cases) for name, cases in re.findall(r"^ok (.*): (\d+) cases$", done.stdout, re.M)}


def counted(done, parts, name):
    """Whether a part of a run was equal, in as many cases as it has at least."""
    found = counts(done)
    if name in found:
        return None if found[name] >= parts[name] else f"it has {found[name]} cases, {parts[name]} or more are expected"
    if name != next(part for part in parts if part not in found):
        return "the run ended before it"
    return f"status {done.returncode}: {''.join(done.stdout.splitlines()[-1:])} {done.stderr[:400]}"


def ended(done, parts):
    """Whether a run ended well, had nothing to complain of, and had these parts and no others."""
    if done.returncode or done.stderr:
        return f"status {done.returncode}: {done.stderr[:1000]}"
    return None if list(counts(done)) == list(parts) else f"its parts are {', '.join(counts(done))}"


def tests():
    for before, run_once, parts in ("", whole_run, WHOLE), ("under valgrind, ", memory_run, MEMORY):
        for name in parts:
            yield f"compare: {before}{name}", lambda r=run_once, p=parts, n=name: counted(r(), p, n)
        yield f"compare: {before}the run ends well", lambda r=run_once, p=parts: ended(r(), p)
