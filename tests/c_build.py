"""What the tests of the C side share: running commands, tools that the machine may lack, the archive as make builds and
installs it."""
import functools
import os
import pathlib
import shutil
import subprocess

ROOT = pathlib.Path(__file__).resolve().parent.parent
ROOM = ROOT / "target" / "tests-c"
ARCHIVE = ROOT / "target" / "staticlib" / "libyildegga.a"

WARNINGS = "-Wall -Wextra -Wpedantic -Wconversion -Wsign-conversion -Wshadow -Wundef -Wcast-qual -Werror".split()
C_WARNINGS = [*WARNINGS, "-Wstrict-prototypes", "-Wmissing-prototypes"]


def run(*words, cwd=ROOT, **more):
    usual = {"stdin": subprocess.DEVNULL, "capture_output": True, "timeout": 900}
    return subprocess.run(words, cwd=cwd, **{**usual, **more})


def well(*words, **more):
    """What a command writes to standard output; it must end with status 0."""
    done = run(*words, **more)
    said = (done.stderr or done.stdout)[-400:]
    assert done.returncode == 0, f"{' '.join(map(str, words))}: status {done.returncode}: {said!r}"
    return done.stdout.decode()


def need(tool, package):
    """A tool by its name; where the machine has none, Debian's package is installed."""
    if not shutil.which(tool):
        if run("apt-get", "install", "-y", "--no-install-recommends", package).returncode:
            well("apt-get", "update")
            well("apt-get", "install", "-y", "--no-install-recommends", package)
    return tool


def make(*words, cwd=ROOT):
    return well(need("make", "make"), *words, cwd=cwd, timeout=3600)  # it proves first, where nothing is proved yet


@functools.cache
def room():
    """A fresh folder for what is built here."""
    shutil.rmtree(ROOM, ignore_errors=True)
    ROOM.mkdir(parents=True)
    return ROOM


@functools.cache
def archive():
    make()
    return ARCHIVE


@functools.cache
def prefix():
    """The library installed in a folder of its own."""
    archive()
    there = room() / "prefix"
    make("install", f"PREFIX={there}")
    return there


def pkg_config(there, *words):
    path = {**os.environ, "PKG_CONFIG_PATH": str(there / "pkgconfig")}
    return well(need("pkg-config", "pkgconf"), *words, "yildegga", env=path).split()


def files(folder):
    return {str(path.relative_to(folder)) for path in folder.rglob("*") if not path.is_dir()}
