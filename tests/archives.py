"""The archives that the tests link."""
import functools
import os
import pathlib
import shutil
import subprocess

ROOT = pathlib.Path(__file__).resolve().parent.parent


def sources():
    """The files that an archive is made of: all of the crates, but for what rt makes there and for wrong programs."""
    yield ROOT / "crates.txt"
    for folder, folders, names in os.walk(ROOT / "crates"):
        folders[:] = set(folders) - {"out", "must-fail"}
        yield from (pathlib.Path(folder) / name for name in names)


@functools.cache
def archive(name="yildegga"):
    """The archive of a crate of exported functions, proved and made where it is absent or older than what it is made
    of."""
    path = ROOT / "target" / "staticlib" / f"lib{name}.a"
    if not path.is_file() or path.stat().st_mtime < max(file.stat().st_mtime for file in sources()):
        crate = ROOT / "crates" / name
        done = subprocess.run(["rt", "lib", "--cpu", "x86-64"], cwd=crate, stdin=subprocess.DEVNULL,
                              capture_output=True, text=True, timeout=3600)
        said = (done.stdout + done.stderr)[-400:]
        assert done.returncode == 0, f"rt lib in crates/{name}: status {done.returncode}: {said}"
        path.parent.mkdir(parents=True, exist_ok=True)
        shutil.copyfile(crate / "out" / path.name, path)
    return path
