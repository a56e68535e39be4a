"""Keeps what `rt ci` has proved on this machine, crate by crate. If a crate and all below it are unchanged, it is not proved again.

What is kept is in the folder a2-crates of the user's cache, below the crate's name, by a sum of everything that the verdict depends on: the
toolchain, HANDLES, and the sources of the crate and of those below it. Newer toolchains keep this themselves.
"""
import contextlib
import hashlib
import os
import shutil
import tempfile
from pathlib import Path

from kit import CACHE, KIT

PROVED = CACHE / "a2-crates"
# For how many states of a crate the results are kept.
STATES = 2


def link(one, other):
    """Gives a file a second name, or copies it if that is not possible."""
    try:
        os.link(one, other)
    except OSError:
        shutil.copy2(one, other)


def sum_of_toolchain():
    tools = [f"{it.name} {it.stat().st_size} {it.stat().st_mtime_ns}" for it in sorted((KIT / "bin").iterdir())]
    return hashlib.sha256("\n".join([(KIT / "KIT-ID").read_text(), Path(__file__).read_text(), *tools]).encode())


class Kept:
    """A crate, or its tests, as `rt ci` proves and builds it, and the folder in which the results for this state are kept."""

    def __init__(self, crate, tests):
        found = sum_of_toolchain()
        found.update(repr((crate.allowed, tests, crate.stamp())).encode())
        self.out, self.at = Path(crate.folder, "out"), PROVED / (f"{crate.name}-tests" if tests else crate.name)
        self.folder = self.at / found.hexdigest()
        # Its library; a program as both compilers build it; or its tests.
        self.built = (f"{crate.name}_tests",) if tests else ("rlib", crate.name, f"{crate.name}.by-rattle")

    def take(self):
        """Copies what was built into the crate's out/, if this state is kept."""
        if not self.folder.is_dir():
            return False
        self.copy(self.folder, self.out)
        os.utime(self.folder)
        return True

    def keep(self):
        """Keeps what was built, and the newest of the other states. If there is no space, nothing is kept."""
        with contextlib.suppress(OSError, shutil.Error):
            self.at.mkdir(0o700, parents=True, exist_ok=True)
            with tempfile.TemporaryDirectory(dir=PROVED, prefix="part-") as room:
                self.copy(self.out, Path(room, "built"))
                Path(room, "built").rename(self.folder)
            for it in sorted(self.at.iterdir(), key=lambda it: it.stat().st_mtime)[:-STATES]:
                shutil.rmtree(it, ignore_errors=True)

    def copy(self, one, other):
        other.mkdir(exist_ok=True)
        for name in self.built:
            if (one / name).is_dir():
                shutil.rmtree(other / name, ignore_errors=True)
                shutil.copytree(one / name, other / name, copy_function=link)
            elif (one / name).is_file():
                # (a program may be overwritten in place, so it is copied)
                shutil.copy2(one / name, other / name)


def keep_what_is_proved(made, anew):
    """Makes the kit's `rt ci` take what this machine has proved for identical files, unless everything must be proved again, and keep
    what it proves."""
    whole = made.Crate.ci

    def ci(self, flags, tests):
        kept = Kept(self, tests)
        if not anew and kept.take():
            what = f"{self.name}: its tests are" if tests else f"{self.name} is"
            made.say(f"{what} kept: this machine has proved identical files", self.out)
            return 0
        status = whole(self, flags, tests)
        # (only if no source has changed in the meantime)
        if not status and Kept(self, tests).folder == kept.folder:
            kept.keep()
        return status

    made.Crate.ci = ci
