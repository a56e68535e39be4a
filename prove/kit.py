"""The Rattle kit: where it checks a crate, and what it says about it."""

import fcntl
import os
import re
import shutil
import subprocess
from pathlib import Path

from .terms import in_words
from .writing import BELOW, CRATE, function_of

PROVED = re.compile(r"^fn \w+::(\w+)::(\w+): proved", re.MULTILINE)
# A proof that has a refused part is not examined further.
BEHIND_OTHERS = re.compile(r"\d+ declarations? that depends? on")
ERROR = re.compile(
    r"^\./proofs/(\w+)/([\w/]+)\.antt:(\d+):\d+: error: (.*?)(?=^\./|^fn |^logic|^crate |^statements|^library|\Z)",
    re.MULTILINE | re.DOTALL,
)
VALUE = re.compile(r"\(?(old )?(\$[0-9A-F]{2,4}|[AXYNVZC])\)? = \d+")
VALUES = re.compile(r"goal fails, at (.*?)\. It read", re.DOTALL)
UNMET = "the prover does not confirm that the state found by trying meets `requires`"
OTHERWISE = "the definitions read this differently, so nothing is proved about it"

# The kit's rt. Here its sums count each crate once, because its own method takes longer than the check.
RT = str(Path(__file__).resolve().parent.parent / "tests/rt")

# Files that stay open as long as this process runs.
LOCKS = []


class NoKit(Exception):
    """Why the kit cannot be used."""


def needs(top):
    """Returns the crates below the rules, lowest first, with their lines in crates.txt."""
    lines = {}
    for line in (top / "crates.txt").read_text(encoding="utf-8").splitlines():
        name, _, below = line.partition("#")[0].partition(":")
        if name.strip():
            lines[name.strip()] = below.split()
    found = {}

    def take(name):
        for below in lines[name]:
            if below in lines and below not in found:
                take(below)
        found[name] = lines[name]

    take("a2_promise_rules")
    return found


def is_built(top, crates, mark):
    """Returns whether the library of each crate exists, and nothing is younger than the mark that was left when they were built."""
    if not mark.exists():
        return False
    files = [top / "crates.txt", *(top / "crates" / name / "out/rlib/stamp" for name in crates)]
    for name in crates:
        files += [file for part in ("src", "specs", "proofs") for file in (top / "crates" / name / part).rglob("*")]
    return all(file.exists() and file.stat().st_mtime <= mark.stat().st_mtime for file in files)


def run(words, folder):
    how = {"stdin": subprocess.DEVNULL, "stdout": subprocess.PIPE, "stderr": subprocess.STDOUT, "errors": "replace"}
    said = subprocess.run(words, cwd=folder, text=True, **how)
    return said.returncode, said.stdout


def build_rules(top, room, tell):
    """Proves the rules and what is below them, if that is necessary. Other calls wait until this one ends."""
    if shutil.which("rt") is None:
        raise NoKit("the Rattle kit is missing: there is no rt on the path; ./a2lab promise tries promises without it")
    room.mkdir(parents=True, exist_ok=True)
    keep_others_out(room / "lock")
    mark = room / "built"
    if is_built(top, needs(top), mark):
        return
    tell("proving the rules and what they depend on first; this takes minutes, or an hour if nothing is built yet")
    status, said = run([RT, "lib"], top / "crates/a2_promise_rules")
    if status:
        (room / "rules.log").write_text(said, encoding="utf-8")
        raise NoKit("the rules are not proved; the kit's output is in out/prove/rules.log")
    mark.touch()


def keep_others_out(file):
    """Waits until no other call uses the folder."""
    LOCKS.append(file.open("w", encoding="utf-8"))
    fcntl.flock(LOCKS[-1], fcntl.LOCK_EX)


def link(source, target):
    """Copies a folder, using links for its files if possible."""

    def one(a, b):
        try:
            os.link(a, b)
        except OSError:
            shutil.copy2(a, b)

    if not target.exists() and source.exists():
        shutil.copytree(source, target, copy_function=one)


def make_room(top, room):
    """Makes a folder in which the kit finds the crates as they are built, with space for one more."""
    shutil.rmtree(room / "crates", ignore_errors=True)
    crates = needs(top)
    text = ""
    for name, below in crates.items():
        for part in ("src", "specs", "proofs", "out/rlib"):
            target = room / "crates" / name / part
            target.parent.mkdir(parents=True, exist_ok=True)
            link(top / "crates" / name / part, target)
        text += f"{name}: {' '.join(below)}\n"
    (room / "crates.txt").write_text(text + f"{CRATE}: {BELOW}\n", encoding="utf-8")
    shutil.copy2(top / "HANDLES", room / "HANDLES")
    return room / "crates" / CRATE


def room_of(top, tell):
    """Returns the folder of the crate that the kit checks, over the proved rules."""
    room = top / "out/prove"
    build_rules(top, room, tell)
    return make_room(top, room)


def check(folder):
    """Returns what the kit says about a crate."""
    return run([RT, "check"], folder)[1]


class Answers:
    """What the kit said about a source, by routines."""

    def __init__(self, said, folder, source):
        self.said, self.folder, self.proofs = said, folder, folder / "proofs" / source
        self.proved = {function for name, function in PROVED.findall(said) if name == source}
        self.errors = {}
        for name, module, line, says in ERROR.findall(said):
            if name == source:
                self.errors.setdefault(module, []).append((int(line), says.strip()))

    def is_proved(self, written, needed):
        """Returns whether the kit says that a routine is proved, and finds no error in anything that its proof depends on."""
        modules = {"Program", written.told.module, written.met.module, *(it.module for it in needed)}
        return function_of(written) in self.proved and not modules & set(self.errors)

    def keep(self, file):
        """Keeps what the kit said in a file; returns its name."""
        file.write_text(self.said, encoding="utf-8")
        return file

    def mark_at(self, module, line):
        """Returns the number of the mark that follows the line of an error."""
        lines = (self.proofs / f"{module}.antt").read_text(encoding="utf-8").split("\n")
        for text in lines[line - 1 : line + 60]:
            found = re.search(r"-- @(\d+)", text)
            if found:
                return int(found[1])
        return None

    def marked(self, module, marks):
        """Returns the marks of a module's lines that are refused, each with what the kit says."""
        for line, says in self.errors.get(module, []):
            at = self.mark_at(module, line)
            # (an error in a proof is reported there, not in what depends on it)
            if at is not None:
                yield marks[at], says

    def misread(self, module, marks):
        """Returns what the definitions read differently from the script."""
        found = (mark for mark, says in self.marked(module, marks) if not BEHIND_OTHERS.match(says))
        return list(dict.fromkeys(f"{mark}: {OTHERWISE}" for mark in found))

    def unmet(self, written):
        """Returns a reason if the state that was found is not shown to be as required."""
        return [UNMET] if any(self.marked(written.met.module, [UNMET])) else []

    def reasons(self, written):
        """Returns why a proof fails, in terms of the source."""
        reasons = []
        for mark, says in self.marked(written.module, written.marks):
            found = VALUES.search(says)
            values = readable(found[1]) if found else ""
            reasons.append(f"{mark}: " + (f"fails at {values}" if values else "this does not follow"))
        return list(dict.fromkeys(reasons))


def readable(text):
    """Returns values of the prover in the words of a promise: those of registers, flags and bytes."""
    values = [it.strip() for it in in_words(text).split(",")]
    return ", ".join(it for it in values if VALUE.fullmatch(it))
