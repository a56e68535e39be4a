"""Makes the toolchain's own commands available to the scripts of the gate, as modules."""
import contextlib
import importlib.machinery
import importlib.util
import os
import re
import shutil
import sys
import tempfile
import threading
from pathlib import Path

KIT = Path(os.path.realpath(shutil.which("rt") or "rt")).parent.parent
# What this machine keeps for its user between runs.
CACHE = Path(os.environ.get("XDG_CACHE_HOME") or Path.home() / ".cache")
# The last verdict of `rt ci` on each program, with which it can be compiled again: a folder for each program, with its name.
CHECKED = CACHE / "a2-checked"
TICKS = os.sysconf("SC_CLK_TCK")


def module_of(file):
    """Returns a script of the kit's bin/ as a module."""
    name = file.replace("-", "_") + "_of_kit"
    loader = importlib.machinery.SourceFileLoader(name, str(KIT / "bin" / file))
    made = importlib.util.module_from_spec(importlib.util.spec_from_loader(name, loader))
    sys.modules[name] = made
    loader.exec_module(made)
    return made


def processes():
    """Returns the parent of each process, and its processor seconds including those of the children that it has waited for."""
    found = {}
    for stat in Path("/proc").glob("[0-9]*/stat"):
        try:
            fields = stat.read_text().rpartition(") ")[2].split()
        except OSError:
            continue
        found[int(stat.parent.name)] = int(fields[1]), sum(map(int, fields[11:15])) / TICKS
    return found


def checks_below(top):
    """Returns how many checks run below a process. A check that waits for others, which share its work, does not count."""
    above = {process: parent for process, (parent, _) in processes().items()}

    def is_below(process):
        while process in above and process != top:
            process = above[process]
        return process == top

    found = {it for it in above if is_check(it) and is_below(it)}
    return len(found - {above[it] for it in found})


def is_check(process):
    try:
        return bool(re.match(rb"[^\0]*/rattle\0(check|build)\0", Path(f"/proc/{process}/cmdline").read_bytes()))
    except OSError:
        return False


def sum_each_once(crate):
    """Makes the sum of a crate count each crate below it once. The kit counts a crate once for each path to it, which takes a minute of a
    processor if the crates are in many layers."""
    whole, known = crate.stamp, threading.local()

    def stamp(self):
        if hasattr(known, "sums"):
            if self.folder not in known.sums:
                known.sums[self.folder] = whole(self)
            return known.sums[self.folder]
        known.sums = {}
        try:
            return whole(self)
        finally:
            # (sources may have changed before the next call)
            del known.sums

    crate.stamp = stamp


def list_below_once(crate):
    """Makes the kit list the crates below a crate once. The kit follows each path down each time, which takes half a minute of a run."""
    whole = crate.below

    def below(self):
        if not hasattr(self, "all_below"):
            self.all_below = whole(self)
        return list(self.all_below)

    crate.below = below


def keep_checked(crate, folder):
    """Keeps the verdict on a program, which is in the folder, in place of the one before. If there is no space, none is kept."""
    with contextlib.suppress(OSError, shutil.Error):
        CHECKED.mkdir(0o700, parents=True, exist_ok=True)
        room = Path(tempfile.mkdtemp(dir=CHECKED))
        shutil.copytree(folder, room / "checked")
        shutil.rmtree(CHECKED / crate.name, ignore_errors=True)
        (room / "checked").rename(CHECKED / crate.name)
        room.rmdir()


def keep_what_is_checked(made):
    """Makes the kit's rt keep the verdict on each program that it proves, instead of deleting it once the program is compiled."""
    whole = made.Crate.compile_by

    def compile_by(self, backend, words, to):
        keep_checked(self, words[words.index("--crate-checked") + 1])
        return whole(self, backend, words, to)

    made.Crate.compile_by = compile_by


def share_processors(made):
    """Lets a proof of `rt ci` use the processors for which no other crate and no wrong body is ready, as in a chain of crates and at the
    end. Several processes that share a proof take up to a third more in total, so each proof has one while there is other work. If the
    environment has A2_JOBS, each has that many."""
    whole = made.Crate.ci
    is_there = lambda it: os.path.exists(f"{it.folder}/out/{it.name}" if it.is_program else it.rlib)

    def ci(self, flags, tests):
        left = [it for it in made.rtlib.crates_below(os.getcwd()) if not is_there(it)]
        ready = sum(all(map(is_there, it.below())) for it in left)
        if "A2_JOBS" in os.environ:
            flags = ["--jobs", os.environ["A2_JOBS"]]
        elif not tests and flags == ["--jobs", "1"] and ready:
            free = made.processors() - checks_below(os.getppid())
            jobs = max(free // ready, 1)
            flags = ["--jobs", str(jobs)]
            if jobs > 1:
                print(f"rt: {self.name} is proved by {jobs} processors, since {free} are free for {ready} crates", flush=True)
        return whole(self, flags, tests)

    made.Crate.ci = ci


def take_what_is_kept(made, kept_of):
    """Gives each library of the checkout what `rt ci` keeps for identical files, as `kept_of` of the crates returns it, and prints for
    which crates that was possible. A check above them begins there, and proves none of them again."""
    crates = [it for it in made.rtlib.crates_below(os.getcwd()) if not it.is_program]
    made.Crate.allowed = made.rtlib.Crate.allowed = made.handles_of(os.getcwd())
    kept, taken = kept_of(crates), []
    for it in crates:
        is_over_taken = all(below in taken for below in it.below())
        if is_over_taken and (it.is_built() or give_library(kept, it)):
            kept.is_built(it)
            taken.append(it)
    print("taken:", *[it.name for it in taken])
    print("to be proved:", *[it.name for it in crates if it not in taken])


def give_library(kept, crate):
    """Gives a crate its library, as built from the current sources; returns whether that was possible."""
    at = Path(crate.folder, "out/rlib")
    shutil.rmtree(at, ignore_errors=True)
    if not kept.give(crate, False, kept.key(crate)):
        return False
    Path(at, "stamp").write_text(crate.stamp())
    return True


def listed_sources(top):
    """Returns the sources as the gate listed them before it built their libraries: what `as_listed` returns for each, by name. Returns
    nothing if there is no list."""
    listed = Path(top, "out/proved.sources")
    lines = listed.read_text(encoding="utf-8").split("\n") if listed.is_file() else []
    return {name: rest for name, _, rest in (it.partition(" ") for it in lines) if name}


def as_listed(stat):
    """Returns a source's size and the time of its last change, as the gate lists them."""
    return f"{stat.st_size} {stat.st_mtime_ns // 10**9}.{stat.st_mtime_ns % 10**9:09}"


def rt_of_kit():
    """Returns the kit's rt, so that crates are read and built as by its commands."""
    made = module_of("rt")
    sum_each_once(made.rtlib.Crate)
    list_below_once(made.rtlib.Crate)
    # (its first call sets a signal handler, which only the main thread may do)
    made.rtlib.guarded()
    return made
