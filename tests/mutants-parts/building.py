"""Builds the program that has all wrong bodies, each with a switch.

It is compiled as dist/compile compiles programs, but it does not check its accesses to memory, so that it is fast enough for all cases.
"""
import hashlib
import importlib.machinery
import importlib.util
import os
import re
import shutil
import subprocess
import sys
import tempfile
from pathlib import Path

from kit import KIT, rt_of_kit
from planting import plant

HERE = Path(__file__).resolve().parent
TOP = HERE.parents[1]
TARGET = "x86_64-unknown-linux-gnu"
CLANG = [KIT / "toolchain/bin/clang", f"--target={TARGET}", "--no-default-config"]
# A switch as the module defines it.
DEFINED = re.compile(r'(?ms)^define [^@\n]*?(\S+) @"[^"]*::mutant_is_on"\(i32[^)]*\)[^{\n]*\{.*?^\}')
CALLED = re.compile(r'@"[^"]*::mutant_is_on"')
# What is beside the bodies, but not in the program.
BESIDE = ("verdicts", "README.md")


def script(path):
    """Returns a script of the checkout as a module."""
    loader = importlib.machinery.SourceFileLoader(f"{path.name}_here", str(path))
    made = importlib.util.module_from_spec(importlib.util.spec_from_loader(loader.name, loader))
    loader.exec_module(made)
    return made


def copy_checkout(to):
    """Copies what a program is built from."""
    shutil.copytree(TOP / "crates", to / "crates", ignore=shutil.ignore_patterns("out", "proofs", "faults"))
    for name in ("crates.txt", "HANDLES"):
        shutil.copy(TOP / name, to / name)


def make_module(copy, room):
    """Writes the module of the copied program to the folder."""
    rt, keeping = rt_of_kit(), script(TOP / "page/module")
    toolchain = keeping.toolchain_that_keeps(room / "toolchain")
    # (this clang only keeps the module, and does not compile it)
    shutil.copy(HERE / "keep-module", toolchain / "bin/clang")
    crate = next(it for it in rt.rtlib.crates_below(str(copy)) if it.name == "a2lab")
    words = script(TOP / "dist/compile").words_of(rt, crate, KIT / "c/libos_c.a")
    words[words.index("--toolchain") + 1] = toolchain
    how = {"stdin": subprocess.DEVNULL, "stderr": subprocess.PIPE, "env": {**os.environ, "TMPDIR": str(room)}}
    made = subprocess.run(words, cwd=crate.folder, text=True, errors="replace", check=False, **how)
    try:
        keeping.module_in(toolchain).rename(room / "module.bc")
    except keeping.Refused:
        sys.exit(f"{made.stderr[-4000:]}mutants: the program does not compile with the bodies in it")


def with_switches(text):
    """Returns the text of a module whose switches are the function of switch.c."""
    kinds = set(DEFINED.findall(text))
    if len(kinds) != 1:
        raise SystemExit(f"mutants: the module has no switch, or switches of several kinds: {sorted(kinds)}")
    text = CALLED.sub("@mutant_is_on", DEFINED.sub("", text))
    return f"{text}\ndeclare {kinds.pop()} @mutant_is_on(i32)\n"


def compile_module(room, program):
    """Compiles the module of the folder, and links it with switch.c."""
    module = room / "module.ll"
    words = ["-Wno-override-module", "-Xclang", "-disable-llvm-passes", "-S", "-emit-llvm", "-x", "ir", room / "module.bc", "-o", module]
    subprocess.run([*CLANG, *words], check=True)
    module.write_text(with_switches(module.read_text(encoding="utf-8")), encoding="utf-8")
    words = ["-march=x86-64", "-ffunction-sections", "-fdata-sections", "-mllvm", "-trap-unreachable", "-Wno-override-module"]
    subprocess.run([*CLANG, *words, "-O1", "-fPIE", "-c", "-x", "ir", module, "-o", room / "module.o"], check=True)
    subprocess.run([*CLANG, "-O1", "-fPIE", "-c", HERE / "switch.c", "-o", room / "switch.o"], check=True)
    words = ["--target", TARGET, "--toolchain", KIT / "toolchain", "-o", program, room / "module.o", room / "switch.o"]
    subprocess.run([KIT / "bin/rattle-link", *words, KIT / "c/libos_c.a", KIT / "c/liblibc_c.a"], check=True)


def sum_of_sources():
    """Returns a sum of everything that the program is built from."""
    found = hashlib.sha256((KIT / "KIT-ID").read_bytes())
    for folder in (HERE, *sorted(TOP.glob("crates/*/src"))):
        for file in sorted(it for it in folder.rglob("*") if it.suffix != ".pyc" and it.name not in BESIDE and it.is_file()):
            found.update(f"{file.relative_to(TOP)}\n".encode() + file.read_bytes())
    return found.hexdigest()


def build(bodies, program):
    """Builds the program, unless it is there for the same sources and bodies. Returns why some bodies are not in it, by body."""
    with tempfile.TemporaryDirectory(prefix="a2-mutants-") as room:
        copy, room = Path(room, "copy"), Path(room)
        copy_checkout(copy)
        lost = plant(copy, bodies)
        listed, found = program.with_suffix(".sum"), sum_of_sources()
        if program.is_file() and listed.is_file() and listed.read_text() == found:
            return lost
        print("mutants: building a2lab with all wrong bodies, without proofs", file=sys.stderr, flush=True)
        make_module(copy, room)
        program.parent.mkdir(parents=True, exist_ok=True)
        compile_module(room, program)
        listed.write_text(found)
    return lost
