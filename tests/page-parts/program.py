#!/usr/bin/env python3
"""Runs the cases of tests/program with modules: program.py FOLDER PROGRAM=MODULE.. puts scripts in place of the programs into
the folder.

It leaves out cases with limits that the shell sets for a process, with terminals and with permissions. The last line is
'N passed, M failed'.
"""
import importlib.machinery
import importlib.util
import os
import re
import subprocess
import sys
import time
from concurrent.futures import ThreadPoolExecutor
from pathlib import Path

HERE = Path(__file__).resolve().parent
TOP = HERE.parents[1]
# Why cases are left out, and the pattern in their commands.
NOT_HERE = {"a limit of the shell": r"\b(ulimit|prlimit)\b", "a terminal": r"\b(script -|at_terminal\b)|/dev/tty|\bstty\b",
            "permissions of files": r"\bstat -c '%a"}

# Has a case's shell write to the ends of its output files, as the server does, which opens them again.
APPENDING = "exec >>/proc/self/fd/1 2>>/proc/self/fd/2\n"

# What bash says if the system does not let it start a script at once.
BUSY = "Text file busy"
# (A module takes longer than a native program, and the machine may be busy.)
SECONDS = 300


def cases_module():
    loader = importlib.machinery.SourceFileLoader("program_cases", str(TOP / "tests/program/run"))
    made = importlib.util.module_from_spec(importlib.util.spec_from_loader("program_cases", loader))
    sys.modules["program_cases"] = made
    loader.exec_module(made)
    return made


def why_not(case):
    """Returns why a case is left out, or None."""
    text = "\n".join([case.words, *case.commands])
    return next((why for why, pattern in NOT_HERE.items() if re.search(pattern, text)), None)


def given(cases):
    kept, left = [], {}
    for case in cases:
        why = why_not(case)
        if why:
            left[why] = left.get(why, 0) + 1
        else:
            kept.append(case)
    for why, count in left.items():
        print(f"page: LEFT OUT: {count} cases of tests/program, for they need {why}")
    return kept


def difference(cases, case):
    """Returns what differs from what the case expects, of a second run if a script could not be started in the first."""
    told = cases.difference(case)
    return cases.difference(case) if BUSY in told else told


def begin_server(folder, programs):
    """Starts the server, and puts a script for each program into the folder."""
    server = subprocess.Popen(["node", HERE / "server.mjs", folder, *programs], stdin=subprocess.PIPE)
    while not (folder / "port").exists():
        if server.poll() is not None:
            raise SystemExit("the server has ended")
        time.sleep(0.05)
    for name in (it.partition("=")[0] for it in programs):
        (folder / name).write_bytes((HERE / "client").read_bytes())
        (folder / name).chmod(0o755)
    return server


def main(folder, *programs):
    folder = Path(folder)
    cases = cases_module()
    cases.SHELL = APPENDING + cases.SHELL
    cases.SECONDS = SECONDS
    server = begin_server(folder, programs)
    for name in (it.partition("=")[0] for it in programs):
        os.environ[name.upper()] = str(folder / name)
    os.environ["EXAMPLES"] = str(TOP / "examples")
    try:
        paths = sorted((TOP / "tests/program/cases").iterdir())
        all_cases = given(cases.given(case for path in paths for case in cases.read(path)))
        with ThreadPoolExecutor(2 * (os.cpu_count() or 1)) as pool:
            told = [(case, it) for case, it in zip(all_cases, pool.map(lambda case: difference(cases, case), all_cases)) if it]
    finally:
        server.stdin.close()
        server.wait()
    for case, wrong in told:
        print(f"FAILED: {case.name}\n{wrong}")
    print(f"{len(all_cases) - len(told)} passed, {len(told)} failed")
    return len(told) > 0


if __name__ == "__main__":
    sys.exit(main(*sys.argv[1:]))
