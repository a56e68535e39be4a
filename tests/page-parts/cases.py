#!/usr/bin/env python3
"""Writes what native programs do: cases.py COUNT PROGRAM=PATH.. prints a line of JSON for each case, with the program, its arguments, the
files of its folder and its standard input; and with what it wrote, its status, and the files that it changed. Bytes are in base64.

The cases are each example, run in several ways, and COUNT random sources of tests/fuzz: `run` takes each, with random options, and other
commands take one in four. They are the same each time.
"""
import ast
import base64
import json
import os
import random
import subprocess
import sys
import tempfile
from concurrent.futures import ThreadPoolExecutor
from pathlib import Path

TOP = Path(__file__).resolve().parents[2]
EXAMPLES = sorted((TOP / "examples").iterdir())
SECONDS = 120
# How an example is run: the program, its arguments (F is the source), and its standard input (None is the source).
WAYS = [
    ("a2", "", None),
    ("a2", "run F --attr --keys HELLO\\r1234\\rQ", b""),
    ("a2", "run F --limit 200000 --free", b""),
    ("a2", "asm F", b""),
    ("tools", "run --keys-at 0:HELLO\\r --keys-at 900:Q F", b""),
    ("tools", "check F", b""),
    ("tools", "check --format json F", b""),
    ("tools", "list F", b""),
    ("tools", "trace --limit 300 F", b""),
    ("tools", "profile --limit 20000 F", b""),
    ("tools", "film -o film.html --limit 2000 F", b""),
    ("tools", "fmt F", b""),
    ("tools", "fmt -w F", b""),
    ("tools", "run --save image --limit 5000 F", b""),
    ("tools", "debug F", b"go 20\nback 3\nstep\ntype A\n"),
]
# The commands that take one random source in four.
MORE = ["check", "list", "trace", "profile", "film", "fmt", "debug"]


def fuzz():
    """Returns the generators of tests/fuzz: everything before the place where it reads its arguments."""
    path = TOP / "tests/fuzz"
    tree = ast.parse(path.read_text())
    begin = next(at for at, it in enumerate(tree.body) if ast.unparse(it).startswith("TOOLS ="))
    tree.body = tree.body[:begin]
    names = {"__file__": str(path), "__name__": "fuzz"}
    sys.path.insert(0, str(TOP / "tests"))
    exec(compile(tree, str(path), "exec"), names)  # pylint: disable=exec-used
    return names


def encoded(files):
    return {name: base64.b64encode(text).decode() for name, text in files.items()}


def answer(case):
    """Returns the case with what the native program does."""
    name, program, path, arguments, files, given = case
    with tempfile.TemporaryDirectory(prefix="page-case-") as folder:
        for file, text in files.items():
            Path(folder, file).write_bytes(text)
        done = subprocess.run([path, *arguments], cwd=folder, input=given, capture_output=True, timeout=SECONDS, check=False)
        left = {it.name: it.read_bytes() for it in Path(folder).iterdir()}
    texts = encoded({"stdin": given, "stdout": done.stdout, "stderr": done.stderr})
    changed = {file: text for file, text in left.items() if files.get(file) != text}
    gone = [file for file in files if file not in left]
    return {"name": name, "program": program, "arguments": arguments, "files": encoded(files), **texts, "status": done.returncode,
            "changed": encoded(changed), "gone": gone}


def of_examples(programs, tools):
    for path in EXAMPLES:
        text, name = path.read_bytes(), path.name
        if path.suffix == ".mon":
            yield f"{name} mon", "a2", ["mon", name], {name: text}, b""
        if path.suffix != ".s":
            continue
        for which, words, given in WAYS:
            program = tools if which == "tools" else which
            arguments = [name if it == "F" else it for it in words.split()]
            yield f"{name} {words}", program, arguments, {name: text}, text if given is None else given
        for script in EXAMPLES:
            if script.suffix == ".dbg":
                yield f"{name} {script.name}", "a2", ["debug", name, "script"], {name: text, "script": script.read_bytes()}, b""


def at_random(count, tools):
    made = fuzz()
    for number in range(count):
        rng = random.Random(number)
        files = {"it.s": made["source"](rng)}
        keys = "".join(rng.choice(["Q", "a", " ", "\\r", "\\b", "\\x", "\\\\"]) for _ in range(rng.randrange(12)))
        options = ["--keys", keys] * rng.choice([0, 1]) + ["--attr"] * rng.choice([0, 1]) + ["--free"] * rng.choice([0, 1])
        options += ["--limit", str(rng.choice([0, 1, 5, 100, 20000, 100000]))] * rng.choice([0, 1])
        yield f"random {number} run", "a2", ["run", "it.s", *options], files, b""
        if number % 4 == 0:
            yield f"random {number} asm", "a2", ["asm", "it.s"], files, b""
            script = made["script"](rng, made["DEBUGGER"])
            yield f"random {number} debug", "a2", ["debug", "it.s", "script"], {**files, "script": script}, b""
            monitor = made["script"](rng, made["MONITOR"])
            yield f"random {number} mon", "a2", ["mon", "it.mon"], {"it.mon": monitor}, b""
        if number % 4 == 2:
            word = MORE[number // 4 % len(MORE)]
            limit = ["--limit", "200"] * (word in ("trace", "profile", "film"))
            yield f"random {number} {word}", tools, [word, *limit, "it.s"], files, b"go\nback\n" if word == "debug" else b""


def main(count, *programs):
    paths = dict(it.split("=", 1) for it in programs)
    tools = next((it for it in paths if it != "a2"), None)
    cases = [(name, program, os.path.abspath(paths[program]), *rest)
             for name, program, *rest in [*of_examples(paths, tools), *at_random(int(count), tools)] if program in paths]
    with ThreadPoolExecutor(os.cpu_count()) as pool:
        for it in pool.map(answer, cases):
            print(json.dumps(it))


if __name__ == "__main__":
    sys.exit(main(*sys.argv[1:]))
