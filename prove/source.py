"""A source and its promises, as `a2lab promise --json` reports them. What is read here is a guess: the prover computes all of it from the
text itself, and refuses a guess that does not agree.

What an expression says is a tuple that begins with its form: ('number', n), ('held', ATOM), ('bound', i), ('old', e),
('of', FUNCTION, e), ('pair', OPERATION, x, y), ('choice', c, x, y), ('each', i, n, e), ('sum', i, n, e), ('at', LABEL, e); atoms,
functions and operations are named as in a2_promise.
"""

import json
import os
import re
import subprocess
from dataclasses import dataclass, field
from pathlib import Path

from .refusal import TRY_IT, Refusal

# The program that reads the source.
A2LAB = os.environ.get("A2LAB") or str(Path(__file__).resolve().parent.parent / "a2lab")
# In how many states it tries a promise.
STATES = "4096"
# Each branch, with the flag that it tests, and the value for which it is taken.
BRANCHES = {"BPL": ("N", False), "BMI": ("N", True), "BVC": ("V", False), "BVS": ("V", True)}
BRANCHES |= {"BCC": ("C", False), "BCS": ("C", True), "BNE": ("Z", False), "BEQ": ("Z", True)}
RAM_END = 0xC000
# The verbs of facts about a routine.
FACTS = ("requires", "ensures")


@dataclass
class Statement:
    """A statement at its address, with its bytes; for an instruction, `mnemonic`, `mode` and `value` are set."""

    line: int
    address: int
    bytes: list
    mnemonic: str = ""
    mode: str = ""
    value: int = 0
    label: str = ""

    @property
    def length(self):
        return len(self.bytes)

    @property
    def is_instruction(self):
        return bool(self.mnemonic)


@dataclass
class Program:
    entry: int
    names: dict
    statements: list

    def instruction_at(self, address):
        return next((it for it in self.statements if it.address == address and it.is_instruction), None)

    def is_code(self, address):
        return any(it.is_instruction and it.address <= address < it.address + it.length for it in self.statements)

    def laid(self):
        """Returns its bytes, by their addresses."""
        return {it.address + k: byte for it in self.statements for k, byte in enumerate(it.bytes)}


@dataclass
class Clause:
    line: int
    column: int
    text: str
    expr: tuple


@dataclass
class Changes:
    registers: set = field(default_factory=set)
    # from one address up to another, both included
    ranges: list = field(default_factory=list)


@dataclass
class Line:
    """A line before a routine's label: its number, what follows its ;:, its verb, and what it says, which is a tree, a list of things that
    may change, or a list of keys."""

    number: int
    text: str
    verb: str
    says: object


@dataclass
class Within:
    """What is said at a label within a routine."""

    label: str
    line: int
    address: int
    invariants: list
    measures: list


@dataclass
class Promise:
    name: str
    line: int
    address: int
    wanted: list
    promised: list
    changes: Changes
    # the keys that it takes, which wait when it is entered
    keys: list = field(default_factory=list)
    lines: list = field(default_factory=list)
    within: list = field(default_factory=list)
    # what fails in a state that was tried
    fails: str = ""
    # a state that is as it requires, if one was found: the values of registers and flags by their letters, of bytes by their addresses
    met: dict = field(default_factory=dict)
    # whether it was kept in some state, maybe with other bytes of the program
    is_kept: bool = False


class Unread(Exception):
    """The program has reported an error of the source, or that it has no promises, and has left with this status."""

    def __init__(self, status):
        super().__init__(status)
        self.status = status


class Report:
    """What the program reports of a text in a file. Its lines about the run are blank here."""

    def __init__(self, text, file):
        words = [A2LAB, "promise", "--json", "--states", STATES, file]
        said = subprocess.run(words, input=text.encode("latin-1"), stdout=subprocess.PIPE, check=False)
        self.found = json.loads(said.stdout or "null")
        if not self.found or not (self.found["promises"] or self.found["run"]["lines"]):
            raise Unread(said.returncode)
        of_run = self.found["run"]["lines"]
        self.lines = ["" if k in of_run else line for k, line in enumerate(lines_of(text), 1)]
        names = dict(self.found["names"])
        self.program = Program(self.found["entry"], names, [Statement(**it) for it in self.found["statements"]])

    def promises(self):
        """Returns each promise, or the error in its lines, with the label that follows them."""
        return [(it["label"], self.promise(it)) for it in self.found["promises"]]

    def promise(self, it):
        if "error" in it:
            return Refusal(it["error"]["line"], it["error"]["says"], it["error"]["column"])
        for text in it["prints"]:
            column = self.lines[text["line"] - 1].index("prints") + 1
            return Refusal(text["line"], f"`prints` cannot be proved; {TRY_IT}", column)
        labels = {within["address"]: self.label_in(within["line"]) for within in it["within"]}
        clauses = [[self.clause(one, labels) for one in it[kind]] for kind in ("requires", "ensures")]
        changes = Changes(set(it["registers"]), [tuple(ends) for ends in it["ranges"]])
        typed = {text["line"]: text["characters"] for text in it["takes"]}
        promise = Promise(it["label"], it["line"], it["address"], *clauses, changes)
        promise.keys = [key for keys in typed.values() for key in keys]
        promise.lines = [self.line(one, typed) for one in it["lines"]]
        promise.within = [self.within(one, labels) for one in it["within"]]
        promise.met, promise.is_kept = dict(it.get("met", ())), it["verdict"] in ("holds", "held")
        if it["verdict"] == "fails" and self.is_laid(it["state"]):
            promise.fails = f"{it['says'].removeprefix('FAILS: ')}; {it['entered']}"
        return promise

    def is_laid(self, state):
        """Returns whether a state has the bytes of the program as they are laid. Nothing is proved of other states."""
        laid = self.program.laid()
        return all(laid.get(place, byte) == byte for place, byte in state)

    def within(self, it, labels):
        facts = [[self.clause(one, labels) for one in it[kind]] for kind in ("invariants", "decreases")]
        return Within(labels[it["address"]], it["line"], it["address"], *facts)

    def label_in(self, line):
        return re.match(r"\w+", self.lines[line - 1])[0]

    def clause(self, it, labels):
        column = len(self.lines[it["line"] - 1]) - len(it["text"]) + 1
        return Clause(it["line"], column, it["text"].strip(" \t"), tree(it["says"], labels))

    def line(self, it, typed):
        verb, says = it["verb"], it["says"]
        if verb in FACTS:
            says = folded(says)
        elif verb == "takes":
            says = typed[it["line"]]
        return Line(it["line"], it["text"], verb, says)


def folded(events):
    """Returns a tree from its forms, each of which comes after its parts."""
    trees = []
    for form, count, *parts in events:
        taken = trees[len(trees) - count :]
        del trees[len(trees) - count :]
        trees.append((form, *taken, *parts) if form == "text_in" else (form, *parts, *taken))
    return trees[0]


def tree(says, labels):
    """Returns an expression as a tuple, with labels in place of their addresses."""
    form, *parts = (tree(it, labels) if isinstance(it, list) else it for it in says)
    return ("at", labels[parts[0]], parts[1]) if form == "at" else (form, *parts)


def labels_in(e):
    """Returns the labels at which an expression refers to an earlier state."""
    found = [e[1]] if e[0] == "at" else []
    return found + [it for part in e[1:] if isinstance(part, tuple) for it in labels_in(part)]


def cells_in(e):
    """Returns the addresses that an expression names."""
    if e[0] == "of" and e[2][0] == "number":
        return {e[2][1], e[2][1] + 1} if e[1] == "Word" else {e[2][1]}
    return {a for part in e[1:] if isinstance(part, tuple) for a in cells_in(part)}


def lines_of(text):
    """Returns the lines of a text, without a carriage return at the end."""
    lines = text.split("\n")
    return [line.removesuffix("\r") for line in (lines[:-1] if lines[-1] == "" else lines)]
