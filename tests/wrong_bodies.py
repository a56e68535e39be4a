"""Defines what a wrong body is, and how the prover's answer to it is judged. A wrong body is a file crates/NAME/faults/*.edit;
`tests/faults` tries them.

An edit has the form of rt's must-fail edits. A check names each function that is not proved, and above it those of its own goals that
failed. The goals of a caller depend only on the contracts of what it calls, so they say nothing about a callee that is not proved.
Therefore the faults of a crate are tried in rounds. Each fault is in a copy of its function beside the function, with a copy of its proof,
and is refused if the copy has a failed goal.

A round checks only these copies. Every function of the crate, which `rt ci` proves separately, has no code there. If an edited function
calls it, its proof is a hole, which stands for its contract. So nothing is said about functions that no fault edits, and callers of an
edited function depend on what it promises.

- Methods of a trait, which can have no copy beside them, and circles of calls are edited in place, with a round for each further fault. If
a
  check says nothing about a fault, as about a caller of such a function, the fault is tried in further rounds.
- An edit of a constant, or of text outside all functions, has a line `refused: PATH` with the function that is not proved with it.
- No fault that may depend on an edited definition is in the same round as that edit.
- A fault that is not refused this way is tried alone, as rt does, and is refused if that check is.
"""
import contextlib
import functools
import hashlib
import os
import re
import shutil
import subprocess
import tempfile
import threading
import time
from pathlib import Path

from kit import CACHE, checks_below, module_of, rt_of_kit
from rests import Rests, meet

# What a check prints when it has finished a function.
ENDED = re.compile(r"checked (\S+), \d+ of \d+$")


class Toolchain:
    """Everything that is taken from the toolchain: how rt starts a check, reads an edit, and finds the functions of a source."""

    def __init__(self, version):
        self.version = version
        # The process below which at most as many checks run as there are processors, if one is named: more of them take a third longer
        # for the same work.
        self.together, self.beginning = None, threading.Lock()
        self.rt = rt_of_kit()
        self.lib = self.rt.rtlib
        self.bodies = module_of("rt-plant-bodies")

    def crates(self):
        return self.lib.crates_below(os.getcwd())

    def functions(self, crate):
        """Returns the functions of a crate, each with the name that the check gives it: its path, in which a method is below its type, or
        below one word for type, trait and the types of the trait."""
        source = self.bodies.Source(crate.folder)
        source.read("src/main.rt" if crate.is_program else "src/lib.rt")
        named = lambda words: self.bodies.named(words)[0]
        for it in source.functions:
            it.path = [*it.module, it.name]
            if it.block:
                # (an impl for every type with a bound is called Any)
                owner = named(it.block.ty)
                owner = "Any" if owner in it.block.generics else owner
                module = it.module if it.block.trait or not source.declared[owner] else source.declared[owner][0][0]
                # (only the last word of a path counts)
                words = [a for a, b in zip(it.block.trait, [*it.block.trait[1:], ""]) if a.isidentifier() and b != ":" and a not in it.block.generics]
                it.path = [*module, "".join([owner, *words]), it.name]
            it.circle = circle_of(it, crate)
        return source.functions

    def begin(self, words, **how):
        """Starts a check when there is enough memory for it."""
        with self.beginning:
            while self.together and checks_below(self.together) >= self.rt.processors():
                time.sleep(0.5)
            return subprocess.Popen(words, **how)

    def check(self, crate, faults, functions, kept):
        """Checks the functions that these faults edit, and their copies, in a copy of the crate with all of these edits and with a hole
        for the proof of each other function. It leaves what it checked in the folder `kept`, if there is one. Returns the status, the
        output, and how many seconds each function took."""
        edited = [function for it in faults if not it.number for function in it.functions]
        paths = [path for it in faults for path in it.paths()]
        with tempfile.TemporaryDirectory(prefix="faults-") as room:
            for part in self.lib.PARTS:
                if os.path.isdir(f"{crate.folder}/{part}"):
                    shutil.copytree(f"{crate.folder}/{part}", f"{room}/{part}")
            proved = {it.circle for it in edited}
            left = [it for it in functions if it not in edited and it.has_body and (it.circle is None or it.circle not in proved)]
            for path, text in together(crate, faults, left).items():
                Path(room, path).write_bytes(text)
            for it in faults:
                if it.number:
                    copy_proof(crate, it.functions[0].path, it.paths()[0], Path(room, "proofs"))
            called = words_called(crate, faults)
            for it in left:
                give_up_proof(it.circle or it.path, Path(room, "proofs"))
                if it.circle or it.in_trait or it.name in called:
                    leave_open(crate, it.circle or it.path, Path(room, "proofs"))
            for path in [it.circle or path for fault in faults for it, path in zip(fault.functions, fault.paths())]:
                ask_for_no_proof(Path(room, "proofs", *path))
            more = [word for it in paths for word in ("--only", "::".join(it))]
            keeping = ["--incremental", kept] if kept else []
            words = [*crate.words(["--jobs", "1"], keeps=False), *keeping, "--allow-holes", "--progress", *more]
            whole = [*self.lib.guarded(), self.lib.RATTLE, "check", *words]
            how = {"stdin": subprocess.DEVNULL, "stdout": subprocess.PIPE, "stderr": subprocess.STDOUT, "errors": "replace"}
            said, seconds, before = [], {}, time.time()
            with self.begin(whole, cwd=room, **how) as ran:
                for line in ran.stdout:
                    said.append(line)
                    if at := ENDED.match(line):
                        seconds[at[1]], before = time.time() - before, time.time()
            return ran.returncode, "".join(said), seconds


def circle_of(function, crate):
    """Returns the path of the common proof of the circle of calls that a function is in, if it is in one."""
    text = Path(crate.folder, function.file).read_bytes()
    named = re.search(rb"#\[cycle\((\w+)\)\]", text[function.first : function.opens])
    path = (*function.path[:-1], f"+{named[1].decode() if named else function.name}")
    # (a function that calls itself needs no attribute for that)
    return path if named or calls_itself(function) or Path(crate.folder, "proofs", *path).is_dir() else None


def calls_itself(function):
    words, call = ["", "", "", *function.body], [function.name, "("]
    before = [words[at - 3 : at] for at in range(3, len(words)) if words[at : at + 2] == call]
    if function.block:
        return any(it[1:] == ["self", "."] or it == ["Self", ":", ":"] for it in before)
    return any(it[-1] not in (".", ":") for it in before)


def words_called(crate, faults):
    """Returns the words by which the functions that these faults edit, and the crate's macros, may name what they call, from their bodies
    before and after the edits."""
    texts = [new.decode() for fault in faults for _, _, _, new in fault.changes]
    for file in Path(crate.folder, "src").rglob("*.rt"):
        texts += re.findall(r"(?ms)^macro_rules! .*?^\}", file.read_text())
    bodies = [word for fault in faults for it in fault.functions for word in it.body]
    return {*bodies, *re.findall(r"\w+", "\n".join(texts))}


def give_up_proof(path, proofs):
    """Removes the proof of a function, or of a circle of calls. What no edited function calls needs no proof, and reading it, or a hole in
    its place, takes a third of the time that a check needs to begin."""
    for name in ("Answers", "Invariants", "Proof"):
        proofs.joinpath(*path, f"{name}.antt").unlink(missing_ok=True)


def leave_open(crate, path, proofs):
    """Replaces the proof of a function, or of a circle of calls, by a hole. The hole has no type, because a check prints the goal of each
    hole, and writing out a statement takes up to a second."""
    folder = proofs.joinpath(*path)
    folder.mkdir(parents=True, exist_ok=True)
    proof, name = ".".join(["Rattle", crate.name, "proofs", *path]), f"{path[-1]}_spec"
    stated = proof if path[-1].startswith("+") else f"{proof}.Statement"
    anything = "anything {ℓ} : {A : Type ℓ} → A\nanything = ?\n"
    (folder / "Proof.antt").write_text(f"use {stated} as stated\n{anything}pub {name} : {{M : Type 1}} → stated.statement M\n{name} = anything\n")


def ask_for_no_proof(folder):
    """Adds an answer that has no goal to a function's proof. If every answer has a goal, a check that leaves goals open first writes out a
    proof, which takes seconds; it reports the failed goals in either case."""
    if not (folder / "Proof.antt").exists():
        folder.mkdir(parents=True, exist_ok=True)
        with open(folder / "Answers.antt", "a") as file:
            file.write("\npub no_goal : no_goal_at_all\nno_goal = no_answer\n")


def copy_proof(crate, path, other, proofs):
    """Gives the copy of a function the function's proof."""
    at = proofs.joinpath(*path)
    if at.is_dir():
        names = re.compile(rf"(Rattle\.{crate.name}\.(?:proofs|specs\.contracts)\.){re.escape('.'.join(path))}(?!\w)")
        proofs.joinpath(*other).mkdir(parents=True)
        for file in at.glob("*.antt"):
            text = names.sub(lambda it: it[1] + ".".join(other), file.read_text())
            proofs.joinpath(*other, file.name).write_text(text)


class Fault:
    """An edit: its places and texts, and the functions that it changes. It changes none if part of it is outside all functions and no line
    of the edit names one. A number above 0 says which copy of its function has it."""

    def __init__(self, path, crate, functions, rt, rests):
        self.path, self.name, self.changes, self.number, self.seconds = path, path.stem, [], 0, 0
        self.texts, self.bad = rt.read_edit(str(path), crate.folder)
        named = re.findall(r"(?m)^refused: (\S+)$", path.read_text())
        self.functions = [it for it in functions if "::".join(it.path) in named]
        if len(self.functions) != len(named):
            self.bad = self.bad or f"the crate has no function {' or '.join(named)}"
        inside = set()
        for file, old, new in [] if self.bad else pairs_of(path.read_text()):
            text = Path(crate.folder, file).read_bytes()
            if text.count(old) != 1:
                # (it is in the text that an earlier pair made)
                inside.add(None)
                continue
            before, behind = alike(old, new)
            at, end = text.find(old) + before, text.find(old) + len(old) - behind
            self.changes.append((file, at, end, new[before : len(new) - behind]))
            inside.add(next((it for it in functions if it.file == file and it.opens <= at and end <= it.end), None))
        if not named and None not in inside:
            self.functions = [it for it in functions if it in inside]
        self.rests = rests
        self.definitions = {rests.edited(file, at) for file, at, _, _ in self.changes if file.startswith("specs/")}
        self.can_be_copied = not named and len(self.functions) == 1 and not self.functions[0].in_trait and not self.functions[0].circle

    @functools.cached_property
    def rests_on(self):
        """Returns what its functions depend on."""
        return self.rests.rests_on(self.functions)

    def paths(self):
        """Returns the names that the check gives its functions, or the copy, below the crate."""
        ending = f"_again_{self.number}" if self.number else ""
        return [[*it.path[:-1], it.path[-1] + ending] for it in self.functions]

    def replaced(self, text):
        """Returns what it puts where in the text of its file: the places that it changes, or the whole copy after the function."""
        if not self.number:
            return self.changes
        function = self.functions[0]
        named = (self.changes[0][0], function.named[1], function.named[1], f"_again_{self.number}".encode())
        copy = text[: function.end]
        for _, at, end, new in sorted([*self.changes, named], key=lambda it: it[1:3], reverse=True):
            copy = copy[:at] + new + copy[end:]
        return [(named[0], function.end, function.end, b"\n\n" + copy[function.first :])]


def pairs_of(edit):
    """Returns the file, the old text and the new text of each pair of an edit."""
    file = old = ""
    for line in edit.split("\n"):
        head, _, rest = line.partition(":")
        if head == "file":
            file = rest.strip()
        elif head == "old":
            old = rest.removeprefix(" ").encode()
        elif head == "new":
            yield file, old, rest.removeprefix(" ").encode()


def alike(old, new):
    """Returns how many bytes two texts have in common at the start, and after these at the end."""
    before = len(os.path.commonprefix([old, new]))
    return before, len(os.path.commonprefix([old[before:][::-1], new[before:][::-1]]))


def together(crate, faults, left):
    """Returns the texts of the crate with all these faults, and with no code in the other functions."""
    texts = {}
    for file in {it[0] for fault in faults for it in fault.changes} | {it.file for it in left}:
        texts[file] = text = Path(crate.folder, file).read_bytes()
        changes = [it for fault in faults if fault.changes[0][0] == file or not fault.number for it in fault.replaced(text)]
        changes = [it for it in changes if it[0] == file]
        changes += [it for it in emptied(left, file, text) if all(other[2] <= it[1] or it[2] <= other[1] for other in changes)]
        for _, at, end, new in sorted(changes, reverse=True):
            texts[file] = texts[file][:at] + new + texts[file][end:]
    return texts


def emptied(functions, file, text):
    """Returns the changes that remove the code of functions of a file. A check follows the borrows of a function that a copy calls, and
    those of its closures, even if its proof is a hole, which takes seconds; the copy depends only on its contract. Not changed are
    functions in a circle of calls, which would not be one without them; those that a constant may call; those with a type that only their
    code shows; laws; and each `drop`, because its proof has another path than its hole.
    """

    def can_be(it):
        is_called_plainly = it.circle is None and it.name != "drop" and "impl" not in it.ret
        return is_called_plainly and text[it.opens : it.end].strip(b"{} \n") and b"const " not in text[it.first : it.named[0]]

    return [(file, it.opens, it.end, b"{ unreachable!() }") for it in functions if it.file == file and can_be(it)]


def are_apart(fault, other):
    """Returns whether a fault's functions cannot be refused because another fault changes a definition."""
    return not other.definitions or not meet(fault.rests_on, other.definitions)


def rounds_of(faults):
    """Splits faults into rounds. In a round, no function has two faults except in copies, no two faults are in functions of one circle of
    calls, and none changes a definition on which the function of another fault may depend."""
    places = lambda fault: {it.circle or it for it in fault.functions}
    rounds = []
    for fault in sorted(faults, key=lambda it: it.can_be_copied):
        shared = [it for it in rounds if all(are_apart(fault, other) and are_apart(other, fault) for other in it)]
        has_room = lambda it: fault.can_be_copied or not any(places(fault) & places(other) for other in it)
        free = next(filter(has_room, shared), None)
        if free is None:
            rounds.append(free := [])
        fault.number = 1 + sum(fault.functions[0] in it.functions for it in free) if fault.can_be_copied else 0
        free.append(fault)
    return rounds


# An error that only says that a proof names something that no longer exists.
LOST = re.compile(r"has no field|is not in scope|has no `|was not admitted|is no name|cannot be used")
IN_PROOF = re.compile(r"(?:\./)?proofs/(\S+?)(?:/(?:Answers|Invariants|Proof))?\.antt:\d+:\d+: error: (?:`[^`]*`: )?(.*)")
REFUSED = re.compile(r"fn (\S+): (?:not proved|no proof)(.*)")
# A goal of the function in the next line.
OPEN = re.compile(r"note: \S+:\d+:\d+: (?:it is not proved that|`search` found no proof).*?\(`([^`]+)`\)")


def reasons(said):
    """Returns the functions that are not proved for a reason of their own, each with that reason: a goal, or an error in their proofs or
    in a lemma that these cite."""
    errors, own, goals = {}, {}, []
    for line in said.split("\n"):
        at = IN_PROOF.match(line)
        if at and not LOST.search(at[2]):
            errors.setdefault(at[1].replace("/", "::"), at[2])
    for line in said.split("\n"):
        if at := OPEN.match(line):
            goals.append(at[1])
        elif at := REFUSED.match(line):
            name, rest = at.groups()
            # (the proof of a circle of calls has a path of its own)
            cited = re.findall(r"stands on `Rattle\.\w+\.proofs\.(\S+?)(?:\.(?:Answers|Invariants|Proof))?\.[^.`]+`", rest)
            places = [name.partition("::")[2], *[it.replace(".", "::") for it in cited]]
            why = ", ".join(goals) or next((errors[it] for it in places if it in errors), None)
            if why:
                own[name] = why[:110]
        if line.startswith("fn "):
            goals = []
    return own


def symbols(crate, fault, names):
    """Returns the names that the check gives the functions of a fault and the closures in them."""
    inside, found = lambda words: "::".join([crate.name, *words]), []
    for function, path in zip(fault.functions, fault.paths()):
        count = len(path) - 2 if function.block else len(path) - 1
        closures = inside([*path[:count], "fn", *path[count:], ""])
        found += [inside(path), *[it for it in names if it.startswith(closures)]]
    return found


def files_of(crate):
    found = [it for part in ("src", "specs", "proofs") for it in Path(crate.folder, part).rglob("*") if it.is_file()]
    return {str(it.relative_to(os.getcwd())): it.stat() for it in found}


class Refused:
    """What earlier runs on this machine have refused, for one crate in its current state: an empty file for each, named by the sum."""

    def __init__(self, crate, version, anew):
        self.crate, self.version, self.anew = crate, version, anew
        self.at = CACHE / "a2-faults"
        self.sum = self.sum_now()

    def sum_now(self):
        """Returns the sum of the toolchain's name, of this script, of the crate's sources, and of the libraries below it as they are
        built. A comment or a proof in one of these libraries does not change it."""
        line = next(it for it in Path("crates.txt").read_text().split("\n") if it.partition(":")[0] == self.crate.name)
        texts = [self.version, Path(__file__).read_text(), Path(Path(__file__).parent, "rests.py").read_text(), line]
        texts += [f"{name} {Path(name).read_text()}" for name in sorted(files_of(self.crate))]
        for it in self.crate.below():
            # (this file has a sum of the library's other files)
            built = Path(it.rlib, "format")
            texts.append(f"{it.name} {built.read_text() if built.is_file() else None}")
        return hashlib.sha256("\0".join(texts).encode()).hexdigest()

    def file(self, fault):
        return self.at / hashlib.sha256(self.sum.encode() + fault.path.read_bytes()).hexdigest()

    def has(self, fault):
        return not self.anew and self.file(fault).is_file()

    def keep(self, faults):
        """Keeps these, unless a source has changed in the meantime, or nothing can be written there."""
        with contextlib.suppress(OSError):
            if self.sum_now() == self.sum:
                self.at.mkdir(0o700, parents=True, exist_ok=True)
                for it in faults:
                    self.file(it).touch()


class Trial:
    """The faults of one crate, and the results of trying them."""

    def __init__(self, toolchain, crate, tell, anew):
        self.toolchain, self.crate, self.tell = toolchain, crate, tell
        self.kept = tempfile.mkdtemp(prefix="faults-kept-")
        self.failures, self.unsaid, self.alone, self.refused = [], [], [], []
        self.earlier = Refused(crate, toolchain.version, anew)
        self.functions = toolchain.functions(crate)
        paths, rests = sorted(Path(crate.folder, "faults").glob("*.edit")), Rests(crate, self.functions)
        self.faults = [Fault(it, crate, self.functions, toolchain.rt, rests) for it in paths]

    def fail(self, fault, why):
        shown = " and ".join(it.shown for it in fault.functions)
        self.failures.append(f"{self.crate.name}/{fault.name}{shown and ' in '}{shown}: {why}")

    def run(self):
        """Tries each fault."""
        try:
            for it in self.faults:
                if it.bad:
                    self.fail(it, f"BAD EDIT: {it.bad}")
                elif self.earlier.has(it):
                    self.refused.append(it)
                elif not it.functions:
                    self.alone.append((it, "it changes something outside of all functions"))
            if self.refused:
                self.tell(f"{self.crate.name}: {len(self.refused)} of {len(self.faults)} were refused by an earlier run of the same")
            self.rounds([it for it in self.faults if it.functions and not it.bad and it not in self.refused])
            for it, why in self.alone:
                self.try_alone(it, why)
            self.earlier.keep(self.refused)
        finally:
            shutil.rmtree(self.kept, ignore_errors=True)

    def rounds(self, faults):
        """Tries these faults in rounds. A check may say nothing about a caller whose callee is edited too. Faults about which a round says
        nothing are tried in further rounds as long as these decide some, then each in a round of its own, and otherwise alone."""
        rounds = rounds_of(faults)
        for number, now in enumerate(rounds):
            # (a single check is faster if it keeps nothing)
            self.round(f"round {number + 1} of {len(rounds)}", now, self.kept if len(rounds) > 1 else None)
        left, self.unsaid = self.unsaid, []
        if len(faults) == 1:
            self.alone += left
        elif len(left) < len(faults):
            self.rounds([it for it, _ in left])
        else:
            for it, _ in left:
                self.rounds([it])

    def round(self, title, faults, kept):
        """Tries these faults in one check."""
        began = time.time()
        status, said, seconds = self.toolchain.check(self.crate, faults, self.functions, kept)
        self.tell(f"{self.crate.name}: {title}: {len(faults)} in one check of {time.time() - began:.0f} s")
        for it in faults:
            it.seconds = sum(seconds.get(name, 0) for name in symbols(self.crate, it, [*seconds]))
        if status == 1 and re.search(r"(?m)^only=\d+ holes=", said):
            self.judge(faults, said)
        elif len(faults) > 1:
            # (one of them prevents the check from answering)
            half = len(faults) // 2
            self.round(f"{title}, first half", faults[:half], kept)
            self.round(f"{title}, second half", faults[half:], kept)
        else:
            self.alone.append((faults[0], f"its check ended with status {status}"))

    def judge(self, faults, said):
        """Compares each fault with what the check says about its function."""
        names, own = re.findall(r"(?m)^fn (\S+): ", said), reasons(said)
        for it in faults:
            mine = symbols(self.crate, it, names)
            if any(name in own for name in mine):
                self.refused.append(it)
            else:
                line = next((text for text in said.split("\n") if text.startswith(tuple(f"fn {name}: " for name in mine))), "")
                self.unsaid.append((it, line[:160] or f"the check says nothing of {mine[0]}"))

    def try_alone(self, fault, why):
        """Tries a fault as rt does."""
        rt = self.toolchain.rt
        began = time.time()
        kind, text = rt.must_fail(self.crate, str(fault.path), ["--jobs", "1"], self.kept)
        fault.seconds = time.time() - began
        # (the rt of an earlier kit answers yes or no)
        self.tell(f"{self.crate.name}: {fault.name} alone, {fault.seconds:.0f} s, since {why}")
        if kind == getattr(rt, "REFUSED", True) and "only because a proof file names" not in text:
            self.refused.append(fault)
        else:
            self.fail(fault, re.sub(r"^must-fail \S+: ", "", text))
