"""Finds what the clauses and proofs of functions depend on: definitions and lemmas of their crate, directly or through others, by name.

It works on the text, and rather finds too much than too little. Each name in a definition, a lemma or a proof counts if it is a name of the
module or is brought in there, even if it is bound locally. A module that is not found counts as everything.
"""
import functools
import re
from pathlib import Path

# Stands for any name of a module.
ANY = "*"
WORD = re.compile(r"[^\s(){}\[\],;|]+")
KEYWORDS = {"pub", "abbrev", "unfoldable", "unfolding", "record", "data", "mutual", "opaque"}
USED = re.compile(r"^use Rattle\.(\w+)\.((?:specs|proofs)(?:\.[\w+-]+)+)(?:\.\{([^}]*)\}| as (\S+))?")
# A path in the attributes of a source.
PATH = re.compile(r"crate::((?:specs|proofs)(?:::[\w-]+)+)")


class Module:
    """A file of definitions or lemmas: the words of each, its place, and what is brought in under which name."""

    def __init__(self, crate, text):
        self.words, self.places, self.names, self.modules = {}, [], {}, {}
        at, name = 0, None
        for line in text.split("\n"):
            start, at = at, at + len(line.encode()) + 1
            if used := USED.match(line):
                self.bring_in(crate, used)
                name = None
            elif line.startswith("use ") or line.startswith("--") or not line.strip():
                continue
            else:
                if not line[0].isspace():
                    name = next((it for it in WORD.findall(line) if it not in KEYWORDS), ANY)
                    self.places.append((start, name))
                if name:
                    self.words.setdefault(name, set()).update(words_of(line))

    def bring_in(self, crate, used):
        of, module, names, alias = used.groups()
        if of != crate.name:
            return
        if names is None:
            self.modules[alias or module.rpartition(".")[2]] = module
        for it in (names or "").split(","):
            name, _, other = it.strip().partition(" as ")
            if name:
                self.names[(other or name).strip()] = module, name

    def at(self, place):
        """Returns the name of what is at a place of the file."""
        return next((name for start, name in reversed(self.places) if start <= place), ANY)

    def below(self, own, name):
        """Returns what one of its names depends on, as modules and names; `own` is its own module."""
        found = set()
        for word in self.words.get(name, ()):
            front, _, rest = word.partition(".")
            if word in self.words:
                found.add((own, word))
            if word in self.names:
                found.add(self.names[word])
            if rest and front in self.modules:
                found.add((self.modules[front], rest.partition(".")[0]))
        # (an operator is written in parts)
        found.update(it for word, it in self.names.items() if "◌" in word)
        found.update((own, word) for word in self.words if "◌" in word)
        return found


def words_of(line):
    """Returns the words of a line, and their parts between dots."""
    return {part for word in WORD.findall(line) for part in [word, *word.split(".")]}


class Rests:
    """The definitions and lemmas of a crate, and what its functions depend on."""

    def __init__(self, crate, functions):
        self.crate, self.functions, self.modules = crate, functions, {}
        self.sources = {it.file: Path(crate.folder, it.file).read_bytes() for it in functions}
        self.laws = [it for it in functions if it.has_body and not self.text(it, it.opens).strip(b"{} \n")]

    def text(self, function, start):
        return self.sources[function.file][start : function.end]

    def module(self, path):
        """Returns the module of a path, with the rest of the path after it; nothing if there is no such file."""
        words = path.split(".")
        for count in range(len(words), 1, -1):
            file = Path(self.crate.folder, *words[:count]).with_suffix(".antt")
            if file.is_file():
                name = ".".join(words[:count])
                if name not in self.modules:
                    self.modules[name] = Module(self.crate, file.read_text())
                return name, words[count:]
        return None, []

    def edited(self, file, at):
        """Returns what an edit of a file of definitions changes there, as a module and a name."""
        name, _ = self.module(".".join(Path(file).with_suffix("").parts))
        return name, self.modules[name].at(at) if name else ANY

    @functools.cache
    def brought_in(self, file):
        """Returns what the head of a source brings in from its own crate, by name."""
        text, found = self.sources[file].decode(), {}
        for module, names in re.findall(rf"ghost use Rattle\.{self.crate.name}\.([\w.-]+)\.\{{([^}}]*)\}}", text):
            for it in names.split(","):
                name, _, other = it.strip().partition(" as ")
                found[(other or name).strip()] = module, name
        for module, other in re.findall(rf"ghost use Rattle\.{self.crate.name}\.([\w.-]+) as (\w+)", text):
            found[other] = module, ANY
        return found

    def cited(self, file, text):
        """Returns what a text of a source cites."""
        brought, found = self.brought_in(file), set()
        words = words_of(text)
        found.update(it for word, it in brought.items() if word in words or "◌" in word)
        for path in PATH.findall(text):
            module, rest = self.module(path.replace("::", "."))
            found.add((module, rest[0] if rest else ANY))
        return found

    def proofs_of(self, functions):
        """Returns everything in the proofs of functions."""
        found = set()
        for it in functions:
            for file in Path(self.crate.folder, "proofs", *(it.circle or it.path)).glob("*.antt"):
                module, _ = self.module(".".join(file.relative_to(self.crate.folder).with_suffix("").parts))
                found.update((module, name) for name in self.modules[module].words)
        return found

    @functools.cache
    def code_rests_on(self):
        """Returns what any function with code may depend on: everything that the sources cite outside their laws, and everything in its
        proof."""
        found = self.proofs_of([it for it in self.functions if it not in self.laws])
        for file, text in self.sources.items():
            for law in sorted((it for it in self.laws if it.file == file), key=lambda it: -it.first):
                text = text[: law.first] + text[law.end :]
            text = re.sub(r"(?m)^ghost use .*$", "", text.decode())
            found |= self.cited(file, text)
        return found

    def rests_on(self, functions):
        """Returns everything that clauses and proofs of these functions depend on, as modules and names."""
        todo, found = set(), set()
        for it in functions:
            if it in self.laws:
                todo |= self.cited(it.file, self.text(it, it.first).decode()) | self.proofs_of([it])
            else:
                todo |= self.code_rests_on()
        while todo:
            path, name = todo.pop()
            if (path, name) in found:
                continue
            found.add((path, name))
            module, rest = self.module(path) if path else (None, [])
            if module != path:
                # (a module of a contract, or made from a source: the clauses and types are in the sources)
                todo |= {(module, rest[0])} if module and rest else set()
                continue
            names = self.modules[module].words
            for it in [name] if name in names else names:
                todo |= self.modules[module].below(module, it)
        return found


def meet(one, other):
    """Returns whether an item of one set may be in the other."""
    modules = {module for module, name in one if name == ANY}
    return any(it in one or it[0] in modules or it[1] == ANY and any(it[0] == module for module, _ in one) for it in other)
