"""Reads the sources of a crate as text: its public items with their doc comments and the names of their clauses.

This is not a parser. It relies on the layout that `rt fmt` gives a source: items begin in column 1, and what is in a block is indented
by four spaces.
"""
import re
from pathlib import Path

TOP = Path(__file__).resolve().parent.parent
# What `tests/contracts --write` writes on a page CALLING.md begins with this line.
GENERATED = "<!-- `tests/contracts --write` writes the rest of this page. -->"
ITEM = re.compile(r"( *)(pub )?(?:unsafe |const )*(fn|struct|enum|trait|type) (\w+)")
IMPL = re.compile(r"impl\b.*\{$")
USE = re.compile(r"(?ms)^pub use ([^;]+);")
MODULE = re.compile(r"(?m)^(pub )?mod (\w+);")
CLAUSE = re.compile(r"^ +ensures\*?(?: (\w+))? \{", re.M)
# Code in a comment, or the end of a sentence.
END = re.compile(r"`[^`]*`|[.?!](?= |$)")


def first_sentence(text):
    """The first sentence of a text, which may have code between backquotes; all of it if no sentence ends there."""
    for it in END.finditer(text):
        if not it[0].startswith("`"):
            return text[: it.end()]
    return text


def crate_names():
    """The crates, lowest first."""
    return re.findall(r"(?m)^(\w+):", (TOP / "crates.txt").read_text(encoding="utf-8"))


class Item:
    """A function, a method, a type or a trait: its names, its doc comment, and the names of its clauses, "" for one without a name."""

    def __init__(self, owner, kind, name, is_public, doc, header):
        self.owner, self.trait = owner, None
        self.kind, self.name, self.is_public, self.doc = kind, name, is_public, doc
        self.clauses = [it or "" for it in CLAUSE.findall(header)]
        self.has_empty_body = header.endswith("{}")

    def paragraph(self):
        """The first paragraph of its doc comment as one line, with the list that it announces. Links become what they show."""
        first, _, rest = self.doc.partition("\n\n")
        listed = rest.partition("\n\n")[0] if first.endswith(":") and rest.startswith("- ") else ""
        text = " ".join(it.removeprefix("- ").strip() for it in f"{first}\n{listed}".rstrip().split("\n"))
        return re.sub(r"\[(`[^`]+`)\](\([^)]*\))?", r"\1", text)


def owner_of(line):
    """The type of an `impl` block and the trait that it is of, or none."""
    text = re.sub(r"\s*(where .*)?\{$", "", line.removeprefix("impl"))
    while "<" in text:
        less = re.sub(r"<[^<>]*>", "", text.replace("->", "  "))
        if less == text:
            break
        text = less
    trait, _, of = text.partition(" for ")
    return re.findall(r"\w+", of or trait)[-1] if re.findall(r"\w+", of or trait) else "", trait.strip() if of else None


def header_of(lines, at, indent):
    """An item from its first line up to its body, or up to the semicolon in place of one."""
    taken = []
    for line in lines[at:]:
        taken.append(line)
        if line.startswith(indent + "{") or line.endswith(";") and len(line) - len(line.lstrip()) <= len(indent) + 4:
            break
        if re.match(indent + r"\S", line) and line.endswith((" {", "{}")):
            break
    return "\n".join(taken)


def items_of(text):
    """The items of a source, those in blocks too."""
    lines, doc, block, found = text.split("\n"), [], ("", None, False), []
    for at, line in enumerate(lines):
        stripped = line.strip()
        if stripped.startswith("///"):
            doc.append(stripped[3:].strip())
            continue
        if stripped.startswith(("#[", "//")) or doc and stripped.endswith("]") and not ITEM.match(line):
            continue
        if IMPL.match(line):
            block = (*owner_of(line), False)
        elif line == "}":
            block = ("", None, False)
        elif begun := ITEM.match(line):
            indent, is_public, kind, name = begun.groups()
            owner, trait, of_trait = block if indent else ("", None, False)
            if len(indent) <= 4 and (not indent or owner):
                item = Item(owner, kind, name, bool(is_public) or of_trait, "\n".join(doc), header_of(lines, at, indent))
                item.trait = trait
                found.append(item)
            if kind == "trait" and not indent:
                block = (name, None, bool(is_public))
        doc = []
    return found


class Crate:
    """The sources of a library, by module."""

    def __init__(self, name):
        self.name, self.root = name, TOP / "crates" / name / "src"
        self.texts, self.items = {}, {}
        for file in sorted(self.root.rglob("*.rt")):
            module = "::".join(file.relative_to(self.root).with_suffix("").parts)
            self.texts[module] = file.read_text(encoding="utf-8")
            self.items[module] = items_of(self.texts[module])

    def public(self):
        """What callers reach by a name: pairs of that name and an item, in the order of the sources."""
        return list(dict.fromkeys(self.exported("lib", "")))

    def exported(self, module, prefix):
        """The items that a module shows, each with the name that callers write."""
        text, below = self.texts[module], "" if module == "lib" else module + "::"
        for it in self.items[module]:
            if not it.owner and it.is_public:
                yield from self.named(prefix + it.name, it)
        for is_public, name in MODULE.findall(text):
            if is_public:
                yield from self.exported(below + name, prefix + name + "::")
        for name, it in self.reexported(module):
            yield from self.named(prefix + name, it)

    def reexported(self, module):
        """What the `pub use` lines of a module bring in from this crate: pairs of the new name and an item."""
        below = "" if module == "lib" else module + "::"
        for path in USE.findall(self.texts[module]):
            front, _, names = re.sub(r"\s+", " ", path).partition("{")
            words = front.removeprefix("crate::").strip(": ").split("::")
            names = [it.strip() for it in names.strip("} ").split(",") if it.strip()] or [words.pop()]
            of = "::".join(words) if path.startswith("crate::") else below + "::".join(words)
            for name in names if of in self.items else []:
                old, _, new = name.partition(" as ")
                own = [it for it in self.items[of] if it.name == old and not it.owner]
                yield from ((new or old, it) for it in own or [it for found, it in self.reexported(of) if found == old])

    def named(self, name, item):
        """An item, and after a type or a trait its methods, those of traits only if they have clauses of their own."""
        yield name, item
        if item.kind == "fn":
            return
        for items in self.items.values():
            for it in items:
                if it.owner == item.name and it.kind == "fn" and (it.is_public or it.trait and it.clauses):
                    yield f"{name}::{it.name}", it
