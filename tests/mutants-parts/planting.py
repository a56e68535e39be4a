"""Reads the wrong bodies, and puts them into a copy of the sources, each with a switch.

A file of the folder bodies/ has the bodies of the crate of that name. Each is written like a case of tests/program:

    === NAME
    # What a user sees.
    --- src/FILE.rt
    lines of the source, with the part that is replaced between « and »
    --- instead
    the wrong code for this part

The lines occur exactly once in the file. If no expression can hold the wrong and the right code, the second part is called `switched`.
It then replaces all of the lines, and has the word ON where the switch is.
"""
import re
from pathlib import Path

BODIES = Path(__file__).resolve().parent / "bodies"
BODY = re.compile(r"(?ms)^=== (\S+)\n# ([^\n]*)\n--- (\S+)\n(.*?)\n--- (instead|switched)\n(.*?)\n\n*(?====|\Z)")
MARKS = re.compile("[«»]")
# The function that says whether a switch is on. In the program it is that of switch.c.
SWITCH = """
#[inline(never)]
pub(crate) fn mutant_is_on(number: u32) -> bool {
    number == 4_294_967_295
}
"""


class Lost(Exception):
    """Why a body cannot be put into its source."""


class Body:
    """A wrong body: its number, its crate, its name, what a user sees, its file, the lines that it is in, and its code."""

    def __init__(self, number, crate, found):
        self.number, self.crate = number, crate
        self.name, self.says, self.file, lines, kind, self.code = found
        self.is_switched = kind == "switched"
        self.lines = MARKS.sub("", lines)
        if self.is_switched:
            self.begin, self.end = 0, len(lines)
        else:
            self.begin, self.end = lines.index("«"), lines.index("»") - 1

    def __str__(self):
        return f"{self.crate} {self.name}"

    def path(self, top):
        return Path(top, "crates", self.crate, self.file)

    def place_in(self, text):
        """Returns where its source has the code that it replaces."""
        if text.count(self.lines) != 1:
            raise Lost(f"{self.file} has its lines {text.count(self.lines)} times, not once")
        at = text.index(self.lines)
        return at + self.begin, at + self.end

    def beside(self, right):
        """Returns the code that has a switch between this body and the right code."""
        switch = f"crate::mutant_is_on({self.number})"
        if self.is_switched:
            return re.sub(r"\bON\b", switch, self.code)
        choice = f"if {switch} {{ {self.code} }} else {{ {right} }}"
        is_statement = right.rstrip().endswith((";", "}"))
        return choice if is_statement else f"({choice})"


def all_bodies():
    """Returns the bodies of all crates."""
    found = []
    for path in sorted(BODIES.iterdir()):
        text = path.read_text(encoding="utf-8")
        parts = BODY.findall(text)
        if len(parts) != len(re.findall("(?m)^===", text)):
            raise SystemExit(f"mutants: {path}: a body does not have the form that planting.py describes")
        found += [(path.name, it) for it in parts]
    return [Body(number, crate, it) for number, (crate, it) in enumerate(found, 1)]


def with_bodies(text, bodies):
    """Returns the text of a source with these bodies in it, and why others are not, by body."""
    places, lost = {}, {}
    for body in bodies:
        try:
            place = body.place_in(text)
            # (bodies may replace the same code, but not parts of each other's)
            if any(place != it and place[0] < it[1] and it[0] < place[1] for it in places) or place in places and body.is_switched:
                raise Lost("it overlaps another body")
            places.setdefault(place, []).append(body)
        except Lost as why:
            lost[body] = str(why)
    for (begin, end), some in sorted(places.items(), reverse=True):
        code = text[begin:end]
        for body in some:
            code = body.beside(code)
        text = text[:begin] + code + text[end:]
    return text, lost


def plant(top, bodies):
    """Puts the bodies into the sources of a checkout. Returns why some are not there, by body."""
    lost = {}
    for path in {it.path(top) for it in bodies}:
        text = path.read_text(encoding="utf-8") if path.is_file() else ""
        text, some = with_bodies(text, [it for it in bodies if it.path(top) == path])
        lost |= some
        if path.is_file():
            path.write_text(text, encoding="utf-8")
    for crate in {it.crate for it in bodies}:
        source = Path(top, "crates", crate, "src")
        root = source / ("main.rt" if (source / "main.rt").is_file() else "lib.rt")
        with open(root, "a", encoding="utf-8") as file:
            file.write(SWITCH)
    return lost
