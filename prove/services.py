"""The Monitor's services that a routine may call: what they need and what they leave, as in crates/a2_promise_rules/proofs/Calling.antt and
Typing.antt.
"""

import re
from pathlib import Path
from typing import NamedTuple

from .refusal import TRY_IT, Refusal
from .source import Changes, Clause, Promise
from .terms import list_of

CRATES = Path(__file__).resolve().parent.parent / "crates"
SERVICE_ROW = re.compile(
    r"^service_row (\w+) = row_at (?:0x(\w{4})|at\.(\w+)) need\.(\w+) reaches\.(\w+) span\.(\w+) set\.\w+ set\.(\w+) cells\.\w+$", re.M
)
LOCATION = re.compile(r"^(\w+) = 0x(\w{4})$", re.M)
# The address of each hook, and the service to which it must lead.
LEADS = {"OutputHook": (0x36, "COUT1"), "InputHook": (0x38, "KEYIN")}


class Row(NamedTuple):
    """A service's row, as a2_services has it."""

    address: int
    needs: str
    reach: str
    takes: str
    sets: str

    @property
    def is_hook(self):
        """Returns whether it jumps through a hook, so that another step follows it."""
        return self.takes in LEADS


def rows():
    """Returns the row of each service by its name."""
    places = dict(LOCATION.findall((CRATES / "a2_bus/specs/Locations.antt").read_text(encoding="utf-8")))
    found = SERVICE_ROW.findall((CRATES / "a2_services/specs/Rows.antt").read_text(encoding="utf-8"))
    return {name.upper(): Row(int(number or places[place], 16), *rest) for name, number, place, *rest in found}


ROWS = rows()
ADDRESSES = {name: row.address for name, row in ROWS.items()}
WINDOW = ("$21 >= 1", "$20 + $21 <= 40", "$22 < $23", "$23 <= 24")
CURSOR = (*WINDOW, "$25 < 24", "$20 + $24 < 40")
# The hooks of output and input, if they lead to COUT1 and to KEYIN.
HOOK, KEY_HOOK = (*CURSOR, "word $36 = #$FDF0"), ("word $38 = #$FD1B",)
LEFT = ("$25 < 24", "$20 + $24 < 40")
# CH and CV, BASL and BASH, the mask of characters, and page 1; the line that GETLN reads
PLACE, BASE, MASK, PAGE, LINE = (0x24, 0x25), (0x28, 0x29), (0x32, 0x32), (0x400, 0x7FF), (0x200, 0x2FF)
# What a service requires by its needs, or by its hook, and where it may store.
WANTED = {"Nothing": (), "Key": (), "Window": WINDOW, "Cursor": CURSOR, "Line": CURSOR, "OutputHook": HOOK, "InputHook": KEY_HOOK}
REACHED = {"Nowhere": (), "Mask": (MASK,), "Base": (BASE,), "Page": (PAGE,), "Screen": (PLACE, BASE, PAGE), "ScreenAndLine": (PLACE, BASE, LINE, PAGE)}
# Where a line begins, how many keys it has at most, the key that ends it and its byte, and the keys that edit it.
LINE_START, MOST_OF_LINE, RETURN_KEY, RETURN = LINE[0], 255, 0x0D, 0x8D
EDITING = {0x08: "a left arrow", 0x15: "a right arrow", 0x18: "Ctrl-X"}
# Keys as they are spelled in a text of a promise.
ESCAPED = {0x0D: "\\r", 0x08: "\\b", 0x15: "\\f", 0x18: "\\x", 0x5C: "\\\\"}


def spelt(keys):
    """Returns keys as a text in quotes."""
    return '"' + "".join(ESCAPED.get(key, chr(key)) for key in keys) + '"'


def number(text):
    """Returns what a number, a byte, a word or a sum of two says."""
    if " + " in text:
        return ("pair", "Plus", *(number(part) for part in text.split(" + ")))
    if text == "A":
        return ("held", "A")
    if text.startswith("word $") or text.startswith("$"):
        return ("of", "Word" if text[0] == "w" else "Byte", ("number", int(text.split("$")[1], 16)))
    return ("number", int(text[2:], 16) if text[0] == "#" else int(text))


def comparison(text):
    """Returns what a comparison says."""
    left, sign, right = re.fullmatch("(.*) (>=|<=|<|=) (.*)", text).groups()
    x, y = number(left), number(right)
    return ("pair", "AtMost", y, x) if sign == ">=" else ("pair", {"<=": "AtMost", "<": "Less", "=": "Equal"}[sign], x, y)


def clauses(texts):
    return [Clause(0, 0, text, comparison(text)) for text in texts]


class Service:
    """A service, called like a routine with a promise. It needs no proof, only a rule."""

    def __init__(self, name, left=(), known=None, rule="refl", keys=(), stores=(), byte=None):
        self.name, self.row = name, ROWS[name]
        self.wanted = WANTED[self.row.takes if self.row.is_hook else self.row.needs]
        self.rule = f"{name.lower()}_serves @ {rule}{' refl' if self.row.is_hook else ''}"
        # the registers that are numbers after it, each with the name of the fact; and the bytes
        self.known, self.stores = known or {}, list(stores)
        # the byte of RAM that it sets, by its address
        self.byte = byte
        left = (*left, f"${byte[0]:02X} = #${byte[1]:02X}") if byte else left
        # the row of the service to which its hook leads, or its own: what it stores and shows, and what else it sets
        self.does = ROWS[LEADS[self.row.takes][1]] if self.row.is_hook else self.row
        changes = Changes({self.row.sets, self.does.sets} - {"Empty"}, list(REACHED[self.does.reach]))
        self.promise = Promise(name, 0, self.row.address, clauses(self.wanted), clauses(left), changes, list(keys))

    def changed(self, s):
        return self.promise.changes.ranges

    def proof(self, s):
        """Returns the proof that it keeps what is promised, if it is called with this S."""
        return f"({self.rule.replace('@', f'code {s} (omega arith)')})"


SERVICES = {
    it.row.address: it
    for it in (
        *(Service(name, LEFT) for name in ("HOME", "PRBYTE", "PRHEX", "COUT1", "COUT")),
        Service("CROUT", (*LEFT, "A = 141"), {"A": (0x8D, "e3")}),
        Service("VTAB"),
        Service("CLREOL"),
        Service("SETINV", byte=(0x32, 0x3F)),
        Service("SETNORM", byte=(0x32, 0xFF)),
        Service("WAIT", ("A = 0",), {"A": (0, "e1")}),
    )
}
# Services that take keys, and others.
RDKEY, KEYIN, GETLN = (ADDRESSES[name] for name in ("RDKEY", "KEYIN", "GETLN"))
TAKERS = {RDKEY: "RDKEY", KEYIN: "KEYIN", GETLN: "GETLN"}
OTHERS = {address: name for name, address in ADDRESSES.items() if address not in SERVICES and address not in TAKERS}


def why_unproved(address):
    """Returns why a call of a service cannot be proved, or None if it can or if there is no service."""
    return f"calling {OTHERS[address]} cannot be proved yet; {TRY_IT}" if address in OTHERS else None


def services_of(program):
    """Returns the services that a program calls; those that take keys with the keys that they take."""
    called = {it.value for it in program.statements if it.is_instruction and it.mnemonic == "JSR"}
    takers = [LineTaker([]) if address == GETLN else KeyTaker(address, 0) for address in sorted(called & set(TAKERS))]
    return [SERVICES[address] for address in sorted(called & set(SERVICES))] + takers


class Unproved(Refusal):
    """Something that may hold, but cannot be proved."""


class KeyTaker(Service):
    """KEYIN, or RDKEY if its hook leads there, taking this key."""

    def __init__(self, address, key):
        super().__init__(TAKERS[address], (), {"A": (0x80 + key, "e1")}, f"{key} (omega arith) refl", [key])


class LineTaker(Service):
    """GETLN, taking the keys of this line, and RETURN."""

    def __init__(self, line):
        known = {"X": (len(line), "e3")}
        super().__init__("GETLN", LEFT, known, f"{list_of(line)} refl (omega arith) refl", [*line, RETURN_KEY], line_stores(line))


def line_stores(line):
    """Returns the bytes of a line and of its RETURN, with their addresses."""
    return list(enumerate([*(plain_byte(key) for key in line), RETURN], LINE_START))


def plain_byte(key):
    """Returns the byte for a key in a line: small letters become capitals."""
    return 0x80 + key - (0x20 if key >= 0x60 else 0)


def taker_of(address, keys, promised, line):
    """Returns a service that takes the first of the waiting keys, which are those that are promised to be taken."""
    name = TAKERS[address]
    if not keys and not promised:
        raise Refusal(line, f"{name} waits for a key, but no `takes` line types one, so it does not return")
    if not keys:
        raise Refusal(line, f"{name} waits for a key, but all keys of `takes` are taken, so it does not return")
    return LineTaker(line_of(keys, line)) if address == GETLN else KeyTaker(address, keys[0])


def line_of(keys, line):
    """Returns the keys before the first RETURN."""
    if RETURN_KEY not in keys:
        raise Refusal(line, f"GETLN waits for RETURN, but the keys left, {spelt(keys)}, have no \\r, so it does not return")
    found = keys[: keys.index(RETURN_KEY)]
    edits = next((EDITING[key] for key in found if key in EDITING), None)
    if edits:
        raise Unproved(line, f"{edits} among the keys of a line, {spelt(found)}, edits it, which cannot be proved yet; {TRY_IT}")
    if len(found) > MOST_OF_LINE:
        raise Unproved(line, f"GETLN gives up a line of more than {MOST_OF_LINE} keys, which cannot be proved yet; {TRY_IT}")
    return found
