"""What an expression says about two worlds, as the prover reads it: exactly the terms that `view` and `claim` of
crates/a2_promise_rules/proofs/Saying.antt compute, and which expressions they cover.
"""

import copy

from .refusal import Refusal
from .source import RAM_END
from .terms import bare, par

COMPARED = {"Equal": ("≡", "≢"), "Less": ("<", "≤"), "AtMost": ("≤", "<")}
REGISTERS = ("A", "X", "Y")
FLAGS = {"Carry": "C", "Zero": "Z", "Negative": "N", "Overflow": "V"}
OTHERS = {"Cycles": "cycles", "Steps": "steps", "Decimal": "D", "Interrupt": "I"}
BY_IF = "a number made by `if` cannot be proved; write if P then A = E else A = E"
BYTES = {"BitAnd": "◌&&◌", "BitOr": "◌||◌", "BitXor": "differ"}
OPERATORS = {"Plus": "+", "Times": "*", "Over": "/"}
# The largest number of terms of a sum.
MOST_SUMMED = 64


def is_minus(e):
    """Returns whether a number may be below 0."""
    if e[0] in ("old", "at"):
        return is_minus(e[-1])
    if e[0] == "of":
        return e[1] == "Signed"
    return e[0] == "pair" and (e[1] == "Minus" or e[1] == "Plus" and (is_minus(e[2]) or is_minus(e[3])))


def is_fact(e):
    """Returns whether an expression says that something holds, and is not a flag."""
    if e[0] in ("old", "at"):
        return is_fact(e[-1])
    return e[0] in ("choice", "each") or e[0] == "pair" and e[1] in COMPARED


def is_flag(e):
    """Returns whether an expression is a flag."""
    return is_fact(e) or e[0] == "held" and e[1] not in REGISTERS or e[0] in ("old", "at") and is_flag(e[-1])


def constant(e):
    return {("number", 0): False, ("number", 1): True}.get(e)


def shape(e):
    """Returns what a choice is: and, or, not, if, or one of two."""
    return {
        (None, False): "and",
        (True, None): "or",
        (False, True): "not",
        (None, True): "if",
    }.get((constant(e[2]), constant(e[3])), "choice")


# Which expressions can be proved


def most(e, tops=()):
    """Returns an upper bound of an expression, from the upper bounds of the names."""
    kind = e[0]
    if kind == "number":
        return e[1]
    if kind == "bound":
        return tops[e[1]]
    if kind in ("old", "at"):
        return most(e[-1], tops)
    if kind == "of":
        return most(e[2], tops) if e[1] == "Abs" else {"Byte": 255, "Word": 65535}.get(e[1], 256)
    if kind == "pair":
        m, n = most(e[2], tops), most(e[3], tops)
        return {"Plus": m + n, "Minus": m + n, "Times": m * n, "Over": m, "Modulo": n, "Min": m, "Max": m + n}.get(e[1], 255)
    if kind == "sum":
        return most(e[2], tops) * most(e[3], within(e, tops))
    return 255


def within(e, tops):
    """Returns the upper bound of each name within a counted expression."""
    return (*tops[: e[1]], max(most(e[2], tops) - 1, 0))


def why_no_number(e, tops=()):
    """Returns why the rules do not cover a number, or None if they do."""
    kind = e[0]
    if kind in ("number", "bound"):
        return None
    if kind == "held":
        if e[1] in REGISTERS or e[1] in FLAGS:
            return None
        return f"{OTHERS.get(e[1], e[1])} cannot be proved; A, X, Y and the flags C, Z, N, V can"
    if kind in ("old", "at"):
        return why_no_number(e[-1], tops)
    if kind == "of":
        return why_no_number(e[2], tops) or why_no_place(e, tops)
    if kind == "pair":
        return why_no_number(e[2], tops) or why_no_number(e[3], tops) or why_not_joined(e, tops)
    if kind == "sum":
        return why_no_sum(e, tops)
    return BY_IF


def least(e):
    """Returns a lower bound of an expression, from numbers that are written in it."""
    if e[0] == "number":
        return e[1]
    if e[0] == "old":
        return least(e[1])
    return least(e[2]) + least(e[3]) if e[:2] == ("pair", "Plus") else 0


def is_never_below(e, tops):
    """Returns whether a difference is never below 0, from numbers that are written in it."""
    if e[0] == "old":
        return is_never_below(e[1], tops)
    if e[:2] == ("pair", "Minus"):
        return not is_minus(e[2]) and not is_minus(e[3]) and most(e[3], tops) <= least(e[2])
    return e[:2] == ("pair", "Plus") and all(not is_minus(it) or is_never_below(it, tops) for it in e[2:])


def why_no_place(e, tops):
    if e[1] == "Abs":
        return None
    if e[1] == "Signed":
        return "`signed` can be proved only for bytes" if is_minus(e[2]) or most(e[2], tops) > 255 else None
    if is_minus(e[2]) and (e[1] == "Word" or not is_never_below(e[2], tops)):
        return "an address with a minus can be proved only for a byte, and only if the numbers show that it is never below 0"
    if most(e[2], tops) >= (RAM_END if e[1] == "Byte" else RAM_END - 1):
        return "this address may be at $C000 or above; only bytes of RAM can be proved"
    return None


def why_not_joined(e, tops):
    _, op, x, y = e
    if op in COMPARED:
        return "a comparison cannot be proved as a number"
    if op == "Bit" and not (x[0] == "number" and x[1] < 16):
        return "`bit` can be proved only with a bit number from 0 to 15 in the source"
    if op in ("Over", "Modulo") and not (y[0] == "number" and y[1] > 0):
        return "a division can be proved only by a number above 0 in the source"
    if op in ("Times", "Over", "Min", "Max", "Bit", *BYTES) and (is_minus(x) or op != "Over" and is_minus(y)):
        return "a difference can be proved only in a sum, before `%` or in a comparison"
    if op in BYTES and (most(x, tops) > 255 or most(y, tops) > 255):
        return "bit operations can be proved only for bytes"
    if op == "Bit" and most(y, tops) > 65535:
        return "`bit` can be proved only of a byte or a word"
    if op in ("Plus", "Minus", "Times") and most(e, tops) >= 2**63:
        return "this number may be too large"
    return None


def why_no_sum(e, tops):
    if e[2][0] != "number" or e[2][1] > MOST_SUMMED:
        return f"a sum can be proved only with a number as its limit, at most {MOST_SUMMED}"
    if is_minus(e[3]):
        return "a sum of differences cannot be proved"
    return why_no_number(e[3], within(e, tops))


def why_no_fact(e, tops=()):
    """Returns why the rules do not cover a fact, or None if they do."""
    kind = e[0]
    if kind == "number":
        return None
    if kind == "held":
        return None if e[1] in FLAGS else f"{OTHERS.get(e[1], e[1])} cannot be proved; the flags C, Z, N, V can"
    if kind in ("old", "at"):
        return why_no_fact(e[-1], tops)
    if kind == "pair" and e[1] in COMPARED:
        if (is_fact(e[2]) or is_fact(e[3])) and not (is_flag(e[2]) and is_flag(e[3])):
            return BY_IF
        if is_fact(e[2]) or is_fact(e[3]):
            return why_no_fact(e[2], tops) or why_no_fact(e[3], tops)
        return why_no_number(e[2], tops) or why_no_number(e[3], tops)
    if kind == "choice":
        return why_no_fact(e[1], tops) or why_no_fact(e[2], tops) or why_no_fact(e[3], tops)
    if most(e[2], tops) > 65535:
        return "this counts to more than 65,535"
    return why_no_number(e[2], tops) or why_no_fact(e[3], within(e, tops))


# Terms


class Words:
    """Makes terms of an expression, for the worlds that these names stand for: its own, and the one at the entry. `names` has what counted
    variables stand for. Bytes at addresses that are not numbers are noted, each with its memory."""

    def __init__(self, new, old, names=(), noted=None, labels=None):
        self.new, self.old, self.names = new, old, names
        self.noted = [] if noted is None else noted
        # the worlds in which the run last reached labels
        self.labels = labels or {}

    def at_entry(self):
        return Words(self.old, self.old, self.names, self.noted)

    def at_label(self, label):
        if label not in self.labels:
            raise Refusal(0, f"here the run has not reached {label} in a loop around this one")
        return Words(self.labels[label], self.old, self.names, self.noted, self.labels)

    def counting(self, e, term):
        """Returns the same, with the counted variable standing for a term."""
        made = copy.copy(self)
        made.names = (*self.names[: e[1]], term)
        return made

    @property
    def memory(self):
        return f"{self.new}.memory"

    def part(self, atom):
        if atom in REGISTERS:
            return f"{self.new}.registers.{atom.lower()}"
        return f"(one_if {self.flag(atom)})"

    def flag(self, atom):
        return f"{self.new}.registers.flags.{FLAGS[atom].lower()}"

    def byte(self, address):
        self.note(address)
        return f"ram_byte {self.memory} {par(address)}"

    def word(self, address):
        if not str(address).isdigit():
            self.note(address)
            self.note(f"({address} + 1)")
        return f"word {self.memory} {par(address)}"

    def note(self, address):
        if not str(address).isdigit():
            self.noted.append((self.memory, bare(address)))

    # Numbers

    def plain(self, e):
        kind = e[0]
        if kind == "number":
            return str(e[1])
        if kind == "held":
            return self.part(e[1])
        if kind == "bound":
            return str(self.names[e[1]])
        if kind == "old":
            return self.at_entry().plain(e[1])
        if kind == "at":
            return self.at_label(e[1]).plain(e[2])
        if kind == "sum":
            return "(" + " + ".join(["0"] + [self.counting(e, k).plain(e[3]) for k in range(e[2][1])]) + ")"
        if kind == "of" and e[1] == "Abs":
            up, down = self.up(e[2]), self.down(e[2])
            return f"(({up} - {down}) + ({down} - {up}))"
        if kind == "of":
            return (self.byte if e[1] == "Byte" else self.word)(self.address(e[2]))
        return self.joined(*e[1:])

    def address(self, e):
        return operated("Less", self.up(e), self.down(e)) if is_minus(e) else self.plain(e)

    def joined(self, op, x, y):
        if op in OPERATORS:
            return operated(op, self.plain(x), self.plain(y))
        if op in BYTES:
            return f"(by_digits 8 {BYTES[op]} {par(self.plain(x))} {par(self.plain(y))})"
        if op == "Modulo":
            m = y[1]
            over = f"({self.up(x)} + {m - 1} * {par(self.down(x))})" if is_minus(x) else self.plain(x)
            return f"({over} % {m})"
        if op == "Bit":
            return f"({self.plain(y)} / {2 ** x[1]} % 2)"
        return f"({op.lower()} {par(self.plain(x))} {par(self.plain(y))})"

    def up(self, e):
        if e[0] == "old" and is_minus(e):
            return self.at_entry().up(e[1])
        if e[0] == "at" and is_minus(e):
            return self.at_label(e[1]).up(e[2])
        if e[0] == "of" and e[1] == "Signed":
            return self.plain(e[2])
        if e[0] == "pair" and e[1] == "Minus":
            return operated("Plus", self.up(e[2]), self.down(e[3]))
        if e[0] == "pair" and e[1] == "Plus":
            return operated("Plus", self.up(e[2]), self.up(e[3]))
        return self.plain(e)

    def down(self, e):
        if e[0] == "old" and is_minus(e):
            return self.at_entry().down(e[1])
        if e[0] == "at" and is_minus(e):
            return self.at_label(e[1]).down(e[2])
        if e[0] == "of" and e[1] == "Signed":
            return f"(256 * (one_if (nat_le 128 {par(self.plain(e[2]))})))"
        if e[0] == "pair" and e[1] == "Minus":
            return operated("Plus", self.down(e[2]), self.up(e[3]))
        if e[0] == "pair" and e[1] == "Plus":
            return operated("Plus", self.down(e[2]), self.down(e[3]))
        return "0"

    def sides(self, x, y):
        """Returns the two sides of a comparison."""
        if is_minus(x) or is_minus(y):
            return f"({self.up(x)} + {self.down(y)})", f"({self.up(y)} + {self.down(x)})"
        return self.plain(x), self.plain(y)

    # Facts

    def says(self, e, holds=True):
        """Returns that a fact holds, or that it does not."""
        kind = e[0]
        if kind == "number":
            return "Unit {0}" if bool(e[1]) == holds else "⊥"
        if kind == "held":
            return f"{self.flag(e[1])} ≡ {'true' if holds else 'false'}"
        if kind == "old":
            return self.at_entry().says(e[1], holds)
        if kind == "at":
            return self.at_label(e[1]).says(e[2], holds)
        if kind == "pair":
            return self.pair_says(e, holds)
        if kind == "each":
            return self.each_says(e, holds)
        return self.choice_says(e, holds)

    def each_says(self, e, holds):
        name = f"i{e[1]}"
        one = self.counting(e, name).says(e[3], holds)
        less = f"{name} + {self.down(e[2])} < {self.up(e[2])}"
        return f"({name} : ℕ) → {less} → ({one})" if holds else f"({name} : ℕ) × ({less}) × ({one})"

    def pair_says(self, e, holds):
        _, op, x, y = e
        if is_fact(x) or is_fact(y):
            return f"({self.implies(x, True, y, holds)}) × ({self.implies(x, False, y, not holds)})"
        left, right = self.sides(x, y)
        if holds or op == "Equal":
            return f"{left} {COMPARED[op][0 if holds else 1]} {right}"
        return f"{right} {COMPARED[op][1]} {left}"

    def implies(self, x, x_holds, y, y_holds):
        return f"({self.says(x, x_holds)}) → ({self.says(y, y_holds)})"

    def two(self, sign, x, x_holds, y, y_holds):
        return f"({self.says(x, x_holds)}) {sign} ({self.says(y, y_holds)})"

    def choice_says(self, e, holds):
        _, by, one, other = e
        kind = shape(e)
        if kind == "and":
            return self.two("×" if holds else "⊎", by, holds, one, holds)
        if kind == "or":
            return self.two("⊎" if holds else "×", by, holds, other, holds)
        if kind == "not":
            return self.says(by, not holds)
        if kind == "if":
            return self.implies(by, True, one, True) if holds else self.two("×", by, True, one, False)
        return f"({self.implies(by, True, one, holds)}) × ({self.implies(by, False, other, holds)})"


def operated(op, x, y):
    if not (x.isdigit() and y.isdigit()):
        return f"({x} {OPERATORS.get(op, '-')} {y})"
    m, n = int(x), int(y)
    return str({"Plus": m + n, "Times": m * n, "Less": max(m - n, 0)}.get(op, m // n if n else 0))


def signed_in(e, words):
    """Returns the bytes whose sign an expression uses, as terms."""
    if e[0] == "old":
        yield from signed_in(e[1], words.at_entry())
        return
    if e[0] == "at":
        yield from signed_in(e[2], words.at_label(e[1]))
    if e[0] in ("each", "sum", "at"):
        return
    if e[0] == "of" and e[1] == "Signed":
        yield words.plain(e[2])
    for part in e[1:]:
        if isinstance(part, tuple):
            yield from signed_in(part, words)


# Literals


def phrase(e):
    """Returns an expression as a phrase of specs/Phrases.antt of a2_promise."""
    kind = e[0]
    if kind == "number":
        return f"(number (pos {e[1]}))"
    if kind == "held":
        return f"(held atom.{e[1]})"
    if kind == "old":
        return f"(old {phrase(e[1])})"
    if kind == "of":
        return f"(of function.{e[1]} {phrase(e[2])})"
    if kind == "pair":
        return f"(pair operation.{e[1]} {phrase(e[2])} {phrase(e[3])})"
    if kind == "bound":
        return f"(bound {e[1]})"
    if kind in ("each", "sum"):
        return f"({kind} {e[1]} {phrase(e[2])} {phrase(e[3])})"
    return f"(choice {phrase(e[1])} {phrase(e[2])} {phrase(e[3])})"
