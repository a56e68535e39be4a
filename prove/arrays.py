"""Bytes at addresses that are not known by value: what is known about each, from how its memory was made from others."""

import re
from dataclasses import dataclass

from .saying import is_fact, most, shape
from .terms import bare, is_closed, list_of, par

# How many facts of this kind a goal may have: more take the arithmetic too long.
MOST_CASES = 14


@dataclass
class Put:
    """A memory made from another one by storing a byte at an address."""

    before: str
    at: str
    byte: str
    equation: str


@dataclass
class Cut:
    """A memory made from another one by stores whose addresses are numbers."""

    before: str
    stores: list
    equation: str


@dataclass
class Kept:
    """The memory of a world that equals another one except in ranges of addresses, which are named too."""

    before: str
    names: str
    world: str
    proof: str
    ranges: list


def parts_of(text, tops, sign=1):
    """Returns what a sum adds and subtracts, as texts with their signs. A difference that may be below 0 is one part."""
    text = bare(text)
    depth, cuts = 0, []
    for at, c in enumerate(text):
        depth += (c == "(") - (c == ")")
        if depth == 0 and text[at : at + 3] in (" * ", " / ", " % "):
            return [(sign, text)]
        if depth == 0 and text[at : at + 3] in (" + ", " - "):
            cuts.append((at, text[at + 1]))
    if not cuts:
        return [(sign, text)]
    at, operator = cuts[-1]
    left, right = text[:at], text[at + 3 :]
    if operator == "-" and span(tops, right)[1] > span(tops, left)[0]:
        return [(sign, text)]
    return parts_of(left, tops, sign) + parts_of(right, tops, sign if operator == "+" else -sign)


def linear(text, tops):
    """Returns a sum as its number and its other parts with their signs, sorted."""
    number, parts = 0, []
    for sign, part in parts_of(text, tops):
        if part.isdigit():
            number += sign * int(part)
        elif (-sign, part) in parts:
            parts.remove((-sign, part))
        else:
            parts.append((sign, part))
    return number, sorted(parts)


def sum_of(number, parts):
    """Returns a sum as a term."""
    def enclosed(it):
        return it if is_closed(it) else par(it)

    added = [enclosed(it) for sign, it in parts if sign > 0]
    taken = [enclosed(it) for sign, it in parts if sign < 0]
    terms = ([str(number)] if number or not added else []) + added
    text = terms[0] if len(terms) == 1 else "(" + " + ".join(terms) + ")"
    for it in taken:
        text = f"({text} - {it})"
    return text


def top_of(tops, term):
    """Returns the most likely upper bound of a part of a sum. It is proved where it is used."""
    if term in tops:
        return tops[term]
    found = re.fullmatch(r"\((.*) \+ (1|255)\) % 256", term)
    if found:
        top = top_of(tops, bare(found[1]))
        return min(255, top + (found[2] == "1"))
    found = re.fullmatch(r"(\S+) - \d+", term)
    if found:
        return top_of(tops, bare(found[1]))
    found = re.fullmatch(r"256 \* (.*)", term)
    return 256 * 255 if found else 255


def span(tops, text):
    """Returns the lowest and the highest address that it can be."""
    number, parts = linear(text, tops)
    low = number - sum(top_of(tops, it) for sign, it in parts if sign < 0)
    return max(low, 0), number + sum(top_of(tops, it) for sign, it in parts if sign > 0)


def is_apart(tops, a, b):
    """Returns whether two addresses are certainly different."""
    (m, p), (n, q) = linear(a, tops), linear(b, tops)
    if p == q:
        return m != n
    (low, high), (first, last) = span(tops, a), span(tops, b)
    return high < first or last < low


def is_same(tops, a, b):
    """Returns whether two addresses are certainly the same, though written differently."""
    return a != b and linear(a, tops) == linear(b, tops)


def covers(ranges, low, high):
    return any(first <= low and high <= last for first, last in ranges)


def reads_of(term):
    """Returns the bytes that a term reads, each as its memory and its address."""
    for found in re.finditer(r"ram_byte ", term):
        memory, at = argument(term, found.end())
        address, _ = argument(term, at + 1)
        yield memory, bare(address)


def argument(text, at):
    """Returns the argument that begins at a place of a text, and where it ends."""
    depth, end = 0, at
    while end < len(text) and (depth or text[end] not in " )"):
        depth += (text[end] == "(") - (text[end] == ")")
        end += 1
    return text[at:end], end


class Finder:
    """Finds the facts that a goal needs about bytes in a state. `decided` says for bytes, each given by its memory and address, whether it
    is the byte that was stored last there."""

    def __init__(self, state, tops, named=(), decided=None):
        self.state, self.tops, self.named = state, tops, named
        self.decided = decided or {}
        self.terms, self.cases, self.last_cases, self.seen, self.deep, self.used = [], [], [], set(), set(), set()
        # a byte for which that is not decided, with the fact that has both cases
        self.open = None
        self.queue = []

    def know(self, term, says=""):
        if (term, says) not in self.terms:
            self.terms.append((term, says))

    def case(self, term):
        if term not in self.cases:
            self.cases.append(term)

    @property
    def by(self):
        return self.state.arithmetic()

    def find(self, reads, others=()):
        """Finds everything that is known about bytes that are read; and for others, how they were made from one another."""
        self.queue = [(memory, bare(address), True) for memory, address in reads]
        self.queue += [(memory, bare(address), False) for memory, address in others]
        while self.queue:
            memory, address, is_deep = self.queue.pop(0)
            if is_deep and (memory, address) not in self.deep:
                self.deep.add((memory, address))
                self.instances(memory, address)
            elif (memory, address) in self.seen:
                continue
            self.seen.add((memory, address))
            self.know(f"{self.has(memory)}.bytes {par(address)}")
            link = self.state.links.get(memory)
            if link:
                self.linked(memory, address, link, is_deep)
        self.alike()
        self.cases += self.last_cases

    def has(self, memory):
        """Returns the fact that a memory is whole."""
        return self.state.all_has[memory]

    def within(self, address):
        """Returns proofs that an address is not below the first and not above the last address of a range."""
        low, high = span(self.tops, address)
        return f"{low} {high} {par(address)} refl {self.by} {self.by}"

    def linked(self, memory, address, link, is_deep):
        if isinstance(link, Put):
            self.put(memory, address, link, is_deep)
            return
        self.queue.append((link.before, address, is_deep))
        if isinstance(link, Cut):
            self.cut(memory, address, link, is_deep)
        else:
            self.kept(address, link)

    def put(self, memory, address, link, is_deep):
        here = f"{link.before} {memory} {par(link.at)} {par(link.byte)} {link.equation}"
        was_stored = self.decided.get((memory, address))
        if bare(link.at) == address:
            was_stored = True
            self.know(f"put_here {here} {self.has(link.before)}")
        elif was_stored is None and is_apart(self.tops, address, link.at):
            was_stored = False
            self.know(f"put_other {here} {par(address)} (λ e. omega (e, {self.state.facts_listed}))")
        elif was_stored is None:
            fact = f"put_read {here} {self.has(link.before)} {par(address)}"
            self.open = self.open or (memory, address, fact) if is_deep else self.open
            self.case(fact)
        if was_stored is not True:
            self.queue.append((link.before, address, is_deep))
        if was_stored is not False:
            self.queue += [(*it, is_deep) for it in reads_of(link.byte)]

    def cut(self, memory, address, link, is_deep):
        if address.isdigit():
            byte = dict(link.stores).get(int(address), f"ram_byte {link.before} {address}")
            self.queue += [(*it, is_deep) for it in reads_of(byte)]
            stores = list_of(f"({at}, {term})" for at, term in link.stores)
            proof = f"stores_read {stores} {link.before} {memory} {link.equation} {self.has(link.before)} {address}"
            self.know(proof, f"ram_byte {memory} {address} ≡ {byte}")
            return
        low, high = span(self.tops, address)
        if any(low <= at <= high for at, _ in link.stores):
            return
        stores = list_of(f"({at}, _)" for at, _ in link.stores)
        self.know(f"stores_other {stores} {link.before} {memory} {link.equation} {self.within(address)}")

    def kept(self, address, link):
        low, high = span(self.tops, address)
        if covers(link.ranges, low, high):
            return
        inside = [it for it in link.ranges if it[0] <= high and low <= it[1]]
        if address.isdigit():
            self.know(f"{link.proof}.bytes {address} refl")
        elif not inside:
            self.know(f"kept_beside {link.names} {link.world} {self.within_named(address)}".replace("@", link.proof))
        elif len(inside) == 1:
            first, last = inside[0]
            self.last_cases.append(f"kept_or_in {link.names} {link.world} {first} {last} {self.within_named(address)}".replace("@", link.proof))

    def within_named(self, address):
        low, high = span(self.tops, address)
        return f"{low} {high} {par(address)} @ refl {self.by} {self.by}"

    # What holds for each number below another

    def instances(self, memory, address):
        for fact, e, words in self.state.universals:
            for place, number, others, sign in patterns(e, words, self.tops):
                index = index_at(address, number, others, sign, self.tops) if place == memory else None
                if index is not None and (fact, index) not in self.used and self.may_count(e, index, words):
                    self.used.add((fact, index))
                    self.instance(fact, e, words, index)

    def may_count(self, e, index, words):
        """Returns whether a number may be below the count."""
        is_counted = linear(index, self.tops) == linear(words.up(e[2]), self.tops) and words.down(e[2]) == "0"
        return not is_counted and len(self.used) < MOST_CASES and span(self.tops, index)[0] < most(e[2], [65535] * e[1])

    def instance(self, fact, e, words, index):
        there = words.counting(e, index)
        there.noted = []
        less = f"p{len(self.used)}x{index_name(index)}"
        for says in read_as(e[3], True, there, f"{fact} {par(index)} {less}", less):
            self.case(f"at_index ({index} + {words.down(e[2])}) {par(words.up(e[2]))} (λ {less}. {says})")
        there.says(e[3])
        self.queue += [(memory, bare(address), False) for memory, address in there.noted]

    def alike(self):
        """Returns bytes of one memory whose addresses may be the same."""
        of = {}
        for memory, address in self.seen:
            if not isinstance(self.state.links.get(memory), (Put, Cut)):
                of.setdefault(memory, []).append(address)
        related = {address for _, address in self.deep} | {str(a) for a in self.named}
        for memory, addresses in sorted(of.items()):
            addresses = sorted({*addresses, *(str(a) for a in self.named)})
            for k, a in enumerate(addresses):
                for b in addresses[k + 1 :]:
                    if not {a, b} & related:
                        continue
                    if is_same(self.tops, a, b):
                        self.know(f"same_place {memory} {par(a)} {par(b)} {self.by}")
                    elif not is_apart(self.tops, a, b) and not (a.isdigit() and b.isdigit()):
                        self.case(f"same_byte {memory} {par(a)} {par(b)}")


def index_name(index):
    return re.sub(r"\W", "", index)[:12]


def read_as(e, holds, words, proof, name):
    """Returns proofs of what a fact says as the arithmetic reads it, without implications. Names in them begin with this one."""
    if e[0] == "old":
        return read_as(e[1], holds, words.at_entry(), proof, name)
    if e[0] == "at":
        return read_as(e[2], holds, words.at_label(e[1]), proof, name)
    if e[0] == "pair":
        return [proof] if is_compared(e) else []
    if e[0] != "choice":
        return []
    _, by, one, other = e
    kind = shape(e)
    if kind == "not":
        return read_as(by, not holds, words, proof, name)
    if kind in ("and", "or"):
        second = one if kind == "and" else other
        if (kind == "and") == holds:
            first = read_as(by, holds, words, f"({proof}).0", name + "a")
            return first + read_as(second, holds, words, f"({proof}).1", name + "b")
        return [proof] if is_compared(by) and is_compared(second) else []
    if kind == "if" and not holds:
        return []

    def way(value, then, function, name):
        return supposing(by, value, words, lambda p: read_as(then, holds, words, f"({function} {p})", name + "c"), name)

    if kind == "if":
        return way(True, one, proof, name + "s")
    return way(True, one, f"({proof}).0", name + "s") + way(False, other, f"({proof}).1", name + "t")


def is_compared(e):
    return e[0] == "pair" and not (is_fact(e[2]) or is_fact(e[3]))


def supposing(e, holds, words, made, name):
    """Returns proofs of what follows if a fact holds, or if it does not, each with the other case."""
    if e[0] == "old":
        return supposing(e[1], holds, words.at_entry(), made, name)
    if e[0] == "at":
        return supposing(e[2], holds, words.at_label(e[1]), made, name)
    if is_compared(e):
        x, y = words.sides(e[2], e[3])
        rule = {("Equal", True): "if_eq", ("Equal", False): "if_ne", ("Less", True): "if_lt", ("AtMost", True): "if_le"}.get((e[1], holds))
        if rule is None:
            rule, x, y = ("if_le" if e[1] == "Less" else "if_lt"), y, x
        return [f"({rule} {par(x)} {par(y)} (λ {name}. {then}))" for then in made(name)]
    kind = shape(e) if e[0] == "choice" else None
    if kind == "not":
        return supposing(e[1], not holds, words, made, name)
    if kind not in ("and", "or"):
        return []
    second = e[2] if kind == "and" else e[3]
    if (kind == "and") == holds:
        return supposing(e[1], holds, words, lambda p: supposing(second, holds, words, lambda q: made(f"({p}, {q})"), name + "b"), name + "a")
    first = supposing(e[1], holds, words, lambda p: made(f"(inl {p})"), name + "l")
    return first + supposing(second, holds, words, lambda p: made(f"(inr {p})"), name + "r")


def patterns(e, words, tops):
    """Returns the bytes in a counted expression: the memory, the address as its number and its other parts, and the sign of the counted
    variable."""
    there = words.counting(e, "◊")
    there.noted = []
    there.says(e[3])
    for memory, address in there.noted:
        number, parts = linear(address, {**tops, "◊": max(most(e[2], [65535] * e[1]) - 1, 0)})
        for sign in (1, -1):
            if (sign, "◊") in parts and not any("◊" in it for _, it in parts if it != "◊"):
                parts.remove((sign, "◊"))
                yield memory, number, parts, sign
                break


def index_at(address, number, others, sign, tops):
    """Returns the value of the counted variable for which a byte's address is this one."""
    here, parts = linear(address, tops)
    number, parts = sign * (here - number), [(sign * s, it) for s, it in parts] + [(-sign * s, it) for s, it in others]
    for s, it in list(parts):
        if s > 0 and (-1, it) in parts:
            parts.remove((1, it))
            parts.remove((-1, it))
    if number >= 0 and (number or any(s > 0 for s, _ in parts) or not parts):
        return sum_of(number, parts)
    return f"({sum_of(0, parts)} - {-number})" if -4 < number < 0 and parts and all(s > 0 for s, _ in parts) else None
