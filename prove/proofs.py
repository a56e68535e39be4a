"""The proof that a routine meets its promise, found by running it on terms. Paths fork at branches whose flag is not known. A loop with an
invariant is run once. A call is what the called routine promises.
"""

import copy
import re

from .arrays import MOST_CASES, Cut, Finder, Kept, Put, is_apart, span
from .refusal import Refusal
from .services import SERVICES, TAKERS, Unproved, services_of, spelt, taker_of, why_unproved
from .saying import FLAGS, Words, constant, is_fact, is_minus, most, shape, signed_in
from .source import BRANCHES, RAM_END, cells_in, labels_in
from .symbolic import Ground, Run, State, StateWords
from .terms import add, bare, in_words, list_of, modulo, par

MOST_BRANCHES = 9
# Up to how many numbers are tried one by one, if something is said about each number below another.
MOST_UNROLLED = 32
# With more facts than this, a comparison is proved only from those about what it compares.
MANY_FACTS = 100
# For how many bytes of a goal the cases are distinguished, whether they were stored last.
MOST_DECIDED = 4
NO_KEYS_IN_LINES = "lines at a label cannot mention keys"
MAY_CHANGE = "a byte that is not listed in `changes` may change"
STORES, CHANGES = ("STA", "STX", "STY"), ("INC", "DEC", "ASL", "LSR", "ROL", "ROR")
MOST_STEPS = 20_000
TOO_LONG = "this runs for too long; a loop whose count is not known needs invariant and decreases lines before its label"
TOO_MANY = f"more than {MOST_BRANCHES} branches one after another make too many paths; join them with a note line before a label"


class Loop:
    """A label at which something is said."""

    def __init__(self, routine, within):
        self.within = within
        self.name = f"{routine.name}_{within.label}"
        self.invariants = within.invariants
        self.measure = within.measures[0] if within.measures else None
        self.labels = sorted({label for clause in within.invariants + within.measures for label in labels_in(clause.expr)})
        # the keys that are taken when the run reaches it, once that is known
        self.taken = None

    def come(self, taken, turns):
        """Notes the keys that are taken when a path reaches it, or returns to it; they are the same each time."""
        if self.taken is None:
            self.taken = list(taken)
        label, line, more = self.within.label, self.within.line, taken[len(self.taken) :]
        if self.taken != taken and turns:
            says = f"each turn of {label} takes keys, {spelt(more)}, but {NO_KEYS_IN_LINES}"
            raise Refusal(line, f"{says}; without lines before its label a loop is followed step by step")
        if self.taken != taken:
            raise Refusal(line, f"paths reach {label} after different keys, {spelt(self.taken)} and {spelt(taken)}, but {NO_KEYS_IN_LINES}")


class Routine:
    """A promise, and the bytes of the stack at which its routine stores, by the S with which it is entered."""

    def __init__(self, promise):
        self.promise = promise
        self.name = promise.name
        self.stack = {}
        self.loops = {it.address: Loop(self, it) for it in promise.within}

    def changed(self, s):
        """Returns ranges of addresses that may change, such that no two of them touch."""
        return merged([*self.promise.changes.ranges, *((a, a) for a in self.stack.get(s, ()))])


class Proof(Run):
    """Proofs of the routines of a program, by their addresses."""

    def __init__(self, program, routines):
        super().__init__(program)
        self.routines = routines

    def proof_of(self, routine, s):
        """Returns the proof that a routine meets its promise if it is entered with this S."""
        self.routine, self.s, self.saying = routine, s, ""
        self.changed = routine.changed(s)
        self.tops = {}
        self.touched, self.calls, self.marks, self.ways, self.fuel = set(), set(), [], 0, MOST_STEPS
        for loop in routine.loops.values():
            loop.taken = None
        self.named = self.cells_named()
        promise = routine.promise
        state = State("w", f"(enter {promise.address} {s} w)", promise.address, s)
        for register in "axy":
            self.fact(state, f"bytes.{register}")
        for k, clause in enumerate(promise.wanted, 1):
            self.learn(state, clause.expr, f"before.r{k}", Words("w", "w"))
        for address in sorted(self.named):
            self.fact(state, f"bytes.ram.bytes {address}")
        state.ground = Ground(*(list(it) for it in (state.facts, state.known, state.reads, state.universals)))
        return self.lines(state) + self.tree(state, [])

    def cells_named(self):
        clauses = list(self.routine.promise.wanted + self.routine.promise.promised)
        for loop in self.routine.loops.values():
            clauses += loop.invariants
        called = {it.value for it in self.program.statements if it.is_instruction and it.mnemonic == "JSR"}
        for other in [self.routines[a] for a in sorted(called & set(self.routines))] + services_of(self.program):
            clauses += other.promise.promised + other.promise.wanted
        return {a for clause in clauses for a in cells_in(clause.expr) if a < RAM_END}

    # Texts

    def mark(self, says):
        """Notes what the line that ends here proves."""
        self.marks.append(says)
        return f"-- @{len(self.marks) - 1}\n"

    def lines(self, state):
        """Returns the lines that name facts."""
        text = ""
        for name, term in state.lines:
            end = self.mark(wanted_by(term) + state.at) if "omega" in term else "\n"
            text += f"let {name} = {term} in {end}"
        state.lines = []
        return text

    def learn(self, state, e, fact, words):
        """Gives the arithmetic what a fact says in these words."""
        for term, part in known_by(e, fact, True, lambda letter: None):
            self.fact(state, term, keys=keys_of(part))
        self.signs(state, e, words)
        self.tops.update(tops_in(e, words))
        state.reads += bytes_in(e, words)
        for proof, each in universals_in(e, fact):
            state.universals.append((proof, each, words))
            if each[2][0] == "number" and each[2][1] <= MOST_UNROLLED and not state.links:
                for k in range(each[2][1]):
                    self.learn(state, each[3], f"({proof} {k} (omega arith))", words.counting(each, k))

    def signs(self, state, e, words):
        """Gives the arithmetic the sign of each byte whose sign is used."""
        for term in signed_in(e, words):
            self.fact(state, f"le_bit 128 {par(term)}")

    # Paths

    def tree(self, state, loops):
        """Goes from a state to the return, or back to the top of a loop."""
        while True:
            if any(is_cell(address) for address in state.memory):
                begin, end = self.cut(state)
                return f"{begin}{self.tree(state, loops)}{end}"
            it = self.program.instruction_at(state.pc)
            if it is None and (state.pc in SERVICES or state.pc in TAKERS):
                says = f"goes to the service at ${state.pc:04X} by a jump; it must return to its caller by its own RTS"
                raise Refusal(0, f"{self.routine.name} {says}")
            if it is None:
                raise Refusal(0, f"{self.routine.name} goes to ${state.pc:04X}, but no instruction of the source begins there")
            self.fuel -= 1
            if self.fuel < 0:
                raise Refusal(it.line, TOO_LONG)
            if state.pc in self.routine.loops and not (state.steps == 0 and state.top == state.pc):
                return self.loop(state, loops)
            if it.mnemonic == "RTS" and state.s == self.s:
                return self.leaf(state, it, loops)
            if it.mnemonic == "RTS":
                self.go_back(state, it)
            elif it.mnemonic in BRANCHES and state.flags[BRANCHES[it.mnemonic][0]][0] == "known":
                flag, is_set = BRANCHES[it.mnemonic]
                state.steps += 1
                state.pc = it.value if state.flags[flag][1] == is_set else it.address + it.length
            elif it.mnemonic in BRANCHES:
                return self.fork(state, it, loops)
            elif it.mnemonic == "JSR" and it.value in self.routines and it.value != self.routine.promise.address:
                return self.call(state, it, self.routines[it.value], loops)
            elif it.mnemonic == "JSR" and it.value in SERVICES:
                return self.call(state, it, SERVICES[it.value], loops)
            elif it.mnemonic == "JSR" and it.value in TAKERS:
                return self.take_key(state, it, loops)
            elif it.mnemonic in ("JSR", "JMP") and it.mode == "Absolute" and why_unproved(it.value):
                raise Refusal(it.line, why_unproved(it.value))
            elif self.is_reached(state, it):
                return self.reach(state, it, loops)
            else:
                self.step(state, it)

    def go_back(self, state, it):
        low, high = state.memory.get(0x101 + state.s), state.memory.get(0x102 + state.s)
        if not isinstance(low, int) or not isinstance(high, int) or state.s > self.s:
            raise Refusal(it.line, "where this RTS returns to is not known")
        state.s += 2
        state.steps += 1
        state.pc = (low + 256 * high + 1) & 0xFFFF

    @staticmethod
    def fits(state):
        """Returns a proof that the stored values are bytes."""
        fits = "tt"
        for _, term in reversed(state.stores):
            fits = f"({'(omega arith)' if isinstance(term, int) else state.arithmetic()}, {fits})"
        return fits

    @staticmethod
    def small(state, letter):
        """Returns a proof that a register holds a byte."""
        term = state.registers[letter]
        if term == f"{state.origin}.registers.{letter.lower()}":
            return f"{state.whole}.{letter.lower()}"
        return "(omega arith)" if isinstance(term, int) else state.arithmetic()

    def only(self, state, keys):
        """Returns the facts of a state about these bytes and registers, or about those that such facts mention; and the facts about
        others."""
        return self.about(state.facts, keys)

    def about(self, facts, keys):
        keys, before = set(keys), 0
        while len(keys) > before:
            before = len(keys)
            for name in facts:
                if (self.keys.get(name) or set()) & keys:
                    keys |= self.keys[name]
        return [it for it in facts if not self.keys.get(it) or self.keys[it] & keys]

    # Addresses that are not known

    def follow(self, state, address):
        finder = Finder(state, self.tops)
        finder.find([], [(state.memory_is, str(address))])
        for term, says in finder.terms:
            self.fact(state, term, says)
        for term in finder.cases:
            self.fact(state, term)

    def left(self, state):
        """Returns the keys that wait in a state."""
        return self.routine.promise.keys[len(state.taken) :]

    def keep_entered(self, state):
        """Returns a proof that the state's memory keeps what may not change, if it has no stores on top."""
        if state.base == "w":
            return "(leaves_all w.memory _)"
        if state.base.startswith("("):
            return state.keep
        return f"(leaves_stores [] w.memory _ {list_of(state.taken)} {state.base} (entered 0 {state.memory_is}) refl refl {state.keep})"

    def renew(self, state, memory, link, has, keep):
        """Gives the state another memory. The link says how it was made from the one before."""
        state.links[memory], state.all_has[memory] = link, has
        state.base, state.memory_is, state.keep = f"(entered 0 {memory})", memory, keep
        state.memory, state.stores, state.steps, state.top = {}, [], 0, None

    def cut(self, state):
        """Begins again with a new memory after stores: returns what comes before all that follows, and what comes after it."""
        if not state.stores:
            return "", ""
        m, equation, has, keep = (self.fresh(letter) for letter in "meqk")
        begin, here, ranges = self.lines(state), here_of(state), f"{self.routine.name}_ranges"
        stores = list_of(f"({a}, {term})" for a, term in state.stores)
        common = f"{stores} {state.memory_is} {m} {equation}"
        begin += f"afresh code {state.world} {here} {state.steps} _ refl (λ {m} {equation}.\n"
        whole = f"stores_whole {common} {state.has} {self.fits(state)}"
        begin += f"let {has} = {whole} in {self.mark('bytes are stored' + state.at)}"
        begin += f"let {keep} = stores_leave {common} w.memory {ranges} {list_of(state.taken)} refl {self.keep_entered(state)} in "
        begin += self.mark(MAY_CHANGE + state.at)
        link = Cut(state.memory_is, [(a, str(term)) for a, term in state.stores], equation)
        joined, link = self.joined(state, m, link)
        state.world = f"(record {here} {{ memory = {m} }})"
        self.renew(state, m, link, has, keep)
        return begin + joined, ")"

    def joined(self, state, m, link):
        """Returns a line that says how a memory was made from the one before all stores in a row, and the link."""
        first = state.links.get(state.memory_is)
        if not isinstance(first, Cut) or first.equation == "refl":
            return "", link
        equation, stores = self.fresh("e"), first.stores + link.stores
        lists = [list_of(f"({a}, {term})" for a, term in it) for it in (first.stores, link.stores, stores)]
        proof = f"then_stores {lists[0]} {lists[1]} {first.before} {state.memory_is} {m} {first.equation} {link.equation}"
        line = f"let {equation} : {m} ≡ after_stores {lists[2]} {first.before} = {proof} in\n"
        return line, Cut(first.before, stores, equation)

    def number_at(self, state, address):
        """Returns a byte, if it was stored as a number."""
        if address in state.memory:
            return state.memory[address] if isinstance(state.memory[address], int) else None
        link = state.links.get(state.memory_is)
        while isinstance(link, (Cut, Put)):
            if isinstance(link, Put) and not is_apart(self.tops, str(address), link.at):
                return None
            byte = dict(link.stores).get(address) if isinstance(link, Cut) else None
            if byte is not None:
                return int(byte) if byte.isdigit() else None
            link = state.links.get(link.before)
        return None

    def pointed(self, state, zero_page, behind):
        """Returns the address in a pointer, from the numbers that were stored there, or from what lines say."""
        low, high = self.number_at(state, zero_page), self.number_at(state, behind)
        if low is not None and high is not None:
            return low + 256 * high
        clauses = self.routine.promise.wanted + [it for loop in self.routine.loops.values() for it in loop.invariants]
        for e in (part for clause in clauses for part in parts_of(clause.expr)):
            if e[0] == "pair" and e[1] == "Equal" and e[3][0] == "number" and without_old(e[2]) == ("of", "Word", ("number", zero_page)):
                return e[3][1]
        return None

    def place(self, state, it):
        """Returns the address that an instruction computes, and the same without wrapping."""
        if it.mode in ("AbsoluteX", "AbsoluteY", "ZeroPageX", "ZeroPageY"):
            at = f"({it.value} + {state.registers[it.mode[-1]]})"
            return f"({at} % {256 if it.mode.startswith('Zero') else 65536})", at
        low, high = (self.cell(state, a) for a in self.pointer(state, it))
        is_known = isinstance(low, int) and isinstance(high, int)
        word = str(low + 256 * high) if is_known else f"({low} + 256 * {high})"
        where = self.pointed(state, *self.pointer(state, it))
        if it.mode == "IndexedIndirect":
            return word, word if where is None else str(where)
        y = state.registers["Y"]
        return f"(({word} + {y}) % 65536)", str(add(where, y)) if where is not None else f"({word} + {y})"

    def range_of(self, it, at):
        """Returns the range of addresses that contains a store, as `changes` has it."""
        low, high = span(self.tops, at)
        ranges = [(max(low, first), min(high, last)) for first, last in self.changed if first <= high and low <= last]
        if not ranges:
            raise Refusal(it.line, f"{it.mnemonic} stores at ${low:04X} or above, but `changes` lists no byte from there on")
        found = next((it for it in ranges if it[0] == low), max(ranges, key=lambda it: it[1] - it[0]))
        if self.program_has_code(*found):
            raise Refusal(it.line, f"{it.mnemonic} with an index may overwrite code")
        return found

    def program_has_code(self, low, high):
        return any(it.is_instruction and it.address <= high and low < it.address + it.length for it in self.program.statements)

    def reach(self, state, it, loops):
        """Handles an instruction whose address is not known, by a rule for all of its kind."""
        begin, end = self.cut(state)
        computed, at = self.place(state, it)
        here, row = here_of(state), row_of(it)
        stands = "(record { found = refl; no_return = refl; no_service = refl })"
        common = f"code {here} {row} {it.value} {par(computed)} {par(at)} {stands} refl refl refl"
        came = state.steps
        if it.mnemonic in STORES + CHANGES:
            text = self.store_reached(state, it, at, here, row, common)
        else:
            text = self.load_reached(state, it, at, here, row, common)
        closing = ")" * (bool(came) + (it.mnemonic in STORES + CHANGES))
        return f"{begin}{text}({self.tree(state, loops)}){closing}{end}"

    def no_wrap(self, state, it):
        return self.mark(f"line {it.line}: {it.mnemonic} may wrap in page 0 or reach $C000 or above" + state.at)

    def load_reached(self, state, it, at, here, row, common):
        begin, low = self.lines(state), state.arithmetic()
        to = f"(taking {row} {it.value} {par(at)} {here})"
        begin += f"{coming_to(state)}onto code {here} {to} 1 _\n(take {common} {low} {low}) {self.no_wrap(state, it)}"
        self.reached = f"(ram_byte {state.memory_is} {par(at)})"
        state.reads.append((state.memory_is, bare(at)))
        self.fact(state, f"{state.has}.bytes {par(at)}")
        self.act(state, it)
        state.world, state.steps, state.top = to, 0, None
        return begin

    def store_reached(self, state, it, at, here, row, common):
        low, high = self.range_of(it, at)
        range_facts = []
        begin = self.lines(state)
        below, above = f"below its start at ${low:04X}", f"above its end at ${high:04X}"
        for says, beside in ((f"{low} ≤ {at}", below), (f"{at} ≤ {high}", above)):
            name = self.fresh("r")
            begin += f"let {name} : {says} = {state.arithmetic()} in "
            begin += self.mark(f"line {it.line}: {it.mnemonic} may store outside a range of `changes`, {beside}" + state.at)
            range_facts.append(name)
        state.facts += range_facts
        first, last = range_facts
        m, equation, has, keep = (self.fresh(letter) for letter in "meqk")
        before, held, kept = state.memory_is, state.has, self.keep_entered(state)
        self.reached = f"(ram_byte {before} {par(at)})"
        if it.mnemonic in CHANGES:
            state.reads.append((before, bare(at)))
            self.fact(state, f"{held}.bytes {par(at)}")
        come = coming_to(state)
        self.act(state, it)
        byte, by = par(self.put), state.arithmetic()
        rule, behind = ("change", "changing") if it.mnemonic in CHANGES else ("put", "putting")
        to = f"({behind} {row} {it.value} {par(at)} {here})"
        begin += f"{self.lines(state)}{come}afresh code {here} {to} 1 _\n"
        begin += f"({rule} {common} {by} {by} (not_among code.protected {low} {high} {par(at)} refl {first} {last})) {self.no_wrap(state, it)}"
        link = f"{before} {m} {par(at)} {byte} {equation}"
        inside = f"(in_ranges {self.routine.name}_ranges {low} {high} {par(at)} refl {first} {last})"
        begin += f"(λ {m} {equation}.\nlet {has} = put_whole {link} {held} {by} in {self.mark('bytes are stored' + state.at)}"
        begin += f"let {keep} = put_leaves {link} w.memory {self.routine.name}_ranges {list_of(state.taken)} {inside} {kept} in "
        begin += self.mark(MAY_CHANGE + state.at)
        self.put = None
        state.world = f"(record {to} {{ memory = {m} }})"
        self.renew(state, m, Put(before, at, byte, equation), has, keep)
        return begin

    def act(self, state, it):
        """Does what an instruction does, with the byte that it reads."""
        state.pc = it.address + it.length
        getattr(self, "do_" + it.mnemonic.lower())(state, it)
        self.reached = None

    def fork(self, state, it, loops):
        """Handles both paths of a branch."""
        if state.depth >= MOST_BRANCHES:
            raise Refusal(it.line, TOO_MANY)
        letter, is_set = BRANCHES[it.mnemonic]
        flag = state.flags[letter]
        if flag[0] == "opaque":
            raise Refusal(it.line, f"the value of {letter} here cannot be proved")
        self.flag_number(state, letter)
        begin = self.lines(state)
        ways = [self.way(state, it, letter, flag, value, is_set, loops) for value in (True, False)]
        return f"{begin}fork code {letter} {state.world} _ {state.steps} _ refl\n{ways[0]}\n{ways[1]}"

    def way(self, state, it, letter, flag, value, is_set, loops):
        one, h = state.copy(), self.fresh("h")
        one.depth += 1
        one.path.append(f"{it.mnemonic} in line {it.line} " + ("branches" if value == is_set else "does not branch"))
        if flag[0] in ("unknown", "overflow"):
            one.lines.append((h + "f : one_if " + par(flag[1]) + f" ≡ {int(value)}", f"ap (λ b. one_if b) {h}"))
            one.facts.append(h + "f")
            one.turned = (h + "f", f"one_if {par(flag[1])} ≡ {int(not value)}")
        else:
            test, m, n = self.test(flag)
            one.lines.append((h + "f", f"{test}_{'yes' if value else 'no'} {par(m)} {par(n)} {h}"))
            one.facts.append(h + "f")
            one.turned = (h + "f", OPPOSITE[test, value].format(m, n))
            if flag[0] == "eq" and flag[2] == 0 and value:
                one.zeros[bare(flag[1])] = h + "f"
        one.flags[letter] = ("known", value)
        one.world = f"(with_flag {letter} {'true' if value else 'false'} (stepped code {state.world} {state.steps}))"
        one.top, one.steps = None, 1
        one.pc = it.value if value == is_set else it.address + it.length
        return f"(λ {h}.\n{self.tree(one, loops)})"

    def never(self, state, why):
        """Handles a path on which the routine cannot keep its promise: it cannot occur, because what is known there contradicts itself."""
        last, opposite = state.turned or (None, None)
        if last not in state.facts:
            raise why
        others, name = [it for it in state.facts if it != last], self.fresh("n")
        proof = f"let {name} : {opposite} = omega ({', '.join(['arith', *others])}) in {self.mark(str(why) + state.at)}"
        return f"{self.lines(state)}{proof}(absurd (omega (arith, {name}, {last})))"

    # Ends of paths

    def wrap(self, loops, turn, term):
        """Returns what holds at the end of a path: it goes back to the top of the loop with this number from within, or on to the
        return."""
        count = len(loops) if turn is None else turn
        term = term if turn is None else f"(inl {term})"
        for _ in range(count):
            term = f"(inr {term})"
        return term

    def stored(self, state):
        return list_of(f"({address}, _)" for address, _ in state.stores)

    def keeps(self, state, to="_"):
        if state.base == "w":
            return f"leaves {self.stored(state)} w.memory _ {to} refl refl"
        return f"leaves_stores {self.stored(state)} w.memory _ {list_of(state.taken)} {par(state.base)} {to} refl refl {state.keep}"

    def only_bytes(self, state):
        registers = "".join(f"{it.lower()} = {self.small(state, it)};\n" for it in "AXY")
        ram = f"whole_after {self.stored(state)} {state.memory_is} _ {state.has} {self.fits(state)} refl"
        return f"record {{\n{registers}ram = {ram};\n}}"

    def leaf(self, state, it, loops):
        """Handles the return."""
        if self.left(state):
            return self.never(state, Refusal(it.line, f"it does not take all typed keys; these are left: {spelt(self.left(state))}"))
        before, behind = self.settled(state, self.routine.promise.promised)
        for loop, old in loops:
            state.loop = old
            self.prepare(state, loop.invariants)
        self.prepare(state, self.routine.promise.promised)
        body = ""
        for k, clause in enumerate(self.routine.promise.promised, 1):
            body += f"e{k} = {self.goal(state, clause, f'line {clause.line}: ensures {clause.text}')}"
        body += self.kept_registers(state) + self.kept_rest(state)
        body += f"bytes = {self.only_bytes(state)}; {self.mark('bytes stay bytes' + state.at)}"
        home = "refl"
        if state.base != "w":
            low, high = (f"({state.keep}.bytes {0x100 + k + self.s} refl)" for k in (1, 2))
            home = f"ap₂ (λ l h. (l + 256 * h + 1) % 65536) {low} {high}"
        to = f"to = home {self.s} {par(state.base)}; home = {home}"
        back = f"record {{ step = refl; {to}; registers = refl; memory = refl; decimal = refl }}"
        self.ways += 1
        end = self.wrap(loops, None, f"(_, {back}, record {{\n{body}}})")
        begin = before + self.lines(state)
        return begin + f"({state.steps}, (_, refl, {end})) {self.mark(f'line {it.line}: the return' + state.at)}{behind}"

    def settled(self, state, clauses):
        """Begins again with a new memory if clauses are about bytes at addresses that are not numbers."""
        if any(is_of_arrays(clause.expr, state) for clause in clauses):
            return self.cut(state)
        return "", ""

    def kept_registers(self, state):
        body = ""
        for register in "AXY":
            if register in self.routine.promise.changes.registers:
                continue
            proof = f"omega ({state.facts_listed})"
            if state.registers[register] == f"w.registers.{register.lower()}":
                proof = "refl"
            elif state.registers[register] == f"{state.origin}.registers.{register.lower()}":
                proof = f"omega ({', '.join(['arith', *self.only(state, {register})])})"
            mark = self.mark(f"{register} may change but is not listed in `changes`" + state.at)
            body += f"keep_{register.lower()} = {proof}; {mark}"
        return body

    def kept_rest(self, state):
        return f"rest = {self.keeps(state)}; " + self.mark(MAY_CHANGE + state.at)

    # Loops

    def invariant(self, state, loop, arrival):
        self.prepare(state, loop.invariants)
        body = ""
        for k, clause in enumerate(loop.invariants, 1):
            body += f"e{k} = {self.goal(state, clause, f'line {clause.line}: invariant {clause.text}, {arrival}')}"
        body += self.kept_registers(state) + self.kept_rest(state)
        return f"record {{\n{body}bytes = {self.only_bytes(state)};\n}}"

    def loop(self, state, loops):
        loop = self.routine.loops[state.pc]
        for turn, (outer, old) in enumerate(reversed(loops)):
            if outer is loop:
                loop.come(state.taken, True)
                return self.turn(state, loop, loops, turn, old)
        loop.come(state.taken, False)
        return self.enter_loop(state, loop, loops)

    def turn(self, state, loop, loops, turn, old):
        """Handles a path that is back at the top of a loop."""
        before, behind = self.settled(state, loop.invariants)
        state.loop = old
        invariant = self.invariant(state, loop, "when the loop returns to its label")
        says = f"the path back to {loop.within.label} needs a decreases line"
        if loop.measure:
            says = f"line {loop.measure.line}: decreases {loop.measure.text}"
        less = f"less = omega ({state.facts_listed}); {self.mark(says + state.at)}"
        again = f"(record {{ pc_is = refl; s_is = refl; d_is = refl;\n{less}invariant = {invariant} }})"
        self.ways += 1
        return before + self.lines(state) + f"({state.steps}, (_, refl, {self.wrap(loops, turn, again)})){behind}"

    def enter_loop(self, state, loop, loops):
        before, behind = self.settled(state, loop.invariants)
        invariant = self.invariant(state, loop, "when the loop is entered")
        begin = self.lines(state)
        here = here_of(state)
        v, inv = self.fresh("v"), self.fresh("i")
        top = self.state_known_by(state, v, f"(enter {state.pc} {state.s} {v})", state.pc, inv, loop)
        top.top, top.depth = state.pc, 0
        worlds = "".join(f" {state.labels[label]}" for label in loop.labels)
        old = top.copy()
        old.lines = []
        body = self.tree(top, loops + [(loop, old)])
        return (
            f"{before}{begin}onto code {state.world} {here} {state.steps} _ refl "
            f"(loops code {old.pc} {state.s} ({loop.name}_Inv w{worlds}) ({loop.name}_measure{worlds}) _ "
            f"(λ {v} {inv}.\n{body})\n{here}\n({invariant})){behind}"
        )

    def state_known_by(self, state, base, world, pc, fact, loop):
        """Returns a state in which the facts at the entry and these clauses are known, from the fields of a record."""
        made = State(base, world, pc, state.s)
        made.path, made.ground, made.keep, made.whole = list(state.path), state.ground, f"{fact}.rest", f"{fact}.bytes"
        made.taken = list(state.taken)
        known = state if loop.labels else state.ground
        made.facts, made.known, made.reads, made.universals = (list(it) for it in (known.facts, known.known, known.reads, known.universals))
        made.all_has = {**state.all_has, made.memory_is: f"{fact}.bytes.ram"}
        made.links = {**state.links, made.memory_is: Kept("w.memory", f"w.memory {self.routine.name}_ranges", base, made.keep, self.changed)}
        made.labels = {**state.labels, loop.within.label: base}
        for register in "axy":
            self.fact(made, f"{fact}.bytes.{register}")
        for k, clause in enumerate(loop.invariants, 1):
            self.learn(made, clause.expr, f"{fact}.e{k}", Words(base, "w", labels=made.labels))
        for register in "AXY":
            if register not in self.routine.promise.changes.registers:
                self.fact(made, f"{fact}.keep_{register.lower()}")
        for address in sorted(self.named):
            self.fact(made, f"{fact}.bytes.ram.bytes {address}")
            if not is_in(self.changed, address):
                self.fact(made, f"{fact}.rest.bytes {address} refl")
        return made

    # Calls

    def call(self, state, it, other, loops):
        self.step(state, it)
        s = state.s
        self.may_call(it, other.promise)
        rule, meets, home, cut, end = "call", f"{other.name}_{s}_meets", "refl", "", ""
        if isinstance(other, Routine):
            self.calls.add((it.value, s))
        else:
            cut, end = self.cut(state)
            rule, meets, home = "call_service", other.proof(s), self.home(state, s)
        here = here_of(state)
        self.prepare(state, other.promise.wanted)
        there, body = self.with_memory(state, f"{here}.memory"), ""
        for k, clause in enumerate(other.promise.wanted, 1):
            says = f"line {it.line}: the call of {other.name} needs {clause.text}"
            body += f"r{k} = {self.wanted(there, clause, other, says)}"
        body += self.waiting(state, it, other, here)
        bytes_ = self.only_bytes(state)
        begin, mark = self.lines(state) + self.lines(there), self.mark(f"line {it.line}: the call of {other.name}" + state.at)
        u, after, kept = self.fresh("u"), self.fresh("a"), self.fresh("k")
        changed = other.changed(s)
        self.touched |= {a for first, last in changed for a in range(max(first, 0x100), min(last, 0x1FF) + 1)}
        before = self.keeps(state, f"(entered 0 {here}.memory)")
        inner = list_of(f"({first}, {last})" for first, last in changed)
        name, taken = self.routine.name, f"{list_of(state.taken)} {list_of(other.promise.keys)}"
        keep = f"leaves_further w.memory {here}.memory {name}_ranges {inner} {taken} {u} {after}.rest refl ({before})"
        last = self.state_behind(there, other, it, u, after, changed)
        last.keep = kept
        last.lines.insert(0, (kept, f"leaves_as w.memory {name}_changed {list_of(last.taken)} {u} ({keep})"))
        written = "" if isinstance(other, Routine) else self.as_numbers(state, last, other)
        rule = "call_as" if written else rule
        rest = self.tree(last, loops)
        return (
            f"{cut}{begin}onto code {state.world} {here} {state.steps} _ refl "
            f"({rule} code {it.value} {s} {it.address + 3} _ _ _ {meets} {here}\n({bytes_})\n"
            f"(record {{ {body or 'none = tt;'} }}) {mark}{home} {written}(λ {u} {after}.\n{rest})){end}"
        )

    def waiting(self, state, it, other, here):
        """Returns the proof that the keys wait which a call takes."""
        keys, left = other.promise.keys, self.left(state)
        if not keys:
            return ""
        if left[: len(keys)] != keys:
            raise Refusal(it.line, f"{other.name} takes {spelt(keys)}, but {spelt(left) if left else 'no key'} waits here" + state.at)
        lists = " ".join(list_of(them) for them in (state.taken, keys, left[len(keys) :]))
        before = self.keeps(state, f"(entered 0 {here}.memory)")
        return f"waits = still {lists} w.memory _ (entered 0 {here}.memory) before.waits ({before}); "

    def take_key(self, state, it, loops):
        """Handles a call of a service that takes keys."""
        try:
            service = taker_of(it.value, self.left(state), self.routine.promise.keys, it.line)
        except Unproved:
            raise
        except Refusal as why:
            return self.never(state, why)
        return self.call(state, it, service, loops)

    def with_memory(self, state, memory):
        """Returns a state whose memory, with its stores, is the one that this term names."""
        if not state.stores:
            return state
        made, has = state.copy(), self.fresh("q")
        stores = [(a, str(term)) for a, term in state.stores]
        of = list_of(f"({a}, {term})" for a, term in stores)
        whole = f"stores_whole {of} {state.memory_is} ({memory}) refl {state.has} {self.fits(state)}"
        made.lines = [(f"{has} : Whole ({memory})", whole)]
        made.memory_is = f"({memory})"
        made.links[made.memory_is], made.all_has[made.memory_is] = Cut(state.memory_is, stores, "refl"), has
        return made

    def home(self, state, s):
        """Returns the proof that a JSR has left its return address on the stack. After it, a new memory begins."""
        link = state.links[state.memory_is]
        stores = list_of(f"({a}, {term})" for a, term in link.stores)
        read = f"stores_read {stores} {link.before} {state.memory_is} {link.equation} {state.all_has[link.before]}"
        return f"(ap₂ (λ l h. (l + 256 * h + 1) % 65536) ({read} {0x101 + s}) ({read} {0x102 + s}))"

    def wanted(self, state, clause, other, says):
        """Returns the proof of what a call requires."""
        if isinstance(other, Routine):
            return self.goal(state, clause, says)
        StateWords(self, state).says(clause.expr)
        facts, state.facts = state.facts, self.only(state, cells_in(clause.expr))
        text = self.goal(state, clause, says)
        state.facts = facts
        return text

    def may_call(self, it, other):
        """Refuses a call that may change something that `changes` does not list."""
        for first, last in other.changes.ranges:
            if not any(low <= first and last <= high for low, high in self.changed):
                where = f"${first:02X}" + (f"..${last:02X}" if last > first else "")
                raise Refusal(it.line, f"{other.name} may change {where}, which is not listed in `changes`")

    def state_behind(self, state, other, it, u, after, changed):
        """Returns the state after a call: what the other routine promises, for the state before it."""
        made = State(u, f"(enter {it.address + 3} {state.s + 2} {u})", it.address + 3, state.s + 2)
        made.path, made.depth, made.ground, made.loop = list(state.path), state.depth, state.ground, state.loop
        made.turned = state.turned
        made.whole = f"{after}.bytes"
        for name in ("facts", "known", "reads", "universals", "links", "all_has", "labels"):
            setattr(made, name, copy.copy(getattr(state, name)))
        made.all_has[made.memory_is] = f"{after}.bytes.ram"
        names = f"{state.memory_is} {list_of(f'({first}, {last})' for first, last in changed)}"
        made.links[made.memory_is] = Kept(state.memory_is, names, u, f"{after}.rest", changed)
        for register in "axy":
            self.fact(made, f"{after}.bytes.{register}")
        for k, clause in enumerate(other.promise.promised, 1):
            self.learn(made, clause.expr, f"{after}.e{k}", BehindWords(u, StateWords(self, state)))
        for register in "AXY":
            if register not in other.promise.changes.registers:
                self.fact(made, f"{after}.keep_{register.lower()}")
        for address in sorted(self.named):
            self.fact(made, f"{after}.bytes.ram.bytes {address}")
            if not is_in(changed, address):
                self.fact(made, f"{after}.rest.bytes {address} refl")
        made.taken = state.taken + other.promise.keys
        return made

    @staticmethod
    def as_numbers(state, made, other):
        """Makes registers and bytes numbers after a service, if they are known. Returns what its rule needs for a world that is written
        so, or nothing if none is known."""
        known = {it: (state.registers[it], f"keep_{it.lower()}") for it in "AXY" if it not in other.promise.changes.registers}
        known = {letter: it for letter, it in {**known, **other.known}.items() if isinstance(it[0], int)}
        if not known and not other.stores:
            return ""
        numbers = {letter: number for letter, (number, _) in known.items()}
        stores = list_of(f"({a}, {byte})" for a, byte in other.stores)

        def written(world):
            return world_with(world, numbers, other.stores and f"after_stores {stores} {world}.memory")

        made.world = f"(enter {made.pc} {made.s} ({written(made.base)}))"
        made.registers.update(numbers)
        made.memory, made.stores = dict(other.stores), list(other.stores)
        proof = world_with("u", {letter: f"sym h.{fact} i" for letter, (_, fact) in known.items()}, other.stores and "h.stands i")
        return f"(λ u. {written('u')}) (λ u h. λ i. {proof}) "

    # Goals

    def goal(self, state, clause, says):
        """Returns the proof of a clause, up to the end of its line."""
        self.saying = says + state.at
        return f"{self.proved(state, clause.expr, True)}; {self.mark(says + state.at)}"

    def proved(self, state, e, holds):
        """Returns a proof that a fact holds in a state, or that it does not."""
        words = StateWords(self, state)
        if e[0] == "pair" and not (is_fact(e[2]) or is_fact(e[3])):
            simple = self.compared(state, e, holds)
            if simple:
                return simple
        for letter in letters_in(e):
            self.flag_number(state, letter)
        bytes_in(e, words)
        if e[0] == "each":
            return self.each_proved(state, e, holds, list(state.facts), words)
        return self.by_cases(state, e, holds, list(state.facts), words, {})

    def by_cases(self, state, e, holds, facts, words, decided):
        """Returns a proof of a fact about bytes at addresses that are not numbers: each was stored last, or is an older one."""
        lets, more, cases = self.found(state, bytes_in(e, words), facts, decided)
        if not cases or len(decided) >= MOST_DECIDED:
            return lets + self.proved_by(state, e, holds, more, words)
        memory, address, fact = cases
        h, ways = self.fresh("h"), ""
        for was_stored in (True, False):
            way = self.by_cases(state, e, holds, [*facts, h], words, {**decided, (memory, address): was_stored})
            ways += f"(λ {h}.\n{way} {self.mark(self.saying)})\n"
        return f"(one_of_two ({fact})\n{ways})"

    def found(self, state, reads, facts, decided=None):
        """Returns the named facts that a goal about bytes at addresses that are not numbers needs; their names with the others; and a byte
        for which it is not decided whether it was stored last, with the fact that has both cases."""
        if not reads and not state.reads:
            return "", facts, None
        there = state.copy()
        there.facts = facts
        finder = Finder(there, self.tops, self.named, decided)
        finder.find(reads, state.reads)
        text, names, known = "", list(facts), {it for _, it in state.known}
        for term, says in finder.terms + [(term, "") for term in finder.cases[:MOST_CASES]]:
            if term + says in known:
                continue
            names.append(self.fresh("g"))
            end = self.mark("an address differs from the expected one" + state.at) if "omega" in term else "\n"
            text += f"let {names[-1]}{' : ' + says if says else ''} = {term} in {end}"
        return text, names, finder.open

    def compared(self, state, e, holds):
        """Returns the proof of a comparison that follows from what it compares alone."""
        x, y = StateWords(self, state).sides(e[2], e[3])
        if holds and e[1] == "Equal" and without_marks(x) == without_marks(y):
            return "refl"
        return self.by_all_bytes(state, x, y) if holds and e[1] == "Equal" and not state.path else None

    def each_proved(self, state, e, holds, facts, words):
        """Returns a proof of what holds for each number below another."""
        if not holds:
            raise Refusal(0, "it cannot be proved that a `for all` is false")
        if is_unrolled(e, state):
            return self.unrolled(state, e, facts, words)
        i, h = self.fresh("i"), self.fresh("h")
        top = most(e[2], [self.tops.get(it, 65535) for it in words.names])
        self.tops[i] = max(min(top, span(self.tops, words.up(e[2]))[1]) - 1, 0)
        there = words.counting(e, i)
        return f"(λ {i} {h}.\n{self.by_cases(state, e[3], True, [*facts, h], there, {})})"

    def unrolled(self, state, e, facts, words):
        """Returns one proof for each number."""
        text, known = "(none_below _)", len(state.facts)
        for k in range(e[2][1]):
            words.counting(e, k).says(e[3])
        facts = facts + state.facts[known:]
        for k in range(e[2][1]):
            there = words.counting(e, k)
            lets, more, _ = self.found(state, bytes_in(e[3], there), facts)
            text = f"(one_more_below _ {k}\n({lets}{self.proved_by(state, e[3], True, more, there)}) {text})"
        return text

    def by_all_bytes(self, state, x, y):
        """Tries an equation about bits of one byte for all 256 values."""
        unknown = unknown_in(x + " " + y)
        if "by_digits" not in x + y or len(unknown) != 1:
            return None
        one = unknown.pop()
        test = f"(λ n. {x.replace(one, 'n')} == {y.replace(one, 'n')})"
        return f"eq_yes _ _ (each_byte {test} refl {par(one)} {state.arithmetic()})"

    def proved_by(self, state, e, holds, facts, words):
        kind = e[0]
        by = f"(omega ({', '.join(['arith', *facts])}))"
        if kind == "number":
            return "tt" if bool(e[1]) == holds else f"(absurd {by})"
        if kind == "held":
            return self.flag_proved(state, FLAGS[e[1]], holds, facts)
        if kind == "old":
            return self.old_proved(e[1], holds, facts, words.at_entry())
        if kind == "at":
            return self.there_proved(state, e, holds, facts, words)
        if kind == "each":
            return self.each_proved(state, e, holds, facts, words)
        if kind == "pair" and (is_fact(e[2]) or is_fact(e[3])):
            first = self.supposed(state, e[2], True, e[3], holds, facts, words)
            return f"({first}, {self.supposed(state, e[2], False, e[3], not holds, facts, words)})"
        if kind == "pair":
            keys = keys_of(e)
            few = facts if keys is None or len(facts) <= MANY_FACTS else self.about(facts, keys)
            return f"(omega ({', '.join(['arith', *few])}))"
        return self.choice_proved(state, e, holds, facts, words)

    def choice_proved(self, state, e, holds, facts, words):
        _, by, one, other = e
        kind = shape(e)
        if kind in ("and", "or") and (kind == "and") == holds:
            second = one if kind == "and" else other
            return f"({self.proved_by(state, by, holds, facts, words)}, {self.proved_by(state, second, holds, facts, words)})"
        if kind in ("and", "or") and any(it[0] == "each" for it in parts_of(e)):
            raise Refusal(0, "a `for all` joined by `or` cannot be proved")
        if kind in ("and", "or"):
            return f"(grind ({', '.join(['arith', 'nat_tests', *facts])}))"
        if kind == "not":
            return self.proved_by(state, by, not holds, facts, words)
        if kind == "if":
            if holds:
                return self.supposed(state, by, True, one, True, facts, words)
            return f"({self.proved_by(state, by, True, facts, words)}, {self.proved_by(state, one, False, facts, words)})"
        first = self.supposed(state, by, True, one, holds, facts, words)
        return f"({first}, {self.supposed(state, by, False, other, holds, facts, words)})"

    def supposed(self, state, by, by_holds, e, holds, facts, words):
        """Returns a proof of a fact if another holds, or if it does not."""
        h = self.fresh("p")
        if by[0] == "held" and state.flags[FLAGS[by[1]]][0] == "known":
            value = state.flags[FLAGS[by[1]]][1]
            if value != by_holds:
                return f"(λ {h}. absurd (true≢false {h if value else f'(sym {h})'}))"
        learnt, names = "", []
        for term, _ in known_by(by, h, by_holds, lambda letter: state.flags[letter]):
            name = self.fresh("p")
            learnt += f"let {name} = {term} in "
            names.append(name)
        return f"(λ {h}. {learnt}{self.proved_by(state, e, holds, facts + names, words)})"

    def flag_proved(self, state, letter, holds, facts):
        flag = state.flags[letter]
        by = f"(omega ({', '.join(['arith', *facts])}))"
        if flag[0] == "known":
            return "refl" if flag[1] == holds else f"(absurd {by})"
        if flag[0] in ("unknown", "overflow"):
            return f"(flag_{'yes' if holds else 'no'} {par(flag[1])} {by})"
        if flag[0] == "opaque":
            raise Refusal(0, f"the value of {letter} cannot be proved")
        test, m, n = self.test(flag)
        return f"({'yes' if holds else 'no'}_{test} {par(m)} {par(n)} {by})"

    def there_proved(self, state, e, holds, facts, words):
        """Returns a proof of what held at a label."""
        if e[2][0] == "held":
            by = f"(omega ({', '.join(['arith', *facts])}))"
            return f"(flag_{'yes' if holds else 'no'} {words.at_label(e[1]).flag(e[2][1])} {by})"
        return self.proved_by(State(words.labels[e[1]], "w", 0, 0), e[2], holds, facts, words.at_label(e[1]))

    def old_proved(self, e, holds, facts, words):
        if e[0] == "held":
            by = f"(omega ({', '.join(['arith', *facts])}))"
            return f"(flag_{'yes' if holds else 'no'} w.registers.flags.{FLAGS[e[1]].lower()} {by})"
        return self.proved_by(State("w", "w", 0, 0), e, holds, facts, words)

    # Products

    def prepare(self, state, clauses):
        """Adds facts about the products in clauses."""
        for clause in clauses:
            for letter in letters_in(clause.expr):
                self.flag_number(state, letter)
            self.signs(state, clause.expr, StateWords(self, state))
            for x, y in products_in(clause.expr):
                self.product(state, x, y)
                if state.loop:
                    self.product_moves(state, x, y)
                    self.product_moves(state, y, x)

    def term(self, state, e):
        return None if is_minus(e) else StateWords(self, state).plain(e)

    def product(self, state, a, b):
        s, t = self.term(state, a), self.term(state, b)
        if s is None or t is None:
            return
        self.fact(state, f"mul_swap {par(s)} {par(t)}")
        for x, y, e in ((s, t, b), (t, s, a)):
            self.fact(state, f"product_ge {par(x)} {par(y)}")
            address = cell_of(e)
            if address is not None and state.base != "w" and address not in state.memory and not is_in(self.changed, address):
                self.fact(state, f"ap (λ n. {par(x)} * n) ({state.keep}.bytes {address} refl)")
            if bare(x) in state.zeros:
                self.fact(state, f"product_zero {par(x)} {par(y)} {state.zeros[bare(x)]}")
            if x == "0":
                self.fact(state, f"product_zero 0 {par(y)} refl")
        if is_byte(a) and is_byte(b):
            self.fact(state, f"fits_word {par(s)} {par(t)} {state.arithmetic()} {state.arithmetic()}")

    def product_moves(self, state, a, b):
        """Handles a factor that is one less, or one more, than at the top of the loop."""
        now, before = self.term(state, a), self.term(state.loop, a)
        if now is None or now == before:
            return
        others = dict.fromkeys(it for it in (self.term(state, b), self.term(state.loop, b)) if it)
        for other in others:
            if now == modulo(add(before, 255)):
                self.fact(state, f"product_down {par(before)} {par(other)} {state.arithmetic()} {state.arithmetic()}")
            elif now == modulo(add(before, 1)):
                self.fact(state, f"product_ge {par(before)} {par(other)}")
                self.fact(state, f"product_up {par(before)} {par(other)} {state.arithmetic()}")


class BehindWords(Words):
    """Makes terms of an expression after a call, whose entry is a state."""

    def __init__(self, new, before):
        super().__init__(new, before.new)
        self.before = before

    def at_entry(self):
        made = copy.copy(self.before)
        made.names, made.noted = self.names, self.noted
        return made


def wanted_by(term):
    """Returns what a fact needs that the arithmetic must find."""
    rule, _, rest = term.partition(" ")
    factor = in_words(rest.split(" (")[0].strip("()"))
    wants = {"product_down": f"{factor} is not 0", "product_up": f"{factor} is below 255"}.get(rule)
    return f"nothing says that {wants}, which is needed here" if wants else "bytes must be below 256"


def world_with(world, registers, memory):
    """Returns a world with these registers, and with this memory if there is one."""
    fields = "".join(f"{letter.lower()} = {term}; " for letter, term in sorted(registers.items()))
    memory = f" memory = {memory};" if memory else ""
    return f"record {world} {{ registers = record {world}.registers {{ {fields}}};{memory} }}"


def here_of(state):
    """Returns the world of a state, as a term."""
    return f"(stepped code {state.world} {state.steps})" if state.steps else state.world


def coming_to(state):
    """Returns what precedes a rule that begins at a state."""
    return f"onto code {state.world} {here_of(state)} {state.steps} _ refl (" if state.steps else ""


def is_cell(address):
    """Returns whether an address is on a text page. What is stored there is read back by a rule, not by computing."""
    return 0x400 <= address < 0xC00


def merged(ranges):
    """Returns the same addresses as ranges, such that no two of them touch."""
    made = []
    for first, last in sorted(ranges):
        if made and first <= made[-1][1] + 1:
            made[-1] = (made[-1][0], max(made[-1][1], last))
        else:
            made.append((first, last))
    return made


def is_in(ranges, address):
    return any(first <= address <= last for first, last in ranges)


# What does not hold if a test of two numbers has this result.
OPPOSITE = {("eq", True): "{} ≢ {}", ("eq", False): "{} ≡ {}", ("le", True): "{1} < {0}", ("le", False): "{} ≤ {}"}
# The cycles of modes whose address may be unknown.
CYCLES = {"ZeroPageX": 4, "ZeroPageY": 4, "AbsoluteX": 4, "AbsoluteY": 4, "IndexedIndirect": 6, "IndirectIndexed": 5}
PAGED = ("AbsoluteX", "AbsoluteY", "IndirectIndexed")
CHANGING = ("ASL", "ROL", "LSR", "ROR", "DEC", "INC")


def row_of(it):
    """Returns the row of an instruction in the table of opcodes."""
    is_paged, is_changing = it.mode in PAGED, it.mnemonic in CHANGING
    word = "page_crossing_row" if is_paged and not is_changing and it.mnemonic != "STA" else "fixed"
    more = 2 + is_paged if is_changing else is_paged and it.mnemonic == "STA"
    return f"({word} {it.mnemonic.capitalize()} {it.mode} {it.bytes[0]} {CYCLES[it.mode] + more})"


def parts_of(e):
    """Returns an expression and all of its parts."""
    yield e
    for part in e[1:]:
        if isinstance(part, tuple):
            yield from parts_of(part)


def without_old(e):
    return e[-1] if e[0] in ("old", "at") else e


def is_unrolled(e, state):
    """Returns whether each number is tried, because there are few and no byte was stored at an unknown address."""
    is_few = e[2][0] == "number" and e[2][1] <= MOST_UNROLLED
    return is_few and all(isinstance(link, Cut) for link in state.links.values()) and not state.universals


def is_of_arrays(e, state):
    """Returns whether a fact is about bytes at addresses that are not numbers, if small counts are tried number by number."""
    if e[0] == "each" and not is_unrolled(e, state):
        return any(it[0] in ("of", "each") for it in parts_of(e[3]))
    if e[0] == "of" and e[1] in ("Byte", "Word") and any(it[0] in ("held", "of") for it in parts_of(e[2])):
        return True
    return any(is_of_arrays(it, state) for it in e[1:] if isinstance(it, tuple))


def bytes_in(e, words):
    """Returns the bytes at addresses that are not numbers in a fact, except within counted expressions."""
    if e[0] == "each":
        return bytes_in(e[2], words)
    if e[0] == "old":
        return bytes_in(e[1], words.at_entry())
    if e[0] == "at":
        return bytes_in(e[2], words.at_label(e[1]))
    found = []
    if e[0] in ("of", "sum"):
        there = copy.copy(words)
        there.noted = []
        there.plain(e) if e[1] != "Signed" else there.plain(e[2])
        found = there.noted
    elif e[0] != "bound":
        found = [it for part in e[1:] if isinstance(part, tuple) for it in bytes_in(part, words)]
    return list(dict.fromkeys(found))


def universals_in(e, fact):
    """Returns what a fact says about each number below another."""
    if e[0] == "each":
        yield fact, e
    elif e[0] == "choice" and shape(e) == "and":
        yield from universals_in(e[1], f"({fact}).0")
        yield from universals_in(e[2], f"({fact}).1")


def tops_in(e, words):
    """Returns upper bounds of registers and bytes, from comparisons with numbers."""
    if e[0] == "choice" and shape(e) == "and":
        return tops_in(e[1], words) | tops_in(e[2], words)
    if e[0] != "pair" or e[1] not in ("Less", "AtMost", "Equal") or e[3][0] != "number" or constant(e) is not None:
        return {}
    held = without_old(e[2])
    if held[0] == "held" or held[0] == "of" and held[1] == "Byte" and held[2][0] == "number":
        return {bare(words.plain(e[2])): max(e[3][1] - (e[1] == "Less"), 0)}
    return {}


def without_marks(text):
    """Returns a term without blanks and parentheses."""
    return re.sub(r"[\s()]", "", text)


def known_by(e, fact, holds, flag_of):
    """Returns terms by which the arithmetic knows that a fact holds, or that it does not, with what they say; for a flag, what it is in a
    state."""
    if e[0] == "held":
        flag = flag_of(FLAGS[e[1]])
        if flag is None or flag[0] in ("unknown", "overflow"):
            return [(f"ap (λ b. one_if b) {fact}", e)]
        if flag[0] in ("known", "opaque"):
            return []
        test, m, n = Run.test(flag)
        return [(f"{test}_{'yes' if holds else 'no'} {par(m)} {par(n)} {fact}", e)]
    if e[0] == "old" and e[1][0] == "held":
        return [(f"ap (λ b. one_if b) {fact}", e)]
    if e[0] == "each":
        return []
    if e[0] == "choice":
        kind = shape(e)
        if kind == "not":
            return known_by(e[1], fact, not holds, flag_of)
        if kind in ("and", "or") and (kind == "and") == holds:
            second = e[2] if kind == "and" else e[3]
            return known_by(e[1], f"({fact}).0", holds, flag_of) + known_by(second, f"({fact}).1", holds, flag_of)
    return [(fact, e)]


def letters_in(e):
    """Returns the flags that an expression names, after the routine."""
    if e[0] in ("bound", "at"):
        return []
    if e[0] == "held":
        return [FLAGS[e[1]]] if e[1] in FLAGS else []
    if e[0] == "old":
        return []
    return [letter for part in e[1:] if isinstance(part, tuple) for letter in letters_in(part)]


def products_in(e):
    """Returns products of numbers that are not literals, except within counted expressions."""
    if e[0] in ("each", "sum"):
        return
    if e[0] == "pair" and e[1] == "Times" and e[2][0] != "number" and e[3][0] != "number":
        yield e[2], e[3]
    for part in e[1:]:
        if isinstance(part, tuple):
            yield from products_in(part)


def keys_of(e):
    """Returns the registers and bytes in an expression, or None if it has others."""
    if any(it[0] == "of" and it[2][0] != "number" or it[0] == "held" and it[1] not in ("A", "X", "Y") for it in parts_of(e)):
        return None
    return cells_in(e) | {it[1] for it in parts_of(e) if it[0] == "held"}


def cell_of(e):
    """Returns the address of a named byte."""
    if e[0] == "old":
        return cell_of(e[1])
    return e[2][1] if e[0] == "of" and e[1] == "Byte" and e[2][0] == "number" else None


def is_byte(e):
    if e[0] == "old":
        return is_byte(e[1])
    return e[0] == "held" and e[1] in ("A", "X", "Y") or e[0] == "of" and e[1] == "Byte"


def unknown_in(text):
    """Returns the bytes and registers in terms."""
    return set(re.findall(r"ram_byte \w+\.memory \d+|\w+\.registers\.[axy]\b", text))
