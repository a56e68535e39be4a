"""What instructions do to a state of which little is known by value: registers, flags and bytes as terms, and facts about them that the
prover's arithmetic needs.
"""

import copy
import re
from typing import NamedTuple

from .refusal import Refusal
from .saying import BYTES, FLAGS, Words
from .source import RAM_END
from .terms import add, modulo, par

ONES = re.compile(r"0*1+0*")
INDEXED = ("ZeroPageX", "ZeroPageY", "AbsoluteX", "AbsoluteY")


# The parts of a state that a copy has for itself.
COPIED = (
    *("registers", "flags", "memory", "stores", "facts", "lines", "known", "path"),
    *("zeros", "links", "reads", "universals", "all_has", "taken"),
)

# How many stores on text pages at known addresses may follow one another: each is part of a proof inside the one before.
MOST_CELLS = 8
TOO_MANY_CELLS = (
    f"more than {MOST_CELLS} stores to text pages one after another take too long; "
    "a loop needs invariant and decreases lines before its label"
)


class Ground(NamedTuple):
    """What is known of the world at the entry, wherever the run is."""

    facts: list
    known: list
    reads: list
    universals: list


class State:
    """A place in a proof: `steps` steps after the prover's world `world`, in terms of the world in the variable `base`."""

    def __init__(self, base, world, pc, s):
        self.base, self.world, self.pc, self.s = base, world, pc, s
        self.steps = 0
        # the loop at whose top it is; and the keys that were taken since the entry
        self.top, self.taken = None, []
        # its memory; and the fact that what may not change is as at the entry, or None if the memory is that of the entry
        self.memory_is, self.keep = f"{base}.memory", None
        self.registers = {it: f"{base}.registers.{it.lower()}" for it in "AXY"}
        self.flags = {it: ("unknown", f"{base}.registers.flags.{it.lower()}") for it in "NVZC"}
        # bytes that were stored, by their addresses; and the stores in their order
        self.memory, self.stores = {}, []
        # names of facts for the arithmetic; lines that must still be written; what each name stands for
        self.facts, self.lines, self.known = [], [], []
        # how the run came here, and how many branches with unknown flags it has passed
        self.path, self.depth = [], 0
        # the fact of the last branch with an unknown flag, and what holds if it goes the other way
        self.turned = None
        # facts that a term is 0
        self.zeros = {}
        # how each memory was made from another; bytes that were read at addresses that are not numbers; what holds for each number below
        # another
        self.links, self.reads, self.universals = {}, [], []
        # the worlds in which the run last reached the labels of loops
        self.labels = {}
        # facts that memories are whole
        self.all_has = {self.memory_is: "bytes.ram"}
        # how many stores on text pages it has passed since the last loop or call
        self.cells = 0
        # the world with whose registers it began, and the fact that this world is whole
        self.origin, self.whole = base, "bytes"
        # the state at a loop's top, within a round of it; and what was known at the entry of the routine
        self.loop = None
        self.ground = Ground([], [], [], [])

    def copy(self):
        made = copy.copy(self)
        for name in COPIED:
            setattr(made, name, copy.copy(getattr(self, name)))
        return made

    @property
    def has(self):
        return self.all_has[self.memory_is]

    @property
    def at(self):
        """Returns the way here, in words."""
        return (", on the path where " + ", ".join(self.path)) if self.path else ""

    def arithmetic(self):
        return f"(omega (arith, {', '.join(self.facts)}))" if self.facts else "(omega arith)"

    @property
    def facts_listed(self):
        return ", ".join(["arith", *self.facts])


class StateWords(Words):
    """Makes terms of an expression for what was done up to a state."""

    def __init__(self, run, state):
        super().__init__(state.base, "w", labels=state.labels)
        self.run, self.state = run, state

    @property
    def memory(self):
        return self.state.memory_is

    def part(self, atom):
        if atom in self.state.registers:
            return str(self.state.registers[atom])
        return str(self.run.flag_number(self.state, FLAGS[atom]))

    def byte(self, address):
        if str(address).isdigit():
            return str(self.run.cell(self.state, int(address)))
        return f"({super().byte(address)})"

    def word(self, address):
        if str(address).isdigit():
            low, high = (self.run.cell(self.state, int(address) + k) for k in (0, 1))
            return f"({low} + 256 * {high})"
        return super().word(address)


class Run:
    """Steps of a program; facts are named in the order in which they are found."""

    def __init__(self, program):
        self.program = program
        self.names = 0
        self.touched = set()
        # the bytes and registers in each fact, by the names of facts, as far as they are known
        self.keys = {}
        # the byte that an instruction reads at an address that is not a number, and the one that it stores there
        self.reached, self.put = None, None

    def fresh(self, letter):
        self.names += 1
        return f"{letter}{self.names}"

    def fact(self, state, term, says="", keys=None):
        """Gives the arithmetic what a term proves. If the term does not compute to that, it is stated."""
        if any(term + says == known for _, known in state.known):
            return
        name = self.fresh("f")
        self.keys[name] = keys or keys_in(term, says)
        state.known.append((name, term + says))
        state.lines.append((f"{name} : {says}" if says else name, term))
        state.facts.append(name)

    def cell(self, state, address):
        if address in state.memory:
            return state.memory[address]
        self.fact(state, f"{state.has}.bytes {address}")
        self.follow(state, address)
        return f"(ram_byte {state.memory_is} {address})"

    # Flags: ('known', b), ('sum', t) for 256 ≤ t, ('le', m, n), ('odd', t), ('eq', m, n), ('unknown', term),
    # ('overflow', term, a, b, c) of a sum, ('opaque',)

    @staticmethod
    def test(flag):
        """Returns the comparison that a flag is, and its two sides."""
        kind = flag[0]
        if kind == "sum":
            return "le", 256, flag[1]
        if kind == "odd":
            return "eq", f"({flag[1]} % 2)", 1
        return flag

    def flag_number(self, state, letter):
        """Returns a flag as 0 or 1."""
        flag = state.flags[letter]
        kind = flag[0]
        if kind == "known":
            return int(flag[1])
        if kind == "unknown":
            self.fact(state, f"bit_small {par(flag[1])}")
            return f"(one_if {flag[1]})"
        if kind == "opaque":
            raise Refusal(0, f"the value of {letter} here cannot be proved")
        if kind == "overflow":
            low = state.arithmetic()
            self.fact(state, f"overflow_bit {' '.join(par(it) for it in flag[2:])} {low} {low} {low}")
            return f"(one_if {flag[1]})"
        if kind == "odd":
            self.fact(state, f"odd_bit {par(flag[1])}")
            return f"(one_if ({par(flag[1])} % 2 == 1))"
        test, m, n = self.test(flag)
        self.fact(state, f"{test}_bit {par(m)} {par(n)}")
        return f"(one_if (nat_le {par(m)} {par(n)}))" if test == "le" else f"(one_if ({par(m)} == {par(n)}))"

    def judge(self, state, term):
        """Sets N and Z from a result."""
        is_known = isinstance(term, int)
        state.flags["Z"] = ("known", term == 0) if is_known else ("eq", term, 0)
        state.flags["N"] = ("known", term > 127) if is_known else ("le", 128, term)

    # Places

    def address(self, state, it):
        if it.mode in ("ZeroPage", "Absolute"):
            address = it.value
        elif it.mode in INDEXED:
            address = (it.value + state.registers[it.mode[-1]]) & (255 if it.mode.startswith("Zero") else 0xFFFF)
        else:
            low, high = (self.cell(state, a) for a in self.pointer(state, it))
            address = (low + 256 * high + (state.registers["Y"] if it.mode == "IndirectIndexed" else 0)) & 0xFFFF
        if address >= RAM_END:
            raise Refusal(it.line, f"${address:04X} is above RAM; the values of keys and switches cannot be proved")
        return address

    @staticmethod
    def pointer(state, it):
        """Returns the addresses of the two bytes of a pointer, if they are known."""
        at = it.value + (state.registers["X"] if it.mode == "IndexedIndirect" else 0)
        return at & 255, (at + 1) & 255

    def is_reached(self, state, it):
        """Returns whether an instruction reads or stores at an address that is not known by value."""
        if it.mode in INDEXED:
            return not isinstance(state.registers[it.mode[-1]], int)
        if it.mode == "IndexedIndirect" and not isinstance(state.registers["X"], int):
            raise Refusal(it.line, f"{it.mnemonic} through a pointer chosen by X cannot be proved if X is not known")
        if it.mode not in ("IndexedIndirect", "IndirectIndexed"):
            return False
        parts = [state.memory.get(a) for a in self.pointer(state, it)]
        if it.mode == "IndirectIndexed":
            parts.append(state.registers["Y"])
        return not all(isinstance(part, int) for part in parts)

    def follow(self, state, address):
        """Gives the arithmetic what the memory of a byte says about it."""

    def read(self, state, it):
        if it.mode == "Immediate":
            return it.value
        if it.mode == "Accumulator":
            return state.registers["A"]
        if self.reached is not None:
            return self.reached
        return self.cell(state, self.address(state, it))

    def write(self, state, it, term):
        if it.mode == "Accumulator":
            state.registers["A"] = term
        elif self.reached is not None:
            self.put = term
        else:
            self.store(state, it, self.address(state, it), term)

    def store(self, state, it, address, term):
        if self.program.is_code(address):
            raise Refusal(it.line, f"it overwrites code at ${address:04X}")
        if 0x400 <= address < 0xC00:
            state.cells += 1
        if state.cells > MOST_CELLS:
            raise Refusal(it.line, TOO_MANY_CELLS)
        state.memory[address] = term
        state.stores.append((address, term))
        self.touched.add(address)

    # Instructions

    def step(self, state, it):
        """Executes one instruction that is not a branch."""
        state.steps += 1
        behind = it.address + it.length
        state.pc = behind
        if it.mnemonic == "JMP" and it.mode == "Absolute":
            state.pc = it.value
        elif it.mnemonic == "JSR":
            self.store(state, it, 0x100 + state.s, (behind - 1) >> 8)
            self.store(state, it, 0xFF + state.s, (behind - 1) & 255)
            state.s -= 2
            state.pc = it.value
        else:
            action = getattr(self, "do_" + it.mnemonic.lower(), None)
            if action is None:
                raise Refusal(it.line, f"{it.mnemonic} cannot be proved yet")
            action(state, it)

    def load(self, state, register, term):
        state.registers[register] = term
        self.judge(state, term)

    def change(self, state, it, term):
        self.write(state, it, term)
        self.judge(state, term)

    def add(self, state, it, byte):
        carry = self.flag_number(state, "C")
        overflow = overflow_of(state.registers["A"], byte, carry)
        total = add(state.registers["A"], byte, carry)
        if isinstance(total, int):
            state.flags["C"] = ("known", total > 255)
        else:
            self.fact(state, f"whole {par(total)} {state.arithmetic()}")
            state.flags["C"] = ("sum", total)
        state.flags["V"] = overflow
        self.load(state, "A", modulo(total))

    def compare(self, state, it, register):
        held, byte = state.registers[register], self.read(state, it)
        if isinstance(held, int) and isinstance(byte, int):
            state.flags["C"] = ("known", byte <= held)
            self.judge(state, (held - byte) & 255)
        else:
            state.flags["C"] = ("le", byte, held)
            self.judge(state, modulo(f"({held} + 256 - {byte})"))

    def bits(self, state, digit, x, y):
        if isinstance(x, int) and isinstance(y, int):
            return {"◌&&◌": x & y, "◌||◌": x | y, "differ": x ^ y}[digit]
        term = f"(by_digits 8 {digit} {par(x)} {par(y)})"
        self.fact(state, f"digits_small {digit} {par(x)} {par(y)}")
        sum_of = arithmetic_of(digit, y) if isinstance(y, int) else None
        if sum_of:
            test = f"(λ n. by_digits 8 {digit} n {y} == {sum_of})"
            self.fact(state, f"eq_yes _ _ (each_byte {test} refl {par(x)} {state.arithmetic()})")
        return term

    def shift_left(self, state, it, low):
        byte = self.read(state, it)
        is_known = isinstance(byte, int)
        term = modulo(2 * byte + low) if is_known and isinstance(low, int) else modulo(f"(2 * {par(byte)} + {low})")
        state.flags["C"] = ("known", byte > 127) if is_known else ("le", 128, byte)
        self.change(state, it, term)

    def shift_right(self, state, it, high):
        byte = self.read(state, it)
        is_known = isinstance(byte, int)
        term = byte // 2 + 128 * high if is_known and isinstance(high, int) else f"({par(byte)} / 2 + 128 * {high})"
        state.flags["C"] = ("known", bool(byte & 1)) if is_known else ("odd", byte)
        self.change(state, it, term)

    def do_bit(self, state, it):
        byte = self.read(state, it)
        is_known = isinstance(byte, int)
        state.flags["N"] = ("known", byte > 127) if is_known else ("opaque",)
        state.flags["V"] = ("known", bool(byte & 64)) if is_known else ("opaque",)
        both = self.bits(state, "◌&&◌", state.registers["A"], byte)
        state.flags["Z"] = ("known", both == 0) if isinstance(both, int) else ("eq", both, 0)

    def do_adc(self, state, it):
        self.add(state, it, self.read(state, it))

    def do_sbc(self, state, it):
        byte = self.read(state, it)
        self.add(state, it, 255 - byte if isinstance(byte, int) else f"(255 - {byte})")

    def do_asl(self, state, it):
        self.shift_left(state, it, 0)

    def do_rol(self, state, it):
        self.shift_left(state, it, self.flag_number(state, "C"))

    def do_lsr(self, state, it):
        self.shift_right(state, it, 0)

    def do_ror(self, state, it):
        self.shift_right(state, it, self.flag_number(state, "C"))

    def do_inc(self, state, it):
        self.change(state, it, modulo(add(self.read(state, it), 1)))

    def do_dec(self, state, it):
        self.change(state, it, modulo(add(self.read(state, it), 255)))

    def do_pha(self, state, it):
        self.store(state, it, 0x100 + state.s, state.registers["A"])
        state.s -= 1

    def do_pla(self, state, it):
        state.s += 1
        self.load(state, "A", self.cell(state, 0x100 + state.s))

    def do_nop(self, state, it):
        pass


SAID_BYTE = re.compile(r"ram_byte \S+ (\d+)")
OF_BYTE, OF_REGISTER = re.compile(r"(?:bytes|stores_read \S.*) (\d+)(?: refl)?"), re.compile(r"\S*(?:bytes\.|keep_)([axy])")


def keys_in(term, says=""):
    """Returns the bytes or the register in a fact, if its term shows them, and what it says."""
    if "ram_byte (" in says or "registers" in says:
        return None
    byte, register = OF_BYTE.fullmatch(term.rpartition(".")[2]) or OF_BYTE.fullmatch(term), OF_REGISTER.fullmatch(term)
    if byte:
        return {int(byte[1]), *(int(it) for it in SAID_BYTE.findall(says))}
    return {register[1].upper()} if register else None


def overflow_of(a, byte, carry):
    """Returns V for a sum."""
    if all(isinstance(it, int) for it in (a, byte, carry)):
        return "known", bool(~(a ^ byte) & (a ^ (a + byte + carry)) & 128)
    term = f"(overflows (signed {par(a)} +ℤ signed {par(byte)} +ℤ pos {par(carry)}))"
    return "overflow", term, a, byte, carry


def arithmetic_of(digit, mask):
    """Returns an operation with a mask as sums of n, if the mask is one run of ones or zeros."""

    def run(mask):
        if not mask or not ONES.fullmatch(f"{mask:b}"):
            return None
        low = (mask & -mask).bit_length() - 1
        return f"n / {1 << low} % {1 << mask.bit_count()} * {1 << low}"

    if digit == "◌&&◌":
        return run(mask) or (f"n - {run(255 - mask)}" if run(255 - mask) else None)
    if digit == "◌||◌":
        return f"n + {mask} - {run(mask)}" if run(mask) else None
    return {255: "255 - n", 128: "(n + 128) % 256"}.get(mask)


def loads(register):
    return lambda self, state, it: self.load(state, register, self.read(state, it))


def stores(register):
    return lambda self, state, it: self.write(state, it, state.registers[register])


def compares(register):
    return lambda self, state, it: self.compare(state, it, register)


def steps(register, by):
    return lambda self, state, it: self.load(state, register, modulo(add(state.registers[register], by)))


def moves(source, target):
    return lambda self, state, it: self.load(state, target, state.registers[source])


def sets(letter, is_set):
    return lambda self, state, it: state.flags.__setitem__(letter, ("known", is_set))


def combines(digit):
    return lambda self, state, it: self.load(state, "A", self.bits(state, digit, state.registers["A"], self.read(state, it)))


for mnemonic, action in {
    **{"ld" + it.lower(): loads(it) for it in "AXY"},
    **{"st" + it.lower(): stores(it) for it in "AXY"},
    **{"cmp": compares("A"), "cpx": compares("X"), "cpy": compares("Y")},
    **{"inx": steps("X", 1), "iny": steps("Y", 1), "dex": steps("X", 255), "dey": steps("Y", 255)},
    **{"tax": moves("A", "X"), "tay": moves("A", "Y"), "txa": moves("X", "A"), "tya": moves("Y", "A")},
    **{"clc": sets("C", False), "sec": sets("C", True), "clv": sets("V", False)},
    **{"and": combines(BYTES["BitAnd"]), "ora": combines(BYTES["BitOr"]), "eor": combines(BYTES["BitXor"])},
}.items():
    setattr(Run, "do_" + mnemonic, action)
