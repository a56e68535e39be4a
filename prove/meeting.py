"""A state that is as a routine requires, written for the prover. It shows that there is a world to which the promise applies."""

from .terms import S, flag, list_of

USES = """use Rattle.std.specs.Prelude.{{◌≡◌, true, false, List, [], ◌∷◌, refl}}
use Rattle.a2_promise_rules.proofs.Entered.{{State, is_met}}
use {0}.Program.{{laid}}
use {0}.{1}.{{terms}}
"""


class Met:
    """The module of a promise, among the proofs of its source: its state, and that this is as required."""

    def __init__(self, promise, told, proofs):
        self.module = f"Met_{promise.name}"
        flags = "; ".join(f"{it.lower()} = {flag(promise.met.get(it))}" for it in "NVDIZC")
        registers = "; ".join(f"{it.lower()} = {promise.met[it]}" for it in "AXY")
        cells = list_of(f"({a}, {byte})" for a, byte in promise.met.items() if isinstance(a, int))
        self.text = f"-- Written by a2lab prove: a state that is as {promise.name} requires.\n" + USES.format(proofs, told.module)
        self.text += f"\nabbrev pub state : State\nstate = record {{\n  registers = record {{ {registers}; s = {S}; pc = {promise.address}; "
        self.text += f"flags = record {{ {flags} }} }};\n  bytes = {cells};\n}}\n"
        self.text += "\npub met : is_met terms laid state ≡ true\nmet = refl -- @0\n"
