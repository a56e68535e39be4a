"""The crate in which the kit checks proofs, as files: texts, statements about them, and their proofs."""

import re
import shutil
from dataclasses import dataclass
from functools import cached_property

from .meeting import Met
from .saying import Words, is_minus
from .telling import Told
from .terms import S, codes, list_of

CRATE = "promised"
# The crates that it uses.
BELOW = (
    "a2_promise_rules a2_theorems a2_promise_certify a2_footprint a2_promise a2_run a2_text a2_stream a2_opcode "
    "a2_syntax a2_hex a2_asm a2_page a2_bus a2_effect a2_cpu a2_burst a2_services a2_machine"
)
LINE = re.compile(r"[^\n]*\n|[^\n]+")

STATEMENT_USES = """use Rattle.std.specs.Prelude.{ℕ, List, [], ◌∷◌, codes}
use Rattle.std.specs.List.{concat}
"""

PROGRAM_USES = """use Rattle.std.specs.Prelude.{◌≡◌, ℕ, true, List, [], ◌∷◌, codes, replicate, Some, None, refl}
use Rattle.a2_text.specs.Words.{first_word}
use Rattle.a2_opcode.specs.declared.Mnemonic.TheVariants.{%s}
use Rattle.a2_opcode.specs.declared.Mode.TheVariants.{%s}
use Rattle.a2_asm.specs.Values.{Names}
use Rattle.a2_asm.specs.declared.program.Statement.{Statement}
use Rattle.a2_machine.specs.Meaning.{Code}
use Rattle.a2_theorems.specs.Routines.{op}
use Rattle.a2_theorems.proofs.TextRunProofs.{entry_of, statements_of}
use Rattle.a2_theorems.proofs.Reading.{reading}
use Rattle.a2_promise_rules.specs.Promised.{lines_of_routines}
use Rattle.a2_promise_rules.proofs.Entered.{Laid, are_bytes, laid_of}
use Rattle.a2_promise_rules.proofs.Kept.{code_of, names_of}
use %s.{text}
"""

PROOF_USES = """use Rattle.std.specs.Prelude.{◌≡◌, ◌≢◌, ◌<◌, ◌≤◌, ◌⊎◌, ℕ, ◌+◌, ◌*◌, ◌/◌, ◌%◌, ◌-◌, ◌&&◌, ◌||◌, ◌==◌, nat_le, nat_lt, min, max, ℤ, pos, ◌+ℤ◌, Bool, true, false, List, [], ◌∷◌, refl}
use Rattle.std.proofs.Common.{sym, ap, ap₂, ◌∙◌, arith, inl, inr, true≢false}
use Rattle.std.proofs.lemmas.Bool.Decides.{nat_tests}
use Rattle.a2_effect.specs.Arithmetic.{by_digits, differ, overflows, signed}
use Rattle.a2_effect.specs.Registers.{one_if}
use Rattle.a2_bus.specs.Memory.{Memory, ram_byte}
use Rattle.a2_services.specs.World.{World}
use Rattle.a2_machine.proofs.Computing.{computing}
use Rattle.a2_theorems.specs.Routines.{entered, word}
use Rattle.a2_theorems.proofs.Branching.{N, V, Z, C, with_flag}
use Rattle.a2_theorems.proofs.Keeping.{after_stores}
use Rattle.a2_theorems.proofs.Carrying.{fits_word}
use Rattle.a2_promise_rules.proofs.Bits.{bit_small, digits_small}
use Rattle.a2_promise_rules.proofs.Overflow.{overflow_bit}
use Rattle.a2_promise_rules.proofs.Leaving.{Leaves, Waits, leaves, leaves_all, leaves_as, leaves_stores, still}
use Rattle.a2_promise_rules.proofs.Meeting.{Whole, IsWhole, enter, stepped, home, Meets}
use Rattle.a2_promise_rules.proofs.Proving.{onto, fork, loops, call, whole_after, whole, le_bit, odd_bit, eq_bit, le_yes, le_no, eq_yes, eq_no, each_byte, product_down, product_up, product_zero, product_ge, mul_swap, yes_le, no_le, yes_eq, no_eq, flag_yes, flag_no, weaken, none_below, one_more_below}
use Rattle.a2_promise_rules.proofs.Ranges.{is_in, in_ranges, not_among, leaves_further, kept_beside, kept_or_in}
use Rattle.a2_promise_rules.proofs.Reaching.{take, put, change, taking, putting, changing}
use Rattle.a2_promise_rules.proofs.FreshMemory.{afresh, put_here, put_other, put_read, put_whole, put_leaves, stores_whole, stores_read, then_stores, stores_leave, stores_other, same_byte, same_place, at_index, if_lt, if_le, if_eq, if_ne, one_of_two}
use Rattle.a2_promise_rules.proofs.Calling.{call_as, call_service, home_serves, prbyte_serves, prhex_serves, cout1_serves, cout_serves, crout_serves, vtab_serves, clreol_serves, setinv_serves, setnorm_serves, wait_serves}
use Rattle.a2_promise_rules.proofs.Typing.{getln_serves, keyin_serves, rdkey_serves}
use Rattle.a2_opcode.specs.Table.{fixed, page_crossing_row}
use Rattle.a2_opcode.specs.declared.Mnemonic.TheVariants.{Adc, And, Asl, Cmp, Dec, Eor, Inc, Lda, Ldx, Ldy, Lsr, Ora, Rol, Ror, Sbc, Sta, Stx, Sty}
use Rattle.a2_opcode.specs.declared.Mode.TheVariants.{ZeroPageX, ZeroPageY, AbsoluteX, AbsoluteY, IndexedIndirect, IndirectIndexed}
"""

END_USES = """use Rattle.std.specs.Prelude.{{codes}}
use Rattle.a2_promise_rules.specs.Promised.{{IsProved}}
use Rattle.a2_promise_rules.proofs.Kept.{{proved, stated_by_text}}
use {0.specs}.{{text}}
use {0.proofs}.Program.{{listing, lines, names, laid, read, stated, cut, named, lays, small}}
use {0.proofs}.{1}.{{terms, tells}}
use {0.proofs}.{2}.{{state, met}}
"""

# What the marked lines of Program.antt check.
PROGRAM_MARKS = (
    *("the start of the source", "the statements of the source", "the lines of the source", "the names of the source"),
    *("the bytes of the source", "the bytes of the source"),
)


@dataclass
class Source:
    """A source in that crate: the text in specs/NAME.antt, what is said about it in the module src/NAME.rt, and the proofs in
    proofs/NAME/."""

    name: str
    text: str
    lines: list
    program: object

    @property
    def specs(self):
        return f"Rattle.{CRATE}.specs.{self.name}"

    @property
    def proofs(self):
        return f"Rattle.{CRATE}.proofs.{self.name}"


@dataclass
class Written:
    """A proof of a routine for an S: its text, what its marked lines prove, and which proofs it depends on."""

    source: Source
    routine: object
    s: int
    text: str
    marks: list
    ways: int
    changed: list
    calls: set

    @cached_property
    def told(self):
        return Told(self.routine.promise, self.source.proofs)

    @cached_property
    def met(self):
        return Met(self.routine.promise, self.told, self.source.proofs)

    @property
    def name(self):
        return f"{self.routine.name}_{self.s}"

    @property
    def module(self):
        return "Proof_" + self.name


def literal(text):
    """Returns a line of a source with its end, if it has one, as the list of its bytes."""
    line = text.removesuffix("\n")
    if line != text and all(" " <= c <= "~" and c not in '"\\' for c in line):
        return f'codes "{line}\\n"'
    return list_of(text.encode("latin-1"))


def text_file(source):
    text = "-- Written by a2lab prove: a source text.\n" + STATEMENT_USES
    text += "\nabbrev pub text : List ℕ\ntext = concat (\n"
    return text + "".join(f"    {literal(line)} ∷\n" for line in LINE.findall(source.text)) + "    [])\n"


def statement(it):
    instr = "None"
    if it.is_instruction:
        instr = f"Some (op {it.mnemonic.capitalize()} {it.mode} {it.value})"
    return f"record {{ line = {it.line}; addr = {it.address}; length = {it.length}; instr = {instr} }}"


def rows(name, kind, items):
    return f"\nabbrev pub {name} : {kind}\n{name} =\n" + "".join(f"    {it} ∷\n" for it in items) + "    []\n"


def computed(k, name, says, unfolded):
    """Returns what is computed from the text."""
    return f"\npub {name} : {says}\nunfolding {unfolded}\n{name} = refl -- @{k}\n"


def laid(it):
    """Returns the bytes of a statement, with their address."""
    return f"({it.address}, {list_of(it.bytes) if any(it.bytes) else f'replicate {it.length} 0'})"


def program_file(source):
    program = source.program
    of = [it for it in program.statements if it.is_instruction]
    names = [", ".join(sorted(it)) for it in ({it.mnemonic.capitalize() for it in of}, {it.mode for it in of})]
    uses = PROGRAM_USES % (*names, source.specs)
    text = "-- Written by a2lab prove: the statements, lines and names of the text, which are computed of it.\n" + uses
    text += rows("listing", "List Statement", (statement(it) for it in program.statements))
    text += "\nabbrev pub code : Code\ncode = code_of listing\n"
    text += rows("lines", "List (List ℕ)", (codes(line) for line in source.lines))
    text += rows("names", "Names", (f"({codes(name)}, {value})" for name, value in program.names.items()))
    text += computed(0, "read", f"entry_of text ≡ Some {program.entry}", "reading")
    text += computed(1, "stated", "statements_of text ≡ listing", "reading")
    text += rows("laid", "Laid", (laid(it) for it in program.statements))
    text += computed(2, "cut", "lines_of_routines text ≡ lines", "first_word")
    text += computed(3, "named", "names_of text ≡ names", "reading")
    text += computed(4, "lays", "laid_of text ≡ laid", "reading")
    return text + "\npub small : are_bytes laid ≡ true\nsmall = refl -- @5\n"


def record(name, worlds, fields):
    text = f"\npub record {name} {worlds} : Type 0 where\n"
    return text + ("".join(f"  {it}\n" for it in fields) or "  pub none : Unit {0}\n")


def registers_kept(promise):
    kept = [it.lower() for it in "AXY" if it not in promise.changes.registers]
    return [f"pub keep_{it} : v.registers.{it} ≡ w.registers.{it}" for it in kept]


def facts(letter, clauses, words):
    return [f"pub {letter}{k} : {words.says(clause.expr)}" for k, clause in enumerate(clauses, 1)]


def ranges_text(ranges):
    return list_of(f"({first}, {last})" for first, last in ranges)


def rest_of(routine, taken):
    """Returns that everything else is unchanged, if these keys were taken."""
    return [f"pub rest : Leaves w.memory {routine.name}_changed {list_of(taken)} v", "pub bytes : IsWhole v"]


def contract(written):
    """Returns what is known before and after a routine, as records."""
    routine, promise = written.routine, written.routine.promise
    words = Words("v", "w")
    waits = [f"pub waits : Waits {list_of(promise.keys)} w"] if promise.keys else []
    text = record(f"{written.name}_Before", "(w : World)", facts("r", promise.wanted, Words("w", "w")) + waits)
    text += f"\nabbrev pub {routine.name}_ranges : List (ℕ × ℕ)\n{routine.name}_ranges = {ranges_text(written.changed)}\n"
    text += f"\nabbrev pub {routine.name}_changed : ℕ → Bool\n{routine.name}_changed = is_in {routine.name}_ranges\n"
    rest = rest_of(routine, promise.keys)
    text += record(f"{written.name}_After", "(w v : World)", facts("e", promise.promised, words) + registers_kept(promise) + rest)
    for loop in routine.loops.values():
        outer = [f"o_{label}" for label in loop.labels]
        there = Words("v", "w", labels=dict(zip(loop.labels, outer)))
        worlds = " ".join(["w", *outer, "v"])
        rest = rest_of(routine, loop.taken or [])
        text += record(f"{loop.name}_Inv", f"({worlds} : World)", facts("e", loop.invariants, there) + registers_kept(promise) + rest)
        measure = measure_of(loop.measure.expr, there) if loop.measure else "0"
        text += f"\nabbrev {loop.name}_measure : {'World → ' * len(outer)}World → ℕ\n{loop.name}_measure {' '.join([*outer, 'v'])} = {measure}\n"
    return text


def measure_of(e, words):
    """Returns a measure. If it is a difference below 0, it is 0."""
    return f"{words.up(e)} - {words.down(e)}" if is_minus(e) else words.plain(e)


def indented(text):
    return "".join("    " + line + "\n" for line in text.splitlines())


def pairs(letter, count, of):
    """Returns the facts of a record, one after another."""
    text = "tt"
    for k in range(count, 0, -1):
        text = f"({of}.{letter}{k}, {text})"
    return text


def before_of(promise):
    fields = [f"r{k} = before.says{'.1' * (k - 1)}.0; " for k in range(1, len(promise.wanted) + 1)]
    fields += ["waits = before.waits; "] if promise.keys else []
    return "record { " + ("".join(fields) or "none = tt; ") + "}"


def ending(written):
    """Returns the theorem, from what the routine meets."""
    name, promise = written.routine.name, written.routine.promise
    kept = ""
    for it in "AXY":
        proof = "λ no. absurd (true≢false no)" if it in promise.changes.registers else f"λ no. h.2.keep_{it.lower()}"
        kept += f"{it.lower()} = {proof}; "
    after = f"record {{ says = {pairs('e', len(promise.promised), 'h.2')}; {kept}rest = h.2.rest; bytes = h.2.bytes }}"
    meets = f"({written.name}_meets w bytes ({before_of(promise)}))"
    label, above = codes(promise.name), promise.line - 1
    body = (
        f"proved text {label} listing laid _ {above} terms state {name}_ranges read stated\n"
        f"(stated_by_text text {label} lines names {above} terms cut named tells) refl lays small met refl refl refl\n"
        f"(λ w bytes before. weaken code (enter {promise.address} {S} w) _ _ {meets}\n"
        f"(λ u h. (h.0, h.1, {after}))) -- @@\n"
    )
    return f"\npub {name}_is_proved : IsProved text {label}\n{name}_is_proved =\n{indented(body)}"


def proof_file(written, all_written):
    proofs = written.source.proofs
    text = f"-- Written by a2lab prove.\n{PROOF_USES}use {proofs}.Program.{{code}}\n"
    if written.s == S:
        text += END_USES.format(written.source, written.told.module, written.met.module)
    for address, s in sorted(written.calls):
        other = all_written[address, s]
        text += f"use {proofs}.{other.module}.{{{other.name}_meets}}\n"
    name = written.name
    meets = f"{name}_meets : Meets code {written.routine.promise.address} {written.s} {name}_Before {name}_After"
    text += contract(written) + f"\npub {meets}\nunfolding computing\n{name}_meets w bytes before =\n{indented(written.text)}"
    return text + (ending(written) if written.s == S else "")


def function_of(written):
    """Returns the function whose contract is the theorem. (A label may not be a valid name of a function.)"""
    return f"keeps_{written.routine.promise.address:04x}"


def module_file(source, tops):
    text = "//! Written by a2lab prove.\n\nghost use Rattle.std.specs.Prelude.{codes};\n"
    text += f"ghost use {source.specs}.{{text}};\nghost use Rattle.a2_promise_rules.specs.Promised.{{IsProved}};\n"
    for it in tops:
        name = it.routine.name
        text += f"\n/// {name} keeps its promise.\npub fn {function_of(it)}()\n    ensures {{ IsProved text {codes(name)} }}\n{{}}\n"
    return text


def answer_file(written):
    proofs = written.source.proofs
    return (
        f"use {proofs}.{written.module} as theorem\nuse {proofs}.{function_of(written)}.Goals as goal\n\n"
        f"pub returns : goal.returns\nreturns c = theorem.{written.routine.name}_is_proved\n"
    )


def declared(modules, end=""):
    return "".join(f"pub mod {it}{end}\n" for it in modules)


def files_of(source, written):
    """Returns the files of a source, with these proofs, by their names."""
    tops = [it for it in written.values() if it.s == S]
    parts = [part for it in tops for part in (it.told, it.met)]
    below = f"proofs/{source.name}"
    files = {
        f"specs/{source.name}.antt": text_file(source),
        f"src/{source.name}.rt": module_file(source, tops),
        f"{below}.antt": declared(["Program", *(it.module for it in parts), *(it.module for it in written.values())]),
        f"{below}/Program.antt": program_file(source),
    }
    files.update({f"{below}/{it.module}.antt": proof_file(it, written) for it in written.values()})
    files.update({f"{below}/{it.module}.antt": it.text for it in parts})
    files.update({f"{below}/{function_of(it)}/Answers.antt": answer_file(it) for it in tops})
    return files


def write_crate(folder, sources):
    """Writes the crate's files, for sources with their proofs. What another run left there is removed, except what the kit keeps."""
    for part in ("specs", "proofs", "src"):
        shutil.rmtree(folder / part, ignore_errors=True)
    names = [source.name for source, _ in sources]
    files = {
        "specs/Lib.antt": declared(names),
        "src/lib.rt": "//! Written by a2lab prove.\n#![tactic(auto)]\n\n" + declared(names, ";"),
    }
    for source, written in sources:
        files.update(files_of(source, written))
    for name, text in files.items():
        path = folder / name
        path.parent.mkdir(parents=True, exist_ok=True)
        path.write_text(text, encoding="utf-8")
