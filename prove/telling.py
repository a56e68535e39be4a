"""What the lines before a routine's label say, written for the prover, which computes it from the text: each line as a `Line` of
crates/a2_promise/specs/PromisedTerms.antt, and what all of them say as `Terms`.

What a line says as it is written is a tree: a tuple that begins with the name of its form in crates/a2_promise/specs/Written.antt. A word or
number in it is a list of its kind and its text.
"""

from .saying import phrase
from .source import FACTS
from .terms import codes, flag, list_of

USES = """use Rattle.std.specs.Prelude.{◌≡◌, ℕ, pos, true, false, List, [], ◌∷◌, codes, refl}
use Rattle.a2_promise.specs.declared.expr.Atom.TheVariants as atom
use Rattle.a2_promise.specs.declared.expr.Function.TheVariants as function
use Rattle.a2_promise.specs.declared.expr.Operation.TheVariants as operation
use Rattle.a2_promise.specs.declared.words.Infix.TheVariants as join
use Rattle.a2_promise.specs.declared.words.Relation.TheVariants as relation
use Rattle.a2_promise.specs.Grammar.{fits}
use Rattle.a2_promise.specs.Phrases.{Phrase, number, held, bound, old, of, pair, choice, each, sum}
use Rattle.a2_promise.specs.Tokens.{tokens}
use Rattle.a2_promise.specs.Tokens as token
use Rattle.a2_promise.specs.PromisedTerms.{Line, Terms, IsLine, IsPromisedBy}
use Rattle.a2_promise.specs.PromisedTerms as told
use Rattle.a2_promise.specs.Written.{meant, said, spelled}
use Rattle.a2_promise.specs.Written as written
use Rattle.a2_promise_rules.proofs.StatedTerms.{not_nothing, spells_keys}
use %s.Program.{lines, names}
"""
RELATIONS = {"=": "Equal", "<>": "Other", "<": "Less", "<=": "AtMost", ">": "More", ">=": "AtLeast"}
OPERATIONS = {"|": "BitOr", "^": "BitXor", "&": "BitAnd", "+": "Plus", "-": "Minus", "*": "Times", "/": "Over", "%": "Modulo"}
NOTHING = "(_, refl, refl)"
SOMETHING = "(_, refl, (refl, refl, not_nothing _ refl))"
UNDERWAY = "(_, _, refl, refl, refl)"
SPELT = "record {{ rest = _; inner = {0}; begins = refl; is_quoted = refl; spells = spells_keys {0} {1} refl }}"


def infix(sign):
    if sign in RELATIONS:
        return f"(join.Compare relation.{RELATIONS[sign]})"
    return f"(join.Apply operation.{OPERATIONS[sign]})" if sign in OPERATIONS else f"join.{sign.capitalize()}"


def part_term(part):
    if isinstance(part, list):
        return f"(token.{part[0]} {codes(part[1])})"
    if isinstance(part, tuple):
        return written(part)
    return str(part) if isinstance(part, int) else codes(part)


def written(tree):
    """Returns a tree as a term."""
    form, *parts = tree
    if form == "atom":
        return f"(written.atom atom.{parts[0]})"
    terms = [infix(parts.pop(0))] if form == "joined" else []
    return f"(written.{form} {' '.join(terms + [part_term(it) for it in parts])})"


def change(form, _, *parts):
    if form == "held":
        return f"told.held atom.{parts[0]}"
    return f"told.{form} {' '.join(part_term(it) for it in parts)}"


def terms_of(promise):
    """Returns a promise as `Terms`."""
    fields = [f"address = {promise.address}"]
    for name, clauses in (("wanted", promise.wanted), ("promised", promise.promised)):
        fields.append(f"{name} = {list_of(phrase(clause.expr) for clause in clauses)}")
    fields += [f"{it.lower()} = {flag(it in promise.changes.registers)}" for it in "AXY"]
    fields.append(f"ranges = {list_of(f'({first}, {last})' for first, last in promise.changes.ranges)}")
    takes = list_of(list_of(line.says) for line in promise.lines if line.verb == "takes")
    return fields + ["prints = []", f"takes = {takes}"]


class Told:
    """The module of a promise, among the proofs of its source: its text, and what its marked lines check."""

    def __init__(self, promise, proofs):
        self.module = f"Told_{promise.name}"
        self.marks = []
        facts = iter(promise.wanted), iter(promise.promised)
        self.clauses = dict(zip(FACTS, facts))
        self.text = f"-- Written by a2lab prove: what the lines before {promise.name} say.\n" + USES % proofs
        for k, line in enumerate(promise.lines, 1):
            self.text += f"\n-- line {line.number}\n" + self.line(k, line)
        self.text += self.end(promise)

    def mark(self, says):
        self.marks.append(says)
        return f"-- @{len(self.marks) - 1}"

    def line(self, k, line):
        """Returns a line: what it is, that it is there, and what a fact says."""
        where = f"line {line.number}: {line.text.strip()}"
        if line.verb in FACTS:
            text = f"abbrev fact_{k} : written.Written\nfact_{k} = {written(line.says)}\n\n"
            what, proof = f"told.{line.verb} fact_{k}", "(refl, refl)"
        elif line.verb == "changes":
            text, what = "", f"told.changes {list_of(change(*it) for it in line.says)}"
            proof = SOMETHING if line.says else NOTHING
        elif line.verb == "takes":
            text, what = "", f"told.takes {list_of(line.says)}"
            proof = SPELT.format(codes(line.text[line.text.index('"') + 1 : line.text.rindex('"')]), list_of(line.says))
        else:
            text, what, proof = "", f"told.underway (tokens {codes(line.text)})", UNDERWAY
        text += f"abbrev line_{k} : Line\nline_{k} = {what}\n\n"
        text += f"is_line_{k} : IsLine names {codes(line.text)} line_{k}\nunfolding tokens spelled fits\n"
        text += f"is_line_{k} = {proof} {self.mark(where)}\n"
        if line.verb in FACTS:
            says = phrase(next(self.clauses[line.verb]).expr)
            text += f"\nsays_{k} : said fact_{k} ≡ {says}\nunfolding meant\nsays_{k} = refl {self.mark(where)}\n"
        return text

    def end(self, promise):
        count = range(1, len(promise.lines) + 1)
        text = "\nabbrev pub terms : Terms\nterms = record {\n" + "".join(f"  {it};\n" for it in terms_of(promise)) + "}\n"
        text += f"\npub tells : IsPromisedBy lines names {promise.line - 1} {codes(promise.name)} terms\nunfolding tokens meant\n"
        fields = ["line = _", "stands = refl", "is_label = refl", f"told = {list_of(f'line_{k}' for k in count)}"]
        fields += [f"are_lines = {''.join(f'(is_line_{k}, ' for k in count)}tt{')' * len(count)}", "is_promise = refl", "address = refl"]
        mark = self.mark(f"line {promise.line}: the lines before {promise.name}")
        return text + f"tells = record {{ {'; '.join(fields + ['are_terms = refl'])} }} {mark}\n"
