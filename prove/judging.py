"""The answer for each routine of a source, or for the routines of several sources."""

from pathlib import Path

from . import kit, saying
from .proofs import Proof, Routine
from .refusal import Refusal
from .source import Promise, Report
from .terms import S
from .writing import PROGRAM_MARKS, Source, Written, write_crate

PROVED, NOT_PROVED, REFUSED = "PROVED", "NOT PROVED", "ERROR"
STATUS = {PROVED: 0, REFUSED: 1, NOT_PROVED: 6}
NO_STATE = "no state was found that meets `requires`"
NO_LAID_STATE = f"{NO_STATE} with the bytes of the program unchanged"


class Judge:
    """Judges the routines of a source text in a file, with a name among those that are judged together."""

    def __init__(self, text, file, name="source"):
        report = Report(text, file)
        self.program = report.program
        self.source = Source(name, text, report.lines, self.program)
        self.found = report.promises()
        self.chosen, self.answers, self.tops, self.needed = [], {}, [], {}
        self.routines = {it.address: Routine(it) for _, it in self.found if isinstance(it, Promise)}
        self.written = {}

    def prepare(self, names):
        """Judges the routines with these names, or all, as far as that is possible without the kit, and writes proofs for the rest."""
        self.chosen = [(label, it) for label, it in self.found if not names or label in names]
        promises = [it for _, it in self.chosen if isinstance(it, Promise)]
        self.look(promises)
        self.meet(promises)
        self.write_proofs([it for it in promises if it.name not in self.answers])

    def report(self):
        """Prints a line for each routine that is judged; returns the status of all."""
        judged = [(label, REFUSED, str(it)) if isinstance(it, Refusal) else (label, *self.answers[label]) for label, it in self.chosen]
        lines = [f"{label or 'a promise'}: {answer}" + (f": {why}" if why else "") for label, answer, why in judged]
        return lines, max(STATUS[answer] for _, answer, _ in judged)

    def look(self, promises):
        """Refuses what the rules do not cover, also in a routine that is called."""
        for promise in promises:
            other = self.routines[promise.address].promise
            if other is not promise:
                self.answers[promise.name] = (NOT_PROVED, f"{other.name} begins here too, and only its promise is judged")
            for clause, why in self.reasons(promise):
                self.answers.setdefault(promise.name, (REFUSED, str(Refusal(clause.line, why, clause.column))))

    @staticmethod
    def reasons(promise):
        clauses = promise.wanted + promise.promised + [it for within in promise.within for it in within.invariants]
        for clause in clauses:
            why = saying.why_no_fact(clause.expr)
            if why:
                yield clause, why
        for clause in [it for within in promise.within for it in within.measures]:
            why = saying.why_no_number(clause.expr)
            if why:
                yield clause, why

    def meet(self, promises):
        """Refuses what fails in some state, and what no state meets: anything could be proved of that."""
        for promise in promises:
            says = promise.fails or ("" if promise.met else NO_LAID_STATE if promise.is_kept else NO_STATE)
            if says:
                self.answers.setdefault(promise.name, (NOT_PROVED, says))

    # Proofs

    def write_proofs(self, promises):
        for promise in promises:
            try:
                self.write(promise.address, S)
            except Refusal as refused:
                self.answers[promise.name] = (NOT_PROVED, str(refused) if refused.line else refused.says)
        self.tops = [self.written[it.address, S] for it in promises if it.name not in self.answers]
        for top in self.tops:
            self.take(top, self.needed)

    def hear(self, said, folder):
        """Answers from what the kit said about the crate in a folder."""
        answers = kit.Answers(said, folder, self.source.name)
        for top in self.tops:
            self.answers[top.routine.name] = self.answer(top, answers)

    def take(self, written, needed):
        """Takes the proofs that a proof depends on, and then the proof itself."""
        for call in sorted(written.calls):
            self.take(self.written[call], needed)
        needed[written.routine.promise.address, written.s] = written

    def write(self, address, s):
        """Writes the proof of a routine, and before it those of the routines that it calls."""
        if (address, s) in self.written:
            return
        routine = self.routines[address]
        for clause, why in self.reasons(routine.promise):
            raise Refusal(clause.line, why, clause.column)
        proof = Proof(self.program, self.routines)
        while True:
            routine.stack.setdefault(s, set())
            text = proof.proof_of(routine, s)
            missing = [call for call in sorted(proof.calls) if call not in self.written]
            for call in missing:
                self.write(*call)
            used = {a for a in proof.touched if 0x100 <= a <= 0x100 + s}
            if not missing and used <= routine.stack[s]:
                break
            routine.stack[s] |= used
        known = (text, list(proof.marks), proof.ways, routine.changed(s), set(proof.calls))
        self.written[address, s] = Written(self.source, routine, s, *known)

    def answer(self, top, answers):
        needed = {}
        self.take(top, needed)
        if answers.is_proved(top, needed.values()):
            return PROVED, ""
        reasons = answers.misread("Program", PROGRAM_MARKS) + answers.misread(top.told.module, top.told.marks)
        reasons += answers.unmet(top)
        reasons += [reason for it in needed.values() for reason in answers.reasons(it)]
        return NOT_PROVED, "; ".join(reasons[:2]) or f"the kit's output is in {answers.keep(answers.folder / 'said')}"


def prove(judges, room_of):
    """Makes the kit check what these have written, all in one crate, because each check begins by reading everything below the rules."""
    asking = [it for it in judges if it.tops]
    if asking:
        folder = room_of()
        write_crate(folder, [(it.source, it.needed) for it in asking])
        said = kit.check(folder)
        for it in asking:
            it.hear(said, folder)


def text_of(path):
    """Returns the text of a source file, with one character for each byte."""
    return Path(path).read_bytes().decode("latin-1")
