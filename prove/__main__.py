"""Proves what the routines of a source promise in comments.

    ./a2lab prove F [ROUTINE..]

F is a source file, or - for standard input. Without names, all routines with promises are proved. Each gets one line. See
docs/manual/promises.md, "By the prover".

Exit status: 0 each is proved, 1 F or a line of a promise has errors, or is outside what can be proved, 2 bad arguments, 4 F cannot be
read, 6 one is not proved, 7 there is no kit, or its rules are not proved.
"""

import sys
from pathlib import Path

sys.dont_write_bytecode = True
TOP = Path(__file__).resolve().parent.parent
sys.path.insert(0, str(TOP))

from prove import kit  # noqa: E402
from prove.judging import Judge, prove, text_of  # noqa: E402
from prove.source import Unread  # noqa: E402


def stop(status, says):
    print(f"a2lab prove: {says}", file=sys.stderr)
    sys.exit(status)


def tell(says):
    print(f"a2lab prove: {says}", file=sys.stderr, flush=True)


def source_of(file):
    try:
        return text_of("/dev/stdin" if file == "-" else file)
    except OSError as fault:
        stop(4, f"cannot read {file}: {fault.strerror}")


def main(words):
    if words in (["--help"], ["-h"], ["help"]):
        print(__doc__.strip())
        return 0
    if not words or any(it.startswith("-") and it != "-" for it in words):
        stop(2, "usage: ./a2lab prove F [ROUTINE..]")
    try:
        judge = Judge(source_of(words[0]), words[0])
    except Unread as it:
        return it.status
    unknown = [it for it in words[1:] if it not in {label for label, _ in judge.found}]
    if unknown:
        stop(2, f"{words[0]} has no routine {unknown[0]} with a promise")
    if not judge.found:
        stop(1, f"{words[0]} promises something only of its run; a2lab promise judges that")
    judge.prepare(words[1:])
    try:
        prove([judge], lambda: kit.room_of(TOP, tell))
    except kit.NoKit as fault:
        stop(7, str(fault))
    lines, status = judge.report()
    print("\n".join(lines))
    return status


if __name__ == "__main__":
    sys.exit(main(sys.argv[1:]))
