"""Terms of the prover's language as texts; a known number is an int."""

import re

# S when a routine is entered.
S = 0xFD


def is_closed(text):
    """Returns whether a text is in one pair of parentheses."""
    depth = 0
    for at, c in enumerate(text):
        depth += (c == "(") - (c == ")")
        if depth == 0:
            return at == len(text) - 1 and text[0] == "("
    return False


def par(term):
    """Returns a term as an argument."""
    text = str(term)
    return text if re.fullmatch(r"[\w.]+", text) or is_closed(text) else f"({text})"


def bare(term):
    """Returns a term without parentheses around it."""
    text = str(term)
    while text.startswith("(") and is_closed(text):
        text = text[1:-1]
    return text


def add(*terms):
    if all(isinstance(it, int) for it in terms):
        return sum(terms)
    return "(" + " + ".join(str(it) for it in terms) + ")"


def modulo(term, n=256):
    return term % n if isinstance(term, int) else f"({term} % {n})"


def flag(is_set):
    """Returns whether a flag is set."""
    return "true" if is_set else "false"


def list_of(items):
    return "(" + "".join(f"{it} ∷ " for it in items) + "[])"


def codes(text):
    """Returns a text as the list of its bytes."""
    if all(" " <= c <= "~" and c not in '"\\' for c in text):
        return f'(codes "{text}")'
    return list_of(text.encode("latin-1"))


# Parts of worlds, as a promise names them.
PLACES = (
    (r"\(stepped code .*?\)\.registers\.([axy])\b", lambda m: m[1].upper()),
    (r"ram_byte \(stepped code .*?\)\.memory (\d+)", lambda m: f"${int(m[1]):02X}"),
    (r"\b(?:ram_byte )?w\.memory(?:\.plain)? (\d+)", lambda m: f"old ${int(m[1]):02X}"),
    (r"\b(?:ram_byte )?[uv]\d+\.memory(?:\.plain)? (\d+)", lambda m: f"${int(m[1]):02X}"),
    (r"\bw\.registers\.([axy])\b", lambda m: "old " + m[1].upper()),
    (r"\b[uv]\d+\.registers\.([axy])\b", lambda m: m[1].upper()),
    (r"\bone_if w\.registers\.flags\.([nvzc])\b", lambda m: "old " + m[1].upper()),
)


def in_words(text):
    """Returns a term in the words of a promise, as far as possible."""
    text = " ".join(text.replace("`", "").split())
    for pattern, words in PLACES:
        text = re.sub(pattern, words, text)
    return text
