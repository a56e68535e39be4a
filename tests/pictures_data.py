"""The shapes of the characters and the colours of pictures, as crates/a2_picture/data has them."""
import re
import sys
from pathlib import Path

DATA = Path(__file__).resolve().parent.parent / "crates/a2_picture/data"
# How many of the colours are those of lo-res.
LORES = 16


def shapes():
    """Returns the 64 shapes, each as 8 rows of 7 dots, where `#` is a dot."""
    parts = re.split(r"^= .*\n", (DATA / "font.txt").read_text(), flags=re.M)[1:]
    found = [part.split() for part in parts]
    is_whole = len(found) == 64 and all(len(it) == 8 and all(re.fullmatch("[.#]{7}", row) for row in it) for it in found)
    if not is_whole:
        sys.exit("a2_picture/data: a font has 64 shapes of 8 rows of 7 dots")
    return found


def colours():
    """Returns the colours in the order of their numbers, each as the values of red, green and blue."""
    rows = re.findall(r"^(\d+) ([0-9A-F]{6}) .+$", (DATA / "colours.txt").read_text(), re.M)
    if [int(number) for number, _ in rows] != list(range(len(rows))):
        sys.exit("a2_picture/data: the colours are not numbered from 0")
    return [bytes.fromhex(value) for _, value in rows]
