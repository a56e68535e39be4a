"""The causes of a stop, from the rows of crates/a2_machine/specs/Causes.antt."""
import re
from pathlib import Path

ROWS = Path(__file__).resolve().parent.parent / "crates/a2_machine/specs/Causes.antt"
ROW = re.compile(rb'^cause_row \w+ = row_of \(codes "([A-Z ]+)"\) (true|false)$', re.M)


def by_own_end():
    """Returns the names of the causes with which a run ends by itself, and those of the others."""
    rows = ROW.findall(ROWS.read_bytes())
    return [name for name, is_own in rows if is_own == b"true"], [name for name, is_own in rows if is_own == b"false"]
