"""What the benches have in common: the loads, and how host instructions are counted."""
import re
import subprocess
import sys

# The sources of loads/ that call no service: those that were among the programs by which pairs of instructions were chosen to be one
# kind, and those that were not.
CHOSEN_BY = ("primes", "memcopy", "calls", "page", "sort", "rule", "search", "gcd", "hex")
OTHERS = (
    "sieve", "mult", "text", "divide", "crc", "digits", "queue", "life", "numbers", "pack", "queens", "random", "strings", "wide", "merge", "dates")


def host_instructions(words, statuses, folder=None):
    """Returns the host instructions of a process in this folder. Ends the script if its exit status is none of these."""
    tool = ["valgrind", "--tool=callgrind", "--callgrind-out-file=/dev/null"]
    done = subprocess.run([*tool, *words], stdin=subprocess.DEVNULL, capture_output=True, text=True, errors="replace", cwd=folder)
    found = re.search(r"Collected : (\d+)", done.stderr)
    if done.returncode not in statuses or not found:
        sys.exit(f"{' '.join(words)}: status {done.returncode}, and on standard error\n{done.stderr}")
    return int(found[1])
