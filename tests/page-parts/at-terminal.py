#!/usr/bin/env python3
"""Runs a program at a terminal that gives it each key: at-terminal.py PROGRAM ARGUMENTS.. types standard input there, and writes what the
program shows to standard output. The exit status is the program's."""
import contextlib
import os
import pty
import subprocess
import sys
import tty

terminal, end = pty.openpty()
tty.setraw(end)
program = subprocess.Popen(sys.argv[1:], stdin=end, stdout=end, stderr=end)
os.close(end)
os.write(terminal, sys.stdin.buffer.read())
# (When the program has ended, reading is an error.)
with contextlib.suppress(OSError):
    while shown := os.read(terminal, 65536):
        sys.stdout.buffer.write(shown)
sys.exit(program.wait())
