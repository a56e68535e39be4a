"""Programs of Debian's packages that tests use."""
import os
import shutil
import subprocess


def has(part, program, *packages):
    """Returns whether a program is there, after an attempt to install its packages. If it is not, says that the part of the gate leaves it
    out."""
    return is_there(part, program, lambda: shutil.which(program), packages)


def has_feature(part, feature, *packages):
    """Returns whether Emacs has a feature, as `has` does for a program."""
    command = ["emacs", "--batch", "--eval", f'(unless (locate-library "{feature}") (kill-emacs 1))']
    is_found = lambda: shutil.which("emacs") and not subprocess.run(command, capture_output=True).returncode
    return is_there(part, f"{feature} for Emacs", is_found, packages)


def is_there(part, name, test, packages):
    """Returns whether a test succeeds, at least after an attempt to install packages."""
    if not test() and os.geteuid() == 0:
        subprocess.run(["apt-get", "-qq", "install", "-y", *packages], capture_output=True)
    is_found = bool(test())
    if not is_found:
        print(f"LEFT OUT: {part}: {name} is not installed (apt-get install {' '.join(packages)})")
    return is_found
