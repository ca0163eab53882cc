"""The program that a check tries: the one that SJA names, or else that of tools/with_checks, which may build it."""

import functools
import os
import subprocess
import sys

TOP = os.path.dirname(os.path.dirname(os.path.abspath(__file__)))


@functools.cache
def program():
    """The path of the program, which is there. A check ends with a line that says why, if none can be made."""
    path = os.environ.get("SJA")
    if not path:
        made = subprocess.run([f"{TOP}/tools/with_checks"], stdout=subprocess.PIPE, text=True, check=False)
        path = made.stdout.strip() if made.returncode == 0 else sys.exit(made.returncode)
    return path if os.access(path, os.X_OK) else sys.exit(f"no program {path}")
