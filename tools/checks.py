"""What the scripts share that compare what the program does with what it has to do."""
import difflib
import importlib.machinery
import importlib.util
import os
import subprocess
import sys

from crates import BUILT, TOP

# How long a call may take, in seconds.
LONGEST = 120


def tool(name):
    """A script of tools/ as a module."""
    loader = importlib.machinery.SourceFileLoader(name, str(TOP / "tools" / name))
    it = importlib.util.module_from_spec(importlib.util.spec_from_loader(name, loader))
    sys.dont_write_bytecode = True
    loader.exec_module(it)
    return it


def program_of(words):
    """The program that is named first in these words, or the one that was built. Where it is not there, nothing can be tried."""
    program = os.path.realpath(words[0] if words else BUILT)
    if not os.access(program, os.X_OK):
        sys.exit(f"there is no program {program}: tools/build builds it")
    return program


def run(words, **how):
    """A call that has ended, with what it wrote."""
    streams = {} if "stdout" in how or "stderr" in how else {"capture_output": True}
    return subprocess.run(words, timeout=LONGEST, check=False, **streams, **how)


def unlike(wanted, written):
    """The lines in which two texts differ."""
    return difflib.unified_diff(wanted.splitlines(), written.splitlines(), "wanted", "written", lineterm="")


def end(passed, failed):
    """Prints the last line; returns the status: 0 where something passed and nothing failed."""
    print(f"{passed} passed, {failed} failed")
    return 0 if passed and not failed else 1
