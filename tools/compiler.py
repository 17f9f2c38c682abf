"""The toolchain: where it lies, and how its compiler is called by the scripts that `rt` can't serve. Its private flags stand here alone."""
import os
import shutil
import subprocess
import sys
from pathlib import Path

TARGET = "x86_64-unknown-linux-gnu"
# What `rt` builds of a crate beside its folder.
RLIB = "out/rlib"


def kit():
    """The folder of the toolchain."""
    rt = shutil.which("rt")
    return Path(rt).resolve().parent.parent if rt else sys.exit("there is no toolchain: rt is not found")


def processors():
    """How many there are for this process."""
    return len(os.sched_getaffinity(0))


def free_memory():
    """In bytes."""
    lines = Path("/proc/meminfo").read_text(encoding="utf-8").splitlines()
    return next(1024 * int(line.split()[1]) for line in lines if line.startswith("MemAvailable:"))


def libraries(names, place):
    """The arguments that name a crate's libraries, each in the folder that `place` says, or, where that is None, in the toolchain's."""
    folders = {name: place(name) or kit() / "rlibs" for name in ["std", *names]}
    words = [word for name, folder in folders.items() for word in ("--extern", f"{name}={folder / name}.rlib")]
    return words


def found_in(folders):
    """The arguments that name where the libraries lie that these stand on."""
    return [word for folder in dict.fromkeys([kit() / "rlibs", *folders]) for word in ("-L", f"dependency={folder}")]


def rattle(command, root, crate, words, jobs=1):
    """The call that proves a crate, from its folder: `check`, or `build`, which puts it beside those below it."""
    logic = ["--antt-project", kit() / "rattle/logic/antt-project.json", "--logic-built", kit() / "logic_built"]
    named = ["--crate-name", crate, "--links", f"{crate}=", "--jobs", str(jobs)]
    return [kit() / "bin/rattle", command, root, *words, *logic, *named]


def program(path):
    """The arguments by which a build makes the code of a program there."""
    return ["--toolchain", kit() / "toolchain", "--backend", "llvm", "-o", path]


def link(code, path):
    """Links the code of a program; returns what was said where that fails."""
    words = [kit() / "bin/rattle-link", "--target", TARGET, "--toolchain", kit() / "toolchain", "-o", path, code]
    words += [kit() / "c/libos_c.a", kit() / "c/liblibc_c.a"]
    ran = subprocess.run(words, stdout=subprocess.PIPE, stderr=subprocess.STDOUT, text=True, errors="replace", check=False)
    return ran.stdout if ran.returncode else None


def clang():
    """The call of the toolchain's LLVM on a file of its code."""
    return [kit() / "toolchain/bin/clang", f"--target={TARGET}", "-x", "ir"]
