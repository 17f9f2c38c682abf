"""The crates of the repository, and where things are in it."""
from pathlib import Path

TOP = Path(__file__).resolve().parent.parent
# The program, where `tools/build` and `rt` put it.
BUILT = TOP / "crates/revdbg/out/revdbg"


def uses():
    """The crates of `crates.txt`, each with the libraries that it uses, those of the toolchain among them."""
    lines = (TOP / "crates.txt").read_text(encoding="utf-8").splitlines()
    rows = [line.partition(":") for line in lines if ":" in line and not line.startswith("#")]
    return {head.split()[0]: tail.split() for head, _, tail in rows}
