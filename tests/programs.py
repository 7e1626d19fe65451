"""The programs of the repository as `rt ci` leaves them, and what they wrote when it ran them.

`rt ci` builds each program twice: as LLVM makes it, crates/NAME/out/NAME, and as Rattle's own compiler does. `rt run` in a program's folder
leaves the first too; `rt check` builds none.
"""
from pathlib import Path

ROOT = Path(__file__).resolve().parent.parent
BY_RATTLE = ".by-rattle"


def program(name):
    return ROOT / "crates" / name / "out" / name


def written(name):
    """What the program wrote when `rt ci` ran it, by the file that has it; as Rattle's own compiler builds it too, where that does."""
    out = ROOT / "crates" / name / "out"
    files = [out / "stdout"]
    if (out / f"{name}{BY_RATTLE}").exists():
        files.append(out / f"stdout{BY_RATTLE}")
    return {file.name: file.read_text() for file in files}
