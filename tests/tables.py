#!/usr/bin/env python3
"""The tables that nobody types: "Counts" of docs/PROOFS.md and "The edits" of docs/EDITS.md, from the tree, and "Check times" of
docs/PROOFS.md, from a run of the gate.

    tests/tables.py write [LOG]     puts the first two into their pages, and the third too where LOG is given, what a gate printed
    tests/tables.py times FOLDER    prints the third; the gate does so, with the folder of what its parts printed
    tests/tables.py clock FILE      passes on what it reads, and writes it to FILE, each line behind the seconds at which it came

test_tables.py holds the first two to the tree.
"""
import os
import re
import subprocess
import sys
import time
from pathlib import Path

ROOT = Path(__file__).resolve().parent.parent
PROOFS, EDITS = ROOT / "docs/PROOFS.md", ROOT / "docs/EDITS.md"
# Answers and invariants of a function stand in a folder of its own.
OF_FUNCTION = re.compile(r"proofs/(.*)/(?:Answers|Invariants)\.antt")


def table(heads, rows):
    """Markdown; a number has commas between its thousands."""
    row_lines = [f"| {' | '.join(f'{cell:,}' if isinstance(cell, int) else cell for cell in row)} |" for row in [heads, *rows]]
    row_lines.insert(1, "|---" * len(heads) + "|")
    return "\n".join(row_lines) + "\n"


def listed(root):
    """The crates that crates.txt lists, in its order, and what each uses."""
    return {name: used.split() for name, used in re.findall(r"^(\w+)(?: [^:#\n]*)?:([^#\n]*)", (root / "crates.txt").read_text(), re.MULTILINE)}


def crates(root):
    """The crates that crates.txt lists, in its order."""
    return list(listed(root))


def below(root, name):
    """A crate and those of the repository below it."""
    found, left, uses = set(), [name], listed(root)
    while left:
        name = left.pop()
        if name in uses and name not in found:
            found.add(name)
            left += uses[name]
    return found


def edits_of(crate):
    return sorted(crate.glob("must-fail/*.edit"))


def lines(folder, pattern):
    return sum(path.read_text().count("\n") for path in folder.glob(pattern))


def counts(root):
    """The section on the tree at `root`."""
    rows = []
    for name in crates(root):
        crate = root / "crates" / name
        rows.append([name, lines(crate, "src/**/*.rt"), lines(crate, "specs/**/*.antt"), lines(crate, "proofs/**/*.antt"), len(edits_of(crate))])
    rows.append(["all", *map(sum, list(zip(*rows))[1:])])
    return (
        f"## Counts\n\nLines of every kind, with comments and blank lines; `tests/` has {lines(root / 'tests', '*.py'):,} lines of Python beside them. "
        "[EDITS.md](EDITS.md) says how an edit is tried.\n\n"
        + table(["crate", "code", "specs", "proofs", "edits"], rows)
    )


def place(words):
    """Where an edit is refused first: the function and its goal, or the file of proofs/ and the law."""
    path, name = words.split(" ")
    function = OF_FUNCTION.fullmatch(path)
    of = function[1].replace("/", "::") if function else path.removeprefix("proofs/")
    return f"`{of}`: `{name}`"


def edits(root):
    """The section on the edits of the tree at `root`: what each says of itself in its first line, and where it is refused."""
    text = "## The edits\n"
    for name in crates(root):
        rows = []
        for path in edits_of(root / "crates" / name):
            words = path.read_text()
            first = re.search(r"^# first error: (.*)$", words, re.MULTILINE).group(1)
            rows.append([f"`{path.stem}`", words.split("\n", 1)[0].removeprefix("# ").replace("|", "\\|"), place(first)])
        if rows:
            text += f"\nOf `crates/{name}`:\n\n" + table(["edit", "the wrong version", "refused first at"], rows)
    return text


def machine():
    """How many processors this machine has, and which."""
    found = re.search(r"^model name\s*: (.*)$", Path("/proc/cpuinfo").read_text(), re.MULTILINE)
    return f"{os.cpu_count()} processors ({found.group(1) if found else 'of another kind'})"


def commit(root):
    """The commit that is checked out, and whether anything differs from it."""

    def git(*words):
        return subprocess.run(["git", *words], cwd=root, check=True, stdout=subprocess.PIPE, stderr=subprocess.DEVNULL, text=True).stdout.strip()

    try:
        return git("rev-parse", "--short", "HEAD") + (" and what is not committed" if git("status", "--porcelain") else "")
    except (OSError, subprocess.CalledProcessError):
        return "an unknown commit"


def clock(file):
    """Passes on what it reads; the file gets each line behind the seconds since the beginning."""
    began = time.monotonic()
    with open(file, "wb") as lines:
        for line in sys.stdin.buffer:
            sys.stdout.buffer.write(line)
            sys.stdout.buffer.flush()
            lines.write(b"%.1f %b" % (time.monotonic() - began, line))


def times(folder):
    """The section on a run of the gate. `folder` has what the part `proofs` printed, by the clock, and a line for each part in the file `parts`.

    rt tells no times: of a crate it is told here when rt said that it is proved, or that an earlier run on this machine had proved it."""
    parts = [line.split() for line in (folder / "parts").read_text().splitlines()]
    proofs = (folder / "proofs.clock").read_text(errors="replace")
    total = sum(int(took) for *_, took in parts)
    passed, failed = (sum(int(part[i]) for part in parts) for i in (1, 2))
    proved = re.findall(r"^([0-9.]+) rt: (\w+) (?:proved$|is (kept): an earlier run)", proofs, re.MULTILINE)
    tried = re.findall(r"^[0-9.]+ rt: must-fail (\S+)\.edit: refused", proofs, re.MULTILINE)
    told, due = [len(proved), len(tried)], [len(crates(ROOT)), len(list(ROOT.glob("crates/*/must-fail/*.edit")))]
    if not failed and told != due:
        raise SystemExit(f"rt tells of {told} crates and edits, and there are {due}")
    return (
        f"## Check times\n\nOne run of the gate on {commit(ROOT)}, {machine()}: {passed} passed, {failed} failed, {total // 60} min {total % 60} s. "
        f"Wrong versions refused: {len(tried)}.\n\n"
        + table(["part", "passed", "failed", "seconds"], [[name, *map(int, numbers)] for name, *numbers in parts])
        + "\n"
        + table(["crate", "proved after seconds"], [[name, "kept from an earlier run" if kept else round(float(at))] for at, name, kept in proved])
    )


def section(text, head):
    """A section of a page, from its head to the next one or the end."""
    found = re.search(rf"^{re.escape(head)}$.*?(?=^## |^== |\Z)", text, re.MULTILINE | re.DOTALL)
    if not found:
        raise SystemExit(f"there is no section '{head}'")
    return found.group(0).rstrip("\n") + "\n"


def replaced(page, made):
    """The page with its section of the same head as `made` replaced by it."""
    return page.replace(section(page, made.split("\n", 1)[0]), made)


def write(log):
    EDITS.write_text(replaced(EDITS.read_text(), edits(ROOT)))
    page = replaced(PROOFS.read_text(), counts(ROOT))
    PROOFS.write_text(replaced(page, section(log, "## Check times")) if log else page)


if __name__ == "__main__":
    if len(sys.argv) == 3 and sys.argv[1] == "times":
        print(times(Path(sys.argv[2])))
    elif len(sys.argv) == 3 and sys.argv[1] == "clock":
        clock(sys.argv[2])
    elif len(sys.argv) in (2, 3) and sys.argv[1] == "write":
        write(Path(sys.argv[2]).read_text() if sys.argv[2:] else None)
    else:
        sys.exit(__doc__)
