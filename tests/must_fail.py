#!/usr/bin/env python3
"""Holds each wrong version in crates/NAME/must-fail/*.edit to the place where it says that it is refused, and ends with 'N passed, M failed'.

    tests/must_fail.py --said FILE                      what `rt ci` printed, of every edit: the gate does so
    tests/must_fail.py [NAME | NAME/EDIT ..]            tries the edits of these crates by `rt must-fail`; of all, where none is named
    tests/must_fail.py --whole NAME | NAME/EDIT ..      tries each of these from nothing
    tests/must_fail.py --place [NAME | NAME/EDIT ..]    as without it, but prints the place where each is refused and holds it to none

`rt ci` tries each edit over what it proved of the unedited crate, and prints, where it refuses one, the beginning of the first error that is not
for want of a name. An edit passes where that error is at the declaration that the edit names (edits.py).

--whole makes a repository of the crate with the edit and the crates below it, and runs `rt ci` there. The whole log of the prover is then there:
the first of all its errors must be at that place, and be a fact and no name that is missing; it is printed, to be read. Every edit is tried so once,
before it lands. --root: another repository.
"""
import argparse
import re
import shutil
import subprocess
import sys
import tempfile
from pathlib import Path

from edits import Bad, apply, edited, error_in, hold_first_error, hold_line, place_of
from tables import below

LINE = re.compile(r"^rt: must-fail (\w+)/(\S+)\.edit: (.*)$", re.MULTILINE)


def rt(*words, cwd):
    """The status with which rt ends, and what it says."""
    ended = subprocess.run(["rt", *words], cwd=cwd, stdin=subprocess.DEVNULL, stdout=subprocess.PIPE, stderr=subprocess.STDOUT, text=True, errors="replace")
    return ended.returncode, ended.stdout


def lines_of(said):
    """What rt printed of each edit, by the edit's name."""
    return {f"{crate}/{edit}": line for crate, edit, line in LINE.findall(said)}


def crate_of(edit, root):
    return root / "crates" / edit.relative_to(root).parts[1]


def name_of(edit, root):
    return f"{crate_of(edit, root).name}/{edit.stem}"


def held(edit, root, lines):
    """Where rt refused an edit, if that is where the edit says."""
    line = lines.get(name_of(edit, root))
    if line is None:
        raise Bad("rt did not try it")
    return f"refused first at {hold_line(edit, line, crate_of(edit, root))}"


def placed(edit, root, lines):
    """Where rt refused an edit, in the words of its line."""
    folder = crate_of(edit, root)
    return f"# first error: {place_of(error_in(lines[name_of(edit, root)]), folder, edited(edit, folder))[0]}"


def whole(edit, root):
    """Tries an edit from nothing: where it was refused first, and the prover's words there."""
    folder = crate_of(edit, root)
    with tempfile.TemporaryDirectory() as room:
        room = Path(room).resolve()
        listed = [line for line in (root / "crates.txt").read_text().splitlines() if re.split(r"[ :]", line)[0] in below(root, folder.name)]
        (room / "crates.txt").write_text("\n".join(listed) + "\n")
        for name in below(root, folder.name):
            shutil.copytree(root / "crates" / name, room / "crates" / name, ignore=shutil.ignore_patterns("out", "must-fail"))
        if (root / "HANDLES").exists():
            shutil.copy(root / "HANDLES", room)
        crate = room / "crates" / folder.name
        apply(edit, crate)
        # rt ci refuses first what is not laid out
        status, said = rt("fmt", cwd=crate)
        if status:
            raise Bad(f"BAD EDIT: it cannot be read: {said}")
        status, said = rt("ci", cwd=room)
        if status == 0:
            raise Bad("NOT REFUSED: the crate is still proved with this edit")
        found = re.search(rf"^== {folder.name}\n(.*?)^rt: {folder.name} NOT PROVED$", said, re.MULTILINE | re.DOTALL)
        if status != 1 or not found or not re.search(r"^logic=not-proved", found[1], re.MULTILINE):
            raise Bad(f"BAD EDIT: it did not reach the prover (exit {status}); what was said ends: {' / '.join(said.splitlines()[-6:])}")
        where, error = hold_first_error(edit, found[1], crate)
    return f"from nothing refused first at {where}:\n{error}"


def told(name, work, *words):
    """Does the work and prints a line on it. Returns whether it was done."""
    try:
        done, said = True, work(*words)
    except Exception as why:  # whatever goes wrong fails this edit, and no other
        done, said = False, f"FAILED: {why if isinstance(why, Bad) else repr(why)}"
    print(f"{name}: {said}", flush=True)
    return done


def chosen(root, names):
    """The edits to be held: those of these names and crates, or all, where none is named."""
    edits, known = {}, set()
    for edit in sorted(root.glob("crates/*/must-fail/**/*.edit")):
        name = name_of(edit, root)
        if name in edits:
            raise Bad(f"two edits are named {name}")
        known |= {name.split("/")[0], name}
        edits[name] = edit
    if not edits or set(names) - known:
        raise Bad(f"there is no such edit: {' '.join(sorted(set(names) - known)) or 'crates/*/must-fail/*.edit'}")
    return {name: edit for name, edit in edits.items() if not names or {name, name.split("/")[0]} & set(names)}


def main(arguments):
    parser = argparse.ArgumentParser()
    how = parser.add_mutually_exclusive_group()
    how.add_argument("--said", type=Path)
    how.add_argument("--whole", action="store_true")
    how.add_argument("--place", action="store_true")
    parser.add_argument("--root", type=lambda path: Path(path).resolve(), default=Path(__file__).resolve().parent.parent)
    parser.add_argument("names", nargs="*")
    words = parser.parse_args(arguments)
    if words.whole and not words.names:
        parser.error("--whole wants names: it takes minutes for each edit")

    try:
        edits = chosen(words.root, words.names)
    except Bad as why:
        print(f"{why}\n0 passed, 1 failed")
        return 1
    if words.whole:
        done = [told(name, whole, edit, words.root) for name, edit in edits.items()]
    else:
        if words.said:
            said = words.said.read_text(errors="replace")
        else:
            _, said = rt("must-fail", *sorted({name.split("/")[0] for name in edits}), cwd=words.root)
            # what was said of no edit
            print(LINE.sub("", said).strip())
        lines = lines_of(said)
        done = [told(name, placed if words.place else held, edit, words.root, lines) for name, edit in edits.items()]
    print(f"{sum(done)} passed, {len(done) - sum(done)} failed")
    return 0 if all(done) else 1


if __name__ == "__main__":
    sys.exit(main(sys.argv[1:]))
