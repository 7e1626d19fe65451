#!/usr/bin/env python3
"""Holds each must-fail edit to the text that it changes, without a proof: `rt ci` counts one that cannot be applied as bad, and passes all the same.

    tools/check_edits.py [NAME ..]     the edits of these crates, or of all; the last line is 'N good, M bad', and the status is 1 where M is not 0

An edit is a file crates/NAME/must-fail/EDIT.edit. Each of its `old:` texts must stand exactly once in its file of src/ or specs/, as the pairs before it
left it, and the file must differ from today's in the end. The edit says in a first line what is wrong with that version, and in a line `first error: FILE NAME`
where it must be refused: both are comments. FILE is the file of the crate's proofs/ with the answers of a function, or with the law NAME, which must be there.
"""
import re
import sys
from pathlib import Path

ROOT = Path(__file__).resolve().parent.parent


def wrong(edit):
    """Says what is wrong with an edit, or nothing."""
    crate = edit.parent.parent
    path = old = first = None
    texts, said = {}, []
    for number, line in enumerate(edit.read_text(encoding="utf-8").split("\n"), 1):
        if line.startswith("# first error: "):
            first = line.removeprefix("# first error: ")
        elif line.startswith("# "):
            said.append(line)
        elif line.startswith("file: "):
            path = line.removeprefix("file: ")
        elif line.startswith("old: "):
            old = line.removeprefix("old: ")
        elif line.startswith("new:"):
            new = line.removeprefix("new:").removeprefix(" ")
            if not path or not re.match(r"(src|specs)/", path) or ".." in path or not (crate / path).is_file():
                return f"line {number}: no file of src/ or specs/: {path}"
            text = texts.get(path) or (crate / path).read_text(encoding="utf-8")
            if not old or text.count(old) != 1:
                return f"line {number}: its 'old:' text stands {text.count(old) if old else 0} times in {path}"
            texts[path], old = text.replace(old, new), None
        elif line:
            return f"line {number} is of no kind: {line[:60]}"
    if old is not None:
        return "an 'old:' text has no 'new:' text"
    if not texts or any(text == (crate / path).read_text(encoding="utf-8") for path, text in texts.items()):
        return "it leaves a file that it names as it is"
    if len(said) != 1 or not first:
        return "it has not one line on what is wrong, and one that begins '# first error: '"
    place, _, name = first.partition(" ")
    if not re.fullmatch(r"proofs/[\w+/]+\.antt", place) or not name:
        return f"its first error is in no file of proofs/: {first}"
    # (the answers of a function need no file, where each goal is proved with none)
    if place.rpartition("/")[2] not in ("Answers.antt", "Invariants.antt") and not (
        (crate / place).is_file() and re.search(rf"^ *(?:\w+ )*{re.escape(name)} :", (crate / place).read_text(encoding="utf-8"), re.MULTILINE)
    ):
        return f"there is no such law: {first}"
    return None


def main(names):
    edits = [edit for edit in sorted(ROOT.glob("crates/*/must-fail/**/*")) if edit.is_file() and (not names or edit.relative_to(ROOT).parts[1] in names)]
    bad = 0
    for edit in edits:
        why = "it does not stand right in must-fail/, or its name does not end in .edit" if edit.parent.name != "must-fail" or edit.suffix != ".edit" else wrong(edit)
        if why:
            bad += 1
            print(f"{edit.relative_to(ROOT)}: {why}")
    print(f"{len(edits) - bad} good, {bad} bad")
    return 1 if bad or not edits else 0


if __name__ == "__main__":
    sys.exit(main(sys.argv[1:]))
