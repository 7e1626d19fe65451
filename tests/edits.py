"""A must-fail edit: how it is made in a copy of its crate, and how what rt or the prover then says is held to it.

An edit is a wrong version of a crate, in its code (src/) or in a definition (specs/). Its line `# first error: FILE NAME` says which
declaration of proofs/ the prover must refuse first: an answer for a goal of a function, whether one is written or not, an invariant, or a law.
The place is held here, and the words by which the prover says that a proof no longer fits the code. That the declaration is a fact which the
edit makes false is for a person to read in the prover's log.
"""
import re

# Words of a first error that tell of no fact: something that a proof names is not there any more, a function has other goals than its proof
# answers, or the declaration rests on one that was refused.
NO_FACT = ("that can be named from here", "has no field", "is not in scope", "expected type `goal.", "was not admitted")
REFUSED = "refused, as it must be"
PRINTED = 160  # as many characters of an error does rt print of an edit
ERROR = re.compile(r"(?:\./)?(\S+?):\d+:\d+: error: `([^`]+)`: .*")
# A goal for which no answer is written: where the code owes it, and its name, which rt may have cut.
GOAL = re.compile(r"note: (?:\./)?(src/\S+?)\.rt:(\d+):\d+: it is not proved that .*?\(`([^`]+)(?:(`\)).*)?")
# A law that an `impl` of a trait owes, and a search of which no proof came: where the search stands, and the law's name; and the line of such a search.
LAW = re.compile(r"(?:\./)?(src/\S+?)\.rt:(\d+):\d+: error: `(\w+)-value`: `search`: no proof of .*")
SEARCHED = re.compile(r"^( +)ghost (\w+) = \{ Prim\.search rules \};$")
# A function, or a constant of an `impl` of a trait, which is proved as one; and what it stands in.
FN = re.compile(r"^( *)(?:pub(?:\(\w+\))? )?(?:(?:const )?(?:unsafe )?(?:extern \"C\" )?fn|const(?= \w+:)) (\w+)")
HEAD = re.compile(r"(?:pub(?:\(\w+\))? )?(?:trait (?P<own>\w+)|impl(?:<[^{]*?>)? (?:(?P<trait>\w+)[^{]* for )?(?P<type>\w+))")


class Bad(Exception):
    """Why an edit does not pass."""


def edited(edit, folder):
    """The texts of the files that an edit changes in the crate at `folder`, by rt's rules: each `old:` text is in its file exactly once."""
    path = old = None
    pairs, texts = 0, {}
    for line in edit.read_text().split("\n"):
        if line.startswith("file: "):
            path = line.removeprefix("file: ")
        elif line.startswith("old: "):
            old = line.removeprefix("old: ")
        elif line.startswith("new:"):
            steps = path.split("/") if path else [""]
            if steps[0] not in ("src", "specs") or ".." in steps or not (folder / path).is_file():
                raise Bad(f"BAD EDIT: a 'file:' line names no file of the crate's src/ or specs/: {path}")
            text = texts.get(path) or (folder / path).read_text()
            if not old or text.count(old) != 1:
                raise Bad(f"BAD EDIT: an 'old:' text is not in {path} exactly once")
            texts[path] = text.replace(old, line.removeprefix("new:").removeprefix(" "))
            old, pairs = None, pairs + 1
    if not pairs:
        raise Bad("BAD EDIT: it has no 'old:' and 'new:' pair")
    return texts


def apply(edit, folder):
    """Makes an edit's replacements in the crate at `folder`."""
    for path, text in edited(edit, folder).items():
        (folder / path).write_text(text)


def function_at(source, number, kind=FN):
    """The name of the function that is at or before this line of a source, or begins right after its attributes; before it, if it is a method, the type,
    with the trait behind it where it is that trait's, or the trait, where it stands there. So of another item, by the kind of its line."""
    lines = source.split("\n")
    at = number - 1
    while at < len(lines) - 1 and lines[at].lstrip().startswith("#["):
        at += 1
    while at >= 0:
        found = kind.match(lines[at])
        if found:
            head = next((line for line in reversed(lines[:at]) if line[:1] not in ("", " ", "/", "#")), "")
            of = HEAD.match(head) if found[1] else None
            return [of["own"] or of["type"] + (of["trait"] or ""), found[2]] if of else [found[2]]
        at -= 1
    raise Bad(f"there is no function at line {number}")


def answers_of(path, number, source, kind=FN):
    """The file of proofs/ with the answers of the function at this line of src/, whose path is without its ending."""
    modules = [step for step in path.split("/")[1:] if step not in ("lib", "main", "mod")]
    return "/".join(["proofs", *modules, *function_at(source, number, kind), "Answers.antt"])


def place_of(error, folder, texts):
    """Where an error of the crate at `folder`, with these texts there, is, and whether the place is whole: the file of proofs/ and the declaration in
    it. `error` may be a note on a goal that has no answer, or on a law of an impl: what is refused is then the answer that is not there."""
    line = error.split("\n", 1)[0]
    law = LAW.fullmatch(line)
    if law:
        path, number, name = law.groups()
        source = texts.get(f"{path}.rt") or (folder / f"{path}.rt").read_text()
        found = SEARCHED.match(source.split("\n")[int(number) - 1])
        if not found or found[2] != name:
            raise Bad(f"there is no such law there: {line}")
        return f"{answers_of(path, int(number), source, SEARCHED)} value", True
    first, goal = ERROR.fullmatch(line), GOAL.fullmatch(line)
    if first:
        return " ".join(first.groups()), True
    if not goal:
        raise Bad(f"the first error names no declaration: {line}")
    path, number, name, end = goal.groups()
    source = texts.get(f"{path}.rt") or (folder / f"{path}.rt").read_text()
    return f"{answers_of(path, int(number), source)} {name}", end is not None


def errors_of(said, folder):
    """The lines of each error in what the prover said of the crate at `folder`; a goal that is not proved is one."""
    errors, open_error = [], False
    for line in said.replace(f"{folder}/", "").splitlines():
        begins = re.match(r"(\S+: )?error\b", line) is not None or GOAL.fullmatch(line) is not None
        # what follows an error's first line is indented
        open_error = begins or open_error and line.startswith(" ")
        if begins:
            errors.append(line)
        elif open_error:
            errors[-1] += f"\n{line}"
    return errors


def named_in(edit):
    """The place that an edit says of itself."""
    named = re.search(r"^# first error: (\S+ \S+)$", edit.read_text(), re.MULTILINE)
    if not named:
        raise Bad("BAD EDIT: it does not say where it must be refused")
    if not named.group(1).startswith("proofs/"):
        raise Bad("BAD EDIT: a fact is refused in proofs/, and it names another place")
    if re.search(r"^file: proofs/", edit.read_text(), re.MULTILINE):
        raise Bad("BAD EDIT: it changes a proof, and not the code or a definition")
    return named.group(1)


def hold(edit, error, folder, texts, is_cut=False):
    """Holds an error of the crate at `folder`, with these texts there, to the place that the edit names; returns it. Where rt cut the line, a goal's
    name may lack its end."""
    named = named_in(edit)
    place, is_whole = place_of(error, folder, texts)
    if place != named and (is_whole or not is_cut or not named.startswith(place)):
        raise Bad(f"refused first at {place}, not at {named}")
    for words in NO_FACT:
        if words in error:
            raise Bad(f"the proof no longer fits the code ({words}): {error.splitlines()[0]}")
    return named


def hold_first_error(edit, said, folder):
    """Holds the first of all errors in what the prover said of the crate at `folder`, where the edit is made; returns its place and its words."""
    named_in(edit)
    errors = errors_of(said, folder)
    if not errors:
        raise Bad("the prover said no error")
    return hold(edit, errors[0], folder, {}), errors[0]


def error_in(line):
    """The error in what rt prints behind an edit's name: the beginning of the first one that is not for want of a name. Where there is none but
    those, or where only a limit was met, rt says so."""
    if not line.startswith(REFUSED):
        raise Bad(line)
    error = line.removeprefix(REFUSED).removeprefix(": ")
    if error.startswith(" ("):
        raise Bad(f"refused, but for no fact that it makes false:{error}")
    if not error:
        raise Bad("rt names no error")
    return error


def hold_line(edit, line, folder):
    """Holds what rt prints of an edit of the crate at `folder`, behind the edit's name; returns the place."""
    error = error_in(line)
    return hold(edit, error, folder, edited(edit, folder), len(error) >= PRINTED)
