#!/usr/bin/env python3
"""Counts the places in crates/*/src that docs/DESIGN-PASS.md speaks of, by the points of that page.

    tools/places.py [COMMIT] [--list]     of that commit, or of the files as they stand; --list prints each place

1 `fields`     fields `status: u8` and `: bool`, and variants `Nothing`, of structs and enums; `answers`: functions that answer a status as a u8
2 `twins`      functions whose texts are one but for digits, names of types and names of functions; `impls`: those of them that are methods
               of traits and of impls of them, which each type owes
3 `loops`      `while` loops
4 `conversions` functions of one expression that put the fields of one struct into another, or that write out what std has: the least of two, words
               of bytes, a rotation, a comparison of slices
5 `facts`      facts that stand in the `requires` of three functions or more of a crate; `together`: lists of two or more parameters that stand,
               names and types, in four functions or more of a crate
6 `bounds`     fields `from`, `end`, `start`, `fits`, `size` of type usize or bool, which say what part of a buffer is meant, and constants that say how
               long a lent buffer is
7 `switches`   `match` and `if` on which function or strength is meant
8 `answers`    files Answers.antt, and answers that say a conversion in their own words (`let was : ..`)
"""
import re
import subprocess
import sys
from collections import defaultdict
from pathlib import Path

ROOT = Path(__file__).resolve().parent.parent
FN = re.compile(r"^( *)((?:pub(?:\([a-z]+\))? )?(?:final )?(?:unsafe )?(?:extern \"C\" )?fn (\w+).*)$")


def files(commit, suffix):
    """(path, text) of each file of crates/ with this suffix."""
    if commit is None:
        for path in sorted((ROOT / "crates").rglob("*" + suffix)):
            if "out" not in path.relative_to(ROOT).parts:
                yield str(path.relative_to(ROOT)), path.read_text()
        return
    names = subprocess.run(["git", "ls-tree", "-r", "--name-only", commit, "crates"], cwd=ROOT, stdout=subprocess.PIPE, text=True, check=True).stdout
    for name in names.split("\n"):
        if name.endswith(suffix):
            yield name, subprocess.run(["git", "show", f"{commit}:{name}"], cwd=ROOT, stdout=subprocess.PIPE, text=True, check=True).stdout


def functions(text):
    """(line, name, text) of each function of a file."""
    lines = text.split("\n")
    at = 0
    while at < len(lines):
        found = FN.match(lines[at])
        if not found:
            at += 1
            continue
        indent, end = found.group(1), at
        while end + 1 < len(lines) and lines[end] not in (indent + "}", indent + "};") and not lines[end].endswith(";\n"):
            if end > at and FN.match(lines[end]) and FN.match(lines[end]).group(1) == indent:
                end -= 1
                break
            end += 1
        yield at + 1, found.group(3), "\n".join(lines[at:end + 1])
        at = end + 1


def in_impls(text):
    """The lines of a file that stand in a trait or in an impl of one."""
    inside, found = False, set()
    for at, line in enumerate(text.split("\n"), 1):
        inside = inside and line != "}" or bool(re.match(r"(?:impl\b.* for .*|(?:pub )?trait .*)\{$", line))
        if inside:
            found.add(at)
    return found


def without_comments(text):
    return "\n".join(line for line in text.split("\n") if not line.strip().startswith("//"))


def plain(text):
    """The text with digits, names of types and the function's own name taken out."""
    text = without_comments(text)
    text = re.sub(r"\bfn \w+", "fn _", text, count=1)
    text = re.sub(r"(requires|ensures) \w+ \{", r"\1 {", text)
    text = re.sub(r"\b[A-Z]\w*\b", "T", text)
    text = re.sub(r"\"[^\"]*\"", "\"\"", text)
    text = re.sub(r"\b\w*\d\w*\b", "N", text)
    return re.sub(r"\s+", " ", text)


def count(commit):
    source = [(name, text) for name, text in files(commit, ".rt")]
    places = defaultdict(list)
    shapes, facts, together = defaultdict(list), defaultdict(list), defaultdict(list)
    for name, text in source:
        crate = name.split("/")[1]
        lines = text.split("\n")
        for at, line in enumerate(lines, 1):
            code = line.split("//")[0]
            if re.match(r"^ +(pub )?status: u8,", code) or re.match(r"^ +(pub )?\w+: bool,$", code) or re.match(r"^ +Nothing,", code):
                places["1 fields"].append(f"{name}:{at} {line.strip()}")
            if re.search(r"^\s*while ", code):
                places["3 loops"].append(f"{name}:{at} {line.strip()}")
            if re.match(r"^ +(pub )?(from|end|start|fits|size|count): (usize|bool),", code):
                places["6 bounds"].append(f"{name}:{at} {line.strip()}")
            if re.search(r"\b(match|if) (function|strength|own_field\(|chosen|number|op\b)", code) or re.search(r"KeyedFunction::\w+ =>|KtFunction::\w+ =>", code):
                places["7 switches"].append(f"{name}:{at} {line.strip()}")
        owed = in_impls(text)
        for at, fn, body in functions(text):
            place = f"{name}:{at} {fn}"
            head = body.split("\n{")[0]
            if re.search(r"-> u8\b", head) and ("status" in body or "DONE" in body):
                places["1 answers"].append(place)
            inner = without_comments(body[body.find("\n" + re.match(r" *", body).group(0) + "{"):]) if "{" in body else ""
            statements = inner.count(";")
            if re.search(r"^ *[A-Z]\w* \{", inner, re.M) and statements <= 3 and "::" not in inner.replace("Self::", "") and "(" not in re.sub(r"\w+\(\)", "", inner):
                places["4 conversions"].append(place)
            elif fn in ("least", "wide", "word_at", "half_word_at", "word_from", "word_of", "put_word", "byte_of", "rotate_left", "is_same", "all_are", "fill", "digit", "of_two", "of_four", "of_eight", "same"):
                places["4 conversions"].append(place)
            if body.count("\n") >= 2:
                shapes[plain(body)].append((place, at in owed))
            for clause in re.findall(r"requires (?:\w+ )?\{ (.*) \}", head):
                for fact in clause.split(" × "):
                    fact = fact.strip()
                    while fact.startswith("(") and fact.endswith(")"):
                        fact = fact[1:-1]
                    facts[crate, fact].append(place)
            plain_head = re.sub(r"pub\([a-z]+\) ", "", re.sub(r"\s+", " ", head))
            start = plain_head.find("(")
            parameters = re.findall(r"(\w+: [^,()]+)", plain_head[start + 1:plain_head.find(")", start)])
            parameters = [p.strip() for p in parameters if not re.match(r"(out|piece|message|customization|s|a|b|x|y)\b", p)]
            for i in range(len(parameters) - 1):
                together[crate, f"{parameters[i]}, {parameters[i + 1]}"].append(place)
    for where in shapes.values():
        if len(where) > 1:
            for place, is_owed in where:
                places["2 impls" if is_owed else "2 twins"].append(place)
    for (crate, fact), where in sorted(facts.items()):
        if len(where) >= 3:
            places["5 facts"].append(f"{crate}: {fact} ({len(where)})")
    for (crate, pair), where in sorted(together.items()):
        if len(where) >= 4:
            places["5 together"].append(f"{crate}: {pair} ({len(where)})")
    for name, text in files(commit, "Answers.antt"):
        places["8 answers"].append(name)
        for at, line in enumerate(text.split("\n"), 1):
            if "let was" in line:
                places["8 in own words"].append(f"{name}:{at}")
    return places


def main():
    words = [word for word in sys.argv[1:] if word != "--list"]
    places = count(words[0] if words else None)
    for point in sorted(places):
        print(f"{point}: {len(places[point])}")
        if "--list" in sys.argv:
            for place in places[point]:
                print(f"    {place}")


main()
