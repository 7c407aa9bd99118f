#!/usr/bin/env python3
"""Respells the repository's own definitions and lemmas: words in snake case, a dash only between two names.

Run once at the top, after the kit's port.py. A name is respelled everywhere in the .antt files, comments aside, and in the clauses and
ghost imports of the .rt files. Names of src/, goals and steps that Rattle makes, strings and comments stay as they are.
"""
import os
import re
import sys

WORDS = {"length", "append", "take", "drop", "map", "set", "get_or", "reverse", "sum"}
# definitions whose names are plain words too, in lemmas of which they are meant as such
PLAIN = {"after", "back", "is", "from", "more", "one", "two", "there", "within", "here", "again", "less", "left", "rest", "next", "none", "some", "first", "last", "found", "low", "high", "with", "on", "in", "room", "push"}
SIGNATURE = re.compile(r"^( *)((?:abbrev |unfoldable )?(?:pub )?(?:abbrev |unfoldable )?(?:data |record )?)([^\s:(){}]+)(?: [({].*)? : ")
NAME = re.compile(r"[^\s(){}\[\].;,\"⌜⌝|@]+")
# names that would be those of fields or functions of src/
OTHERWISE = {"operand-count": "count_of_operands", "leaf-count": "count_of_leaves", "signed-reading": "signed_reading_lem"}
MADE = ("Answers.antt", "Invariants.antt", "Choices.antt", "Proof.antt")


def files(ending):
    for folder, dirs, names in os.walk("crates"):
        dirs[:] = sorted(d for d in dirs if d not in ("out", "target"))
        for name in sorted(names):
            if name.endswith(ending):
                yield os.path.join(folder, name)


def read(path):
    with open(path, encoding="utf-8") as f:
        return f.read()


def has_clause(text, indented, name):
    """Whether the name is defined at that indentation, as in a module with parameters."""
    return re.search(r"(?m)^" + indented + re.escape(name) + r"( [^:\n]*)? =", text) is not None


def declared():
    """The declared names: functions with constructors and fields, of these the plain functions, and the lemmas."""
    functions, plain, lemmas = set(), set(), set()
    for path in files(".antt"):
        made = os.path.basename(path) in MADE and "/proofs/" in path
        inside = False
        text = read(path)
        for line in text.split("\n"):
            if line and (not line.startswith(" ") or re.match(r" +(pub )?(data|record) ", line)):
                inside = bool(re.match(r" *(pub )?(data|record) ", line))
            m = SIGNATURE.match(line)
            if " = " in line and not m:
                inside = False
            if not m or line.lstrip().startswith("--"):
                continue
            indented, marks, name = m.groups()
            if indented and not inside and not has_clause(text, indented, name):
                continue
            if made and re.search(r" : goal\.", line):
                continue
            if inside or re.search(r"abbrev|unfoldable|data|record", marks):
                functions.add(name)
                if re.search(r"abbrev|unfoldable", marks):
                    plain.add(name)
            else:
                lemmas.add(name)
    return functions, plain - PLAIN, lemmas


def snake(name):
    return name.replace("-", "_")


def respelled(name, functions):
    """A lemma's name: a dash stays where it joins the names of two definitions."""
    known = {snake(f) for f in functions} | WORDS
    parts = name.split("-")
    for i in range(1, len(parts)):
        left, right = "_".join(parts[:i]), "_".join(parts[i:])
        if left in known and right in known:
            return left + "-" + right
    return snake(name)


def source_functions():
    return {f for path in files(".rt") for f in re.findall(r"\bfn (\w+)", read(path))}


def renaming():
    functions, plain, lemmas = declared()
    out = {f: OTHERWISE.get(f, snake(f)) for f in functions if "-" in f}
    taken = source_functions()
    for lemma in lemmas - functions:
        new = OTHERWISE.get(lemma, respelled(lemma, plain))
        new += "_lem" if new in taken else ""
        if "-" in lemma and new != lemma:
            out[lemma] = new
    return out, functions, lemmas


def code_of(line, comment):
    """The line's text before its comment, and the comment."""
    at = line.find(comment)
    return (line, "") if at < 0 else (line[:at], line[at:])


def turned(text, names, comment):
    lines = []
    for line in text.split("\n"):
        code, rest = code_of(line, comment)
        pieces = re.split(r'("(?:[^"\\]|\\.)*")', code)
        pieces = [p if p.startswith('"') else NAME.sub(lambda m: names.get(m.group(0), m.group(0)), p) for p in pieces]
        lines.append("".join(pieces) + rest)
    return "\n".join(lines)


def main():
    names, functions, lemmas = renaming()
    taken = set()
    for path in files(".antt"):
        for line in read(path).split("\n"):
            taken |= set(NAME.findall(code_of(line, "--")[0]))
    sources = set()
    for path in files(".rt"):
        for line in read(path).split("\n"):
            sources |= set(re.findall(r"\w+", code_of(line, "//")[0]))
    for old, new in sorted(names.items()):
        if new in taken or new in sources:
            print(f"look: {old} becomes {new}, a name that stands already in " + " and ".join(w for w, s in (("antt", taken), ("src", sources)) if new in s))
    back = {}
    for old, new in names.items():
        back.setdefault(new, []).append(old)
    for new, olds in sorted(back.items()):
        if len(olds) > 1:
            print(f"look: {' and '.join(olds)} fall together as {new}")
    if "--write" in sys.argv:
        for path, comment in [(p, "--") for p in files(".antt")] + [(p, "//") for p in files(".rt")]:
            text = read(path)
            new = turned(text, names, comment)
            if new != text:
                with open(path, "w", encoding="utf-8") as f:
                    f.write(new)
    print(f"{len(names)} names respelled" if "--write" in sys.argv else f"{len(names)} names to respell")


main()
