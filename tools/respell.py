#!/usr/bin/env python3
"""Spells the repository's own definitions and lemmas as today's Rattle does: words in snake case, types and modules in upper camel case.

usage: python3 tools/respell.py            at the top of the repository, once, behind port.py
       python3 tools/respell.py --map      prints the names, old and new, and changes nothing

A name is this repository's own where a file of specs/ or a lemma file of proofs/ binds it and no file of the library has it. Functions of src/, exported
names, strings, inputs and outputs keep their names; so do the goals that Rattle names. In comments only what stands between backticks is turned.
"""

import os
import re
import sys

LIBRARY = "/opt/rattle/rattle"
TOKEN = re.compile(r"(?<![\w'])[A-Za-z][\w'ᴰ₀-₉]*(?:-[\w'ᴰ₀-₉]+)*")
LOWER_CAMEL = re.compile(r"[a-z][a-z0-9_]*[A-Z]")
# names that a blind change of port.py left between two spellings
MENDED = {"Received-as": "received_as", "Row-as": "row_as"}
# lemmas that port.py put into snake case already, in files where a definition gets the same spelling here
LEMMAS = {name: name + "_lem" for name in ("by_value", "by_hand", "numbers_of", "put_as", "no_record", "in_order")} | {"read_as": "answered"}
# an import's other name for an enum's variants, where a definition gets the same spelling
ALIASES = {"read_as": "read_kind", "added-as": "added_kind", "counts-as": "counts_kind", "given-as": "given_kind"}


def files(top, *endings):
    for folder, folders, names in os.walk(top):
        folders[:] = sorted(f for f in folders if f not in ("out", ".git"))
        for name in sorted(names):
            if name.endswith(endings):
                yield os.path.join(folder, name)


def read(path):
    with open(path, encoding="utf-8") as file:
        return file.read()


def without_comments(text, mark):
    return "\n".join(line.split(mark)[0] for line in text.split("\n"))


def library_names():
    names = set()
    for path in files(LIBRARY, ".antt"):
        names.update(TOKEN.findall(without_comments(read(path), "--")))
    return names


def binds(path):
    """A definition or lemma file, and not the proof of one function, whose names are those of its goals."""
    return "/specs/" in path or ("/proofs/" in path and os.path.basename(path) not in ("Proof.antt", "Answers.antt", "Invariants.antt"))


def is_old(name):
    return "-" in name or bool(LOWER_CAMEL.match(name))


def spelled(name):
    if name in MENDED:
        return MENDED[name]
    words = re.sub(r"(?<=[a-z0-9])([A-Z])", lambda m: "_" + m.group(1).lower(), name.replace("-", "_"))
    return words


def bound_names(text):
    """Names at the head of a line, fields, constructors, parameters, what a let or a λ binds, and other names of an import."""
    found = set()
    for line in without_comments(text, "--").split("\n"):
        for head in re.findall(r"^\s*(?:(?:abbrev|unfoldable) )?(?:pub )?((?:[^\s:(){}]+ )+):", line):
            found.update(TOKEN.findall(head))
        for inside in re.findall(r"[({]((?:[^\s:(){}]+ )+):", line):
            found.update(TOKEN.findall(inside))
        found.update(re.findall(r"\bas ([\w'-]+)", line))
        for name in re.findall(r"\blet ([^\s:=]+)", line):
            found.update(TOKEN.findall(name))
        for names in re.findall(r"λ ([^.()]+)\.", line):
            found.update(TOKEN.findall(names))
        equation = re.match(r"^\s*(?:pub )?[^=→:]+=", line)
        if equation:
            found.update(TOKEN.findall(equation.group(0)))
        for case in re.findall(r"[\[|]\s*([^↦|]+)↦", line):
            found.update(TOKEN.findall(case))
    return found


def own_names():
    library = library_names()
    bound, taken = set(), set()
    for path in files("crates", ".antt"):
        if binds(path):
            bound |= bound_names(read(path))
    old = {name for name in bound if is_old(name)}
    kept = {name for name in old if name in library and name in imported_names()}
    names = {name: spelled(name) for name in old - kept}
    apart(names, {name for name in bound if not is_old(name)})
    return names, sorted(kept)


def imported_names():
    """What files of ours bring in from the library."""
    found = set()
    for path in files("crates", ".antt"):
        for names in re.findall(r"^use (?:lib|mathlib|native|mir|borrow|Prim|denote|Rattle\.(?:std|core))[^{\n]*\{([^}]*)\}", read(path), re.M):
            found.update(TOKEN.findall(names))
    return found


def apart(names, snake):
    """No two names fall together: a lemma that would have its function's name gets '_lem'."""
    definitions = {names[name] for name in names if "-" not in name}
    for name in names:
        if name in ALIASES:
            names[name] = ALIASES[name]
        elif "-" in name and (names[name] in definitions or names[name] in snake):
            names[name] += "_lem"


def local_names(path, text, names):
    """The names of one file: with its lemmas, and its other names of enums, that would meet a definition."""
    here = dict(names)
    words = set(TOKEN.findall(text))
    for name in LEMMAS:
        if name in words and any(names.get(word) == name for word in words):
            here[name] = LEMMAS[name]
    return here


def turn_aliases(text):
    for name in ALIASES:
        if re.search(r" as " + name + r"(?![\w-])", text):
            text = re.sub(r"( as )" + name + r"(?![\w-])|(?<![\w.-])" + name + r"(?=\.)", lambda m: (m.group(1) or "") + ALIASES[name], text)
    return text


def turned(text, names):
    return TOKEN.sub(lambda m: names.get(m.group(0), m.group(0)), text)


def turn_comment(text, names):
    return re.sub(r"`[^`]*`", lambda m: turned(m.group(0), names), text)


def turn_line(line, mark, names):
    code, sign, comment = line.partition(mark)
    return turned(code, names) + sign + turn_comment(comment, names)


def turn_source_line(line, names):
    """A line of a .rt file; a string keeps its words."""
    code, sign, comment = line.partition("//")
    parts = re.split(r'("(?:[^"\\]|\\.)*")', code)
    return "".join(part if part.startswith('"') else turned(part, names) for part in parts) + sign + turn_comment(comment, names)


def clashes(names):
    """Where a new spelling is already another name of the same file."""
    for path in files("crates", ".antt", ".rt"):
        here = set(TOKEN.findall(read(path)))
        for name in sorted(here):
            new = names.get(name)
            if new and new in here:
                yield path, name, new


def main(words):
    names, kept = own_names()
    if words == ["--map"]:
        for name in sorted(names):
            print(name, names[name])
        new = {}
        for name in sorted(names):
            new.setdefault(names[name], []).append(name)
        for name in new:
            if len(new[name]) > 1:
                print("fall together:", name, new[name])
        for clash in clashes(names):
            print("clash:", *clash)
        print("kept:", *kept)
        return 0
    for path in files("crates", ".antt", ".rt"):
        text = read(path)
        here = local_names(path, text, names)
        lines = turn_aliases(text).split("\n")
        if path.endswith(".rt"):
            made = "\n".join(turn_source_line(line, here) for line in lines)
        else:
            made = "\n".join(turn_line(line, "--", here) for line in lines)
        if made != text:
            with open(path, "w", encoding="utf-8") as file:
                file.write(made)
    return 0


if __name__ == "__main__":
    raise SystemExit(main(sys.argv[1:]))
