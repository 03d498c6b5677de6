#!/usr/bin/env python3
"""Brings the repository's own definitions and lemmas to today's spelling, after port.py, once.

usage: python3 tools/respell.py        at the top of the repository

Words are in snake case: a definition, lemma, field or constructor of specs/ or proofs/ that is written in camel case
and does not begin with a capital is turned, as `subCells` to `sub_cells`. A namespace is a module: a name that is
imported under an alias with a middle dot, as `two as Block·two`, is imported as it is, where nothing in the file has
that name, and else under the alias with `_` for the dot and a small letter. Functions of src/, exported names, strings,
inputs and outputs keep theirs. Must-fail edits of specs/ and proofs/, kept here or under tests/wrong, are turned in the
same way.
It says which names fall together, and then writes nothing.
"""

import os
import re
import sys

WORD = "A-Za-z0-9_'\u2032\u2080-\u2089\u0370-\u03ff\u00b7"
TOKEN = re.compile(r"(?<![" + WORD + r"-])[A-Za-z_\u0370-\u03ff][" + WORD + r"]*(?:-(?=[A-Za-z0-9])[" + WORD + r"]+)*")
DEFINED = re.compile(r"^[ ]*((?:(?:abbrev|unfoldable|pub) )*)([^\s:(){}\"`]+)((?: [^\s:(){}\"`]+)*) :(?= |$)")
NOT_NAMES = {"module", "record", "data", "open", "use", "where", "let", "in", "elim", "pub", "mod", "ruleset", "deriving"}


def read(path):
    with open(path, encoding="utf-8") as f:
        return f.read()


def antt_files():
    for folder, dirs, files in os.walk("crates"):
        dirs[:] = sorted(d for d in dirs if d != "out")
        parts = folder.split(os.sep)
        if len(parts) > 2 and parts[2] in ("specs", "proofs"):
            for f in sorted(files):
                if f.endswith(".antt"):
                    yield os.path.join(folder, f)


def rt_files():
    for folder, dirs, files in os.walk("crates"):
        dirs[:] = sorted(d for d in dirs if d != "out")
        for f in sorted(files):
            if f.endswith(".rt"):
                yield os.path.join(folder, f)


def edits():
    for top in ("crates", "tests/wrong"):
        for folder, dirs, files in os.walk(top):
            dirs[:] = sorted(d for d in dirs if d != "out")
            for f in sorted(files):
                if f.endswith(".edit"):
                    yield os.path.join(folder, f)


def snake(name):
    name = re.sub(r"([a-z0-9\u2080-\u2089])([A-Z])", lambda m: m.group(1) + "_" + m.group(2).lower(), name)
    return name


def names():
    """The names that specs/ and the files of lemmas define."""
    found = set()
    for path in antt_files():
        if len(path.split(os.sep)) > 4:
            continue  # a function's own proof
        for line in read(path).split("\n"):
            m = DEFINED.match(line)
            if not m or line.lstrip().startswith("--") or len(line) - len(line.lstrip(" ")) > 6:
                continue
            for name in [m.group(2)] + m.group(3).split():
                if name not in NOT_NAMES and re.match(r"[A-Za-z_]", name):
                    found.add(name)
    return found


def turned(found):
    # two lemmas that port.py gave the name which a definition beside them gets here: they keep their dash
    table = {"handed_out": "handed-out", "tag_in": "tag-in"}
    for name in found - {"eE"}:  # a local name
        new = "-".join(part if part[0].isupper() else snake(part) for part in name.split("-"))
        if new != name:
            table[name] = new
    return table


def tokens(text):
    return set(TOKEN.findall(text))


def clauses(text):
    """The stretches of a source file that are antt: ghost use lines, and what stands in the braces of clauses."""
    for m in re.finditer(r"ghost use [^;]*;", text):
        yield m.start(), m.end()
    for m in re.finditer(r"(?:requires|ensures|ghost)\*?(?: \w+)? ?[:=]? ?\{", text):
        depth, at = 1, m.end()
        while depth and at < len(text):
            depth += {"{": 1, "}": -1}.get(text[at], 0)
            at += 1
        yield m.end(), at - 1


def turn(text, table):
    return TOKEN.sub(lambda m: table.get(m.group(0), m.group(0)), text)


def turn_source(text, table):
    out, last = "", 0
    for start, end in sorted(clauses(text)):
        if start < last:
            continue
        out += text[last:start] + turn(text[start:end], table)
        last = end
    return out + text[last:]


def drop_aliases(text, clauses_of=lambda text: text):
    """`a as B·a` to `a`, unless the file has that name already, and else to `b_a`."""
    for old, alias in set(re.findall(r"([\w'-]+) as ([\w']+\u00b7[\w'-]+)", text)):
        rest = clauses_of(text.replace(f"{old} as {alias}", ""))
        new = alias.replace("\u00b7", "_").lower() if old in tokens(rest) else old
        text = text.replace(f"{old} as {alias}", old if new == old else f"{old} as {new}")
        text = re.sub(r"(?<![" + WORD + r"])" + re.escape(alias) + r"(?![" + WORD + r"-])", new, text)
    return text


def main():
    if not os.path.isdir("crates"):
        print(__doc__)
        return 2
    found = names()
    table = turned(found)
    bad = False
    back = {}
    for old, new in sorted(table.items()):
        if new in found and new not in table:
            print(f"falls together: {old} would be {new}, which is defined already")
            bad = True
        if new in back:
            print(f"falls together: {old} and {back[new]} would both be {new}")
            bad = True
        back[new] = old
    if "--show" in sys.argv:
        for old, new in sorted(table.items()):
            print(old, "->", new)
        return 0
    if bad:
        return 1
    for path in antt_files():
        text = read(path)
        new = drop_aliases(turn(text, table))
        if new != text:
            open(path, "w", encoding="utf-8").write(new)
    for path in rt_files():
        text = read(path)
        new = drop_aliases(turn_source(text, table), lambda t: " ".join(t[a:b] for a, b in clauses(t)))
        if new != text:
            open(path, "w", encoding="utf-8").write(new)
    for path in edits():
        text = read(path)
        lines = text.split("\n")
        file = next((l for l in lines if l.startswith("file: ")), "")
        if file.startswith(("file: specs/", "file: proofs/")):
            lines = [turn(l, table) if l.startswith(("old: ", "new: ")) else l for l in lines]
            if "\n".join(lines) != text:
                open(path, "w", encoding="utf-8").write("\n".join(lines))
    print(f"{len(table)} names turned")
    return 0


if __name__ == "__main__":
    raise SystemExit(main())
