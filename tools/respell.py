#!/usr/bin/env python3
"""Gives the repository's own definitions and lemmas the spelling of the kit: words in snake case, types and modules in camel case, ' for a prime.

usage: python3 tools/respell.py [--list]     at the top of the repository, once, after the kit's port.py

A name is the repository's own if a file of specs/ or proofs/, or a ghost member, declares it: names of std, and those that the
prover makes of the source (loop-p-preserved, returns-then-test), stay as they are. Comments and pages change only between backticks,
and must-fail edits where they turn a file of specs/ or proofs/. It stops, and writes nothing, where two names would fall together.
"""

import os
import re
import sys

NAME = r"[^\W\d][\w'′?]*(?:-[\w'′?]+)*-?"
TOKEN = re.compile(r"(?<![\w'′?◌-])" + NAME + r"(?![\w'′?-])")
MADE = re.compile(r"^(loop-|returns-|returns$|invariant-|decreases-|overflow|in_err|in_ok|.*-(requires|preserved|init|smaller)(-\d+)?$)")
MEMBERS = {"numberOf": "number_of", "widthOf": "width_of"}


def files():
    for folder, dirs, names in os.walk("crates"):
        dirs[:] = sorted(d for d in dirs if d != "out")
        for name in sorted(names):
            yield os.path.join(folder, name)


def code(line, mark):
    """The part of a line before its comment, and the comment."""
    at = line.find(mark)
    return (line, "") if at < 0 else (line[:at], line[at:])


def declared(text):
    """The names that a file of specs/ or proofs/ declares: those in front of a colon, alone or in brackets, and bound by let or a clause."""
    found = set()
    for line in text.splitlines():
        part, _ = code(line, "-- ")
        for it in re.finditer(r"(?:^|[({])\s*((?:(?:pub|abbrev|unfoldable|pattern|instance|let|in|field) )*)((?:" + NAME + r" )+):", part):
            if re.search(r": (goal|given|need|cases)\.", part[it.end() - 1:]):
                continue
            found |= set(it.group(2).split())
        for it in re.finditer(r"\b(?:data|record|let|in) (" + NAME + r")", part):
            found.add(it.group(1))
        it = re.match(r"(" + NAME + r")(?: " + NAME + r")* = ", part)
        if it:
            found.add(it.group(1))
    return found


def foreign(text):
    """The names that a file takes from std, or from what the prover makes."""
    found = set()
    for it in re.finditer(r"use Rattle\.std\.[\w.'+-]*\.\{([^}]*)\}", text):
        found |= {x.strip().split(" ")[0] for x in it.group(1).split(",")}
    for it in re.finditer(r"use Rattle\.[\w.+-]*\.(?:Goals|Given)(?:\.\{([^}]*)\})?", text):
        found |= {x.strip().split(" ")[0] for x in (it.group(1) or "").split(",")}
    return found


def spelled(name):
    if name in MEMBERS:
        return MEMBERS[name]
    name = name.replace("′", "'")
    if "-" not in name:
        return name
    if name[0].isupper():
        return "".join(w[:1].upper() + w[1:] for w in name.split("-"))
    return name.replace("-", "_")


def apart(names, words, functions):
    """Stops where a file would hold two things under one name, or two of the names get the same spelling. A function may have the name of what it computes."""
    taken, bad = {}, []
    for old, new in sorted(names.items()):
        if new in taken:
            bad.append(f"{old} and {taken[new]} are both {new}")
        taken[new] = old
        bad += [f"{old} and {new} in {path}" for path, found in sorted(words.items()) if old in found and new in found and new not in functions]
    if bad:
        sys.exit("respell: these would fall together: " + "; ".join(bad))


def plan():
    own, other, seen, functions, words = set(), set(), set(), set(), {}
    for path in files():
        if not path.endswith((".antt", ".rt")):
            continue
        with open(path, encoding="utf-8") as f:
            text = f.read()
        if path.endswith(".antt"):
            own |= declared(text)
        if path.endswith(".rt"):
            functions |= set(re.findall(r"\bfn (\w+)", text))
        for it in re.finditer(r"\bghost (\w+)", text):
            own.add(it.group(1))
        other |= foreign(text)
        words[path] = {t.group(0) for l in text.splitlines() for t in TOKEN.finditer(code(l, "-- " if path.endswith(".antt") else "//")[0])}
        seen |= words[path]
    names = {n: spelled(n) for n in own if spelled(n) != n and n not in other and not MADE.match(n)}
    apart(names, words, functions)
    left = sorted(t for t in seen if ("-" in t or "′" in t) and t not in names)
    return names, left


def turned(text, names):
    return TOKEN.sub(lambda it: names.get(it.group(0), it.group(0)), text)


def quoted(text, names):
    return re.sub(r"`[^`\n]*`", lambda it: turned(it.group(0), names), text)


def respell(path, names):
    with open(path, encoding="utf-8") as f:
        text = f.read()
    lines = text.split("\n")
    if path.endswith((".antt", ".rt")):
        mark = "-- " if path.endswith(".antt") else "//"
        lines = [turned(c, names) + quoted(r, names) for c, r in (code(l, mark) for l in lines)]
    elif path.endswith(".edit"):
        ghost = re.search(r"^file: (specs|proofs)/", text)
        lines = [turned(l, names) if ghost and l.startswith(("old: ", "new: ")) else l for l in lines]
    elif path.endswith(".md"):
        lines = [quoted(l, names) for l in lines]
    if "\n".join(lines) != text:
        with open(path, "w", encoding="utf-8") as f:
            f.write("\n".join(lines))
        return 1
    return 0


def main():
    names, left = plan()
    if "--list" in sys.argv[1:]:
        for old, new in sorted(names.items()):
            print(old, new)
        print("left:", " ".join(left))
        return
    pages = ["README.md"] + [os.path.join("docs", p) for p in sorted(os.listdir("docs")) if p.endswith(".md")]
    count = sum(respell(p, names) for p in [*files(), *pages] if p.endswith((".antt", ".rt", ".edit", ".md")))
    print(f"respell: {len(names)} names, {count} files")


main()
