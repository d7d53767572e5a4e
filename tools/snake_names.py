#!/usr/bin/env python3
"""Brings the names of this repository's own definitions and lemmas to snake case, once, after the kit's port.py.

usage: python3 tools/snake_names.py [--list]      at the top of the repository, over what port.py wrote; --list prints the table alone

Every word that specs/ or proofs/ declares and that has a dash or a capital inside becomes snake case, wherever it stands: in .antt files,
in the clauses of .rt files, in must-fail edits and in the pages (but not in the landing notes, which keep the names of their day). A lemma that would then have a definition's name ends in _lem. Types,
modules, constructors, functions of src/, exported names and the names that Rattle makes for goals stay as they are.
"""

import os
import re
import sys

WORD = r"[A-Za-z_][\w'\u2032-]*"
OURS = r"Rattle\.(?:convention|fields|exploring|sheet|table|stepping|placing|walking|building|certifying|judging|demands|teaselram|cases|line|judge_sheet)\b"
# Fields of the page of the demands: they name a call, and nothing that follows them in their record cites the definition of that name.
FIELDS = {"by-rules", "by-table"}


def files(*endings):
    found = []
    for folder, dirs, names in os.walk("."):
        dirs[:] = sorted(d for d in dirs if d not in ("out", ".git", "target", "tools", "landings"))
        found += [os.path.join(folder, n) for n in sorted(names) if n.endswith(endings)]
    return found


def page(path):
    """Whether a file holds definitions or lemmas, and is not the proof of one function."""
    parts = path.split(os.sep)[1:]
    return parts[0] == "crates" and path.endswith(".antt") and (parts[2] == "specs" or len(parts) == 4)


def read(path):
    with open(path, encoding="utf-8") as f:
        return f.read()


def odd(word):
    return bool("-" in word or "\u2032" in word or re.match(r"[a-z]\w*[A-Z]", word)) and not re.match(r"x[0-9A-F]{2}$", word)


def snake(word):
    out = []
    for part in word.split("-"):
        if not part[:1].isupper():
            part = re.sub(r"(?<=[a-z0-9'])([A-Z])", lambda m: "_" + m.group(1).lower(), part)
        out.append(part)
    return "_".join(out).replace("\u2032", "'")


def imported(text):
    """The words that a file imports from a library."""
    words = set()
    for m in re.finditer(r"^(?:ghost )?use ([^\s{]+)\.\{([^}]*)\}", text, re.M):
        if not re.match(OURS, m.group(1)):
            for item in m.group(2).split(","):
                words.update(re.findall(WORD, item))
    return words


def code_of(text):
    return re.sub(r"--.*", "", text)


def table():
    lib, seen, kept = set(), set(), set()
    for p in files(".antt"):
        if page(p):
            t = read(p)
            lib |= imported(t)
            body = re.sub(r"^use .*$", "", code_of(t), flags=re.M)
            seen.update(re.findall(WORD, body))
    names = {w for w in seen if odd(w) and w not in lib}
    kept = {w for w in seen if not odd(w)}
    camel = {w: snake(w) for w in names if "-" not in w}
    lemma = {w: snake(w) for w in names if "-" in w}
    taken = set(camel.values()) | kept
    for w, new in lemma.items():
        if new in set(camel.values()) and w not in FIELDS:
            lemma[w] = new + "_lem"
    return {**camel, **lemma}, taken


def turn(text, names):
    return re.sub(r"(?<![\w'\u2032-])" + WORD, lambda m: names.get(m.group(0), m.group(0)), text)


def in_words(text, names):
    """In prose a word with a dash is a name only between backticks; one with a capital inside is a name anywhere."""
    capitals = {a: b for a, b in names.items() if "-" not in a}
    parts = re.split(r"(`[^`\n]*`)", text)
    return "".join(turn(x, names if i % 2 else capitals) for i, x in enumerate(parts))


def rewrite(path, names):
    t = read(path)
    if path.endswith(".antt"):
        if not page(path):
            own = set(re.findall(r"^(?:abbrev |unfoldable |pub )*(" + WORD + r") :(?!=)", t, re.M)) | imported(t)
            names = {a: b for a, b in names.items() if a not in own}
        else:
            names = {a: b for a, b in names.items() if a not in imported(t)}
        lines = []
        for line in t.split("\n"):
            code, dash, words = line.partition("--") if re.search(r"(^|\s)--(\s|$)", line) else (line, "", "")
            lines.append(turn(code, names) + dash + in_words(words, names))
        new = "\n".join(lines)
    elif path.endswith((".rt", ".edit")):
        lines = []
        for line in t.split("\n"):
            prose = re.match(r"\s*(//|#(?!\[))", line)
            lines.append(in_words(line, names) if prose else turn(line, names))
        new = "\n".join(lines)
    else:
        new = in_words(t, names)
    if new != t:
        with open(path, "w", encoding="utf-8") as f:
            f.write(new)


def main():
    names, taken = table()
    if "--list" in sys.argv:
        for a in sorted(names):
            print(a, names[a])
        return
    for p in files(".antt", ".rt", ".edit", ".md"):
        rewrite(p, names)


main()
