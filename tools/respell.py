#!/usr/bin/env python3
"""Respells the repository's own definitions and lemmas: words in snake case. Run once, on what port.py of the kit left.

usage: tools/respell.py        at the top of the repository

tools/respell.tsv has the old and the new name of each. A name is changed in definitions, proofs, contracts and comments;
a name that a file imports from the library, a name that the check made (a step of a walk by hand), a string, and a name of
src/ stay. In pages and in comments a name with a dash is changed only between backticks, since English has dashes too.
"""
import os
import re
import sys

TOP = os.path.dirname(os.path.dirname(os.path.realpath(__file__)))
NAMES = dict(line.rstrip("\n").split("\t") for line in open(os.path.join(TOP, "tools", "respell.tsv"), encoding="utf-8"))
CHAR = "A-Za-z0-9_'\\-\u2080-\u2089"
TOKEN = re.compile(rf"(?<![{CHAR}])[{CHAR}]+")
WALK = re.compile(r"(?:^|[^A-Za-z0-9_'-])(?:a|c|before)\.$")
PAGES = ["README.md", "docs", "differential/README.md", "bench/README.md"]


def imported(text):
    """The names that a file of antt imports from the library."""
    found = set()
    for line in text.split("\n"):
        m = re.match(r"(?:pub )?use ([^ {]+?)\.\{(.*)\}$", line.strip())
        if m and (not m.group(1).startswith("Rattle.") or m.group(1).startswith("Rattle.std.")):
            found |= {part.split(" as ")[0].strip() for part in m.group(2).split(",")}
    return found


def turn(text, keep, dashes):
    def new(m):
        word = m.group(0)
        if word in keep or word not in NAMES or ("-" in word and not dashes):
            return word
        if "-" in word and WALK.search(text[max(0, m.start() - 12):m.start()]):
            return word
        return NAMES[word]
    return TOKEN.sub(new, text)


def ticked(text, keep):
    """A comment or a page: names without a dash, and between backticks those with one."""
    parts = re.split(r"(`[^`\n]*`)", text)
    return "".join(turn(part, keep, part.startswith("`")) for part in parts)


def antt(text):
    keep = imported(text)
    lines = []
    for line in text.split("\n"):
        at = line.find("--")
        while at > 0 and not line[:at].isspace() and line[at - 1] != " ":
            at = line.find("--", at + 1)
        code, note = (line, "") if at < 0 else (line[:at], line[at:])
        lines.append(turn(code, keep, True) + ticked(note, keep))
    return "\n".join(lines)


def rt(text):
    parts = re.split(r'("(?:[^"\\]|\\.)*")', text)
    return "".join(part if part.startswith('"') else ticked(part, set()) for part in parts)


def page(text):
    parts = re.split(r"(`[^`\n]*`)", text)
    return "".join(turn(part, set(), True) if part.startswith("`") else part for part in parts)


def files():
    for folder, dirs, names in os.walk(os.path.join(TOP, "crates")):
        dirs[:] = sorted(d for d in dirs if d != "out")
        for name in sorted(names):
            path = os.path.join(folder, name)
            if name.endswith(".antt"):
                yield path, antt
            elif name.endswith(".rt"):
                yield path, rt
    for name in PAGES:
        path = os.path.join(TOP, name)
        inside = [os.path.join(path, f) for f in sorted(os.listdir(path))] if os.path.isdir(path) else [path]
        for one in inside:
            if one.endswith(".md"):
                yield one, page


def main():
    if sys.argv[1:2] in (['-h'], ['--help']):
        print(__doc__.strip())
        return
    with open(os.path.join(TOP, "crates/protocol/specs/Step.antt"), encoding="utf-8") as f:
        if NAMES["handleInput"] in f.read():
            raise SystemExit("respell: it has run here before. A second run would turn new names that are also old ones")
    changed = 0
    for path, how in files():
        with open(path, encoding="utf-8") as f:
            old = f.read()
        new = how(old)
        if new != old:
            changed += 1
            with open(path, "w", encoding="utf-8") as f:
                f.write(new)
    print(f"respell: {changed} files")


if __name__ == "__main__":
    main()
