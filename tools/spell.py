#!/usr/bin/env python3
"""Brings the repository's own definitions and lemmas to snake case: run once, at the top, on what port.py wrote.

A name is one that stands in a .antt file below crates/ outside comments, begins with a small letter and has a capital behind a
small letter, a digit or an apostrophe. Each becomes small letters with _ between the words, in .antt and .rt files (outside
string literals) and in must-fail edits. Types, modules and constructors that begin with a capital stay.
`tools/spell.py names` prints the names and what they become, and writes nothing."""
import glob, os, re, sys

ROOT = os.path.dirname(os.path.dirname(os.path.realpath(__file__)))
TOKEN = re.compile(r"(?<![A-Za-z0-9_'])[A-Za-z_][A-Za-z0-9_'₀-₉]*")
CAMEL = re.compile(r"(?<=[a-z0-9'])[A-Z]")
STRING = re.compile(r'(b?"(?:[^"\\\n]|\\.)*")')

def files(*endings):
    return sorted(f for e in endings for f in glob.glob(os.path.join(ROOT, "crates", "**", "*" + e), recursive=True) if "/out/" not in f)

def read(f): return open(f, encoding="utf-8").read()

def snake(t): return CAMEL.sub(lambda m: "_" + m.group().lower(), t)

def names():
    out = set()
    for f in files(".antt"):
        for line in read(f).split("\n"):
            code = re.sub(r"(^|\s)--(\s.*|$)", "", line)
            out |= {t for t in TOKEN.findall(STRING.sub("", code)) if t[0].islower() and CAMEL.search(t)}
    return out

def main():
    turn = {t: snake(t) for t in names()} | {"getD": "get_or"}  # the library's name for it today
    if sys.argv[1:] == ["names"]:
        for t in sorted(turn): print(t, turn[t])
        return
    back = {}
    for t, s in turn.items():
        if s in back: sys.exit(f"{t} and {back[s]} fall together")
        back[s] = t
    each = lambda text: TOKEN.sub(lambda m: turn.get(m.group(), m.group()), text)
    for f in files(".antt", ".rt", ".edit"):
        old = read(f)
        parts = [old] if f.endswith(".edit") else STRING.split(old)
        new = "".join(p if i % 2 else each(p) for i, p in enumerate(parts))
        if new != old: open(f, "w", encoding="utf-8").write(new)

main()
